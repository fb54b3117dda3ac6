//! What the repository's own tests may use beside the forms of the package: the runtime that the
//! kit hands a test, and the calls that take it. `rust/erased_tests` has them below `crate::host`.

use crate::forms::{module, Associated, Forms, Import, Module, Renamed, OF_RIGHT};

/// The names.
pub static HOST: Forms = Forms {
    modules: MODULES,
    prelude: &[
        import("AllocGlobal", "crate::host::rt::AllocGlobal"),
        import("Print", "crate::host::rt::Print"),
        import("HostRuntime", "crate::host::rt::HostRuntime"),
        import("String", "crate::host::string::String"),
    ],
    macros: &[
        import("assert", "crate::host::assert"),
        import("assert_eq", "crate::host::assert_eq"),
        import("print", "crate::host::print"),
        import("println", "crate::host::println"),
        import("panic", "crate::host::panic"),
    ],
    kept_macros: &["anyhow", "ensure", "writeln"],
    renamed: RENAMED,
    methods: METHODS,
    associated: ASSOCIATED,
    runtime: Some("HostRuntime"),
    hands_out_right: &["AllocGlobal", "HostRuntime"],
    bare: &[],
    statics: false,
};

const fn import(name: &'static str, path: &'static str) -> Import {
    Import { name, path }
}

const MODULES: &[Module] = &[
    module(
        "anyhow",
        "crate::host::anyhow",
        &["Result", "anyhow", "ensure"],
    ),
    module(
        "std::collections",
        "crate::host::collections",
        &["BTreeMap", "HashMap"],
    ),
    module("std::cell", "core::cell", &["Cell"]),
    module("std::env", "crate::host::env", &["args"]),
    module(
        "std::fs",
        "crate::host::fs",
        &["File", "metadata", "read_to_string"],
    ),
    module(
        "std::io",
        "std::io",
        &["Error", "ErrorKind", "Read", "Result", "Write"],
    ),
    module("std::process", "crate::host::rt", &["Abort"]),
    module("std::rt", "crate::host::rt", &["Files"]),
    module(
        "std::sync::atomic",
        "core::sync::atomic",
        &["AtomicBool", "AtomicU32", "AtomicU64", "Ordering"],
    ),
    module("std::test", "crate::host::test", &["Fail"]),
    module(
        "std::thread",
        "crate::host::thread",
        &["Threads", "join_mut", "map_vec", "yield_now"],
    ),
];

const RENAMED: &[Renamed] = &[
    Renamed {
        from: "append",
        arguments: &[&["&", "mut"]],
        to: "append_copies",
        import: "crate::host::slice::AppendCopies",
    },
    Renamed {
        from: "expect",
        arguments: &[&["rt", ","], &["&", "rt", ","]],
        to: "expect_in",
        import: "crate::host::rt::ExpectIn",
    },
    Renamed {
        from: "ok_or",
        arguments: &[&["\""]],
        to: "ok_or_text",
        import: "crate::host::test::OkOrText",
    },
    Renamed {
        from: "to_string",
        arguments: &[OF_RIGHT],
        to: "to_string_in",
        import: "crate::host::string::ToStringIn",
    },
    Renamed {
        from: "to_vec",
        arguments: &[OF_RIGHT],
        to: "to_kit_vec",
        import: "crate::host::slice::ToKitVec",
    },
];

const METHODS: &[&str] = &[
    "alloc",
    "as_str",
    "bytes",
    "checked_rem",
    "div_ceil",
    "ends_with",
    "eq",
    "err",
    "fail",
    "flush",
    "is_dir",
    "kind",
    "load",
    "map_or",
    "nth",
    "skip",
    "skip_while",
    "sort",
    "lines",
    "push_str",
    "read",
    "split",
    "split_once",
    "split_whitespace",
    "starts_with",
    "strip_prefix",
    "strip_suffix",
    "trim",
    "step_by",
    "store",
    "wrapping_add",
    "wrapping_mul",
    "wrapping_sub",
    "write",
    "write_all",
    "write_text",
];

const ASSOCIATED: &[Associated] = &[
    ("AtomicBool", &["new"]),
    ("AtomicU32", &["new"]),
    ("Error", &["from"]),
    (
        "ErrorKind",
        &[
            "BrokenPipe",
            "Interrupted",
            "IsADirectory",
            "NotADirectory",
            "NotFound",
            "OutOfMemory",
            "TimedOut",
        ],
    ),
    ("Cell", &["new"]),
    ("Fail", &["new"]),
    ("File", &["open"]),
    ("HashMap", &["new"]),
    ("Ordering", &["Equal", "Greater", "Less", "SeqCst"]),
    ("String", &["from_str", "new", "with_capacity"]),
    ("i64", &["MAX", "MIN", "from", "try_from"]),
    ("Vec", &["from_slice", "new", "with_capacity"]),
];
