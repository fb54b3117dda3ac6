//! The forms that are known: what is taken out, what is rewritten, and what stays. Whatever is in
//! no list here is refused.

/// Members of `impl` blocks of the kit's traits that are terms for proofs alone. Those that the
/// traits of the sources declare are known too.
pub const GHOST_MEMBERS: &[&str] = &[
    "Value",
    "both",
    "cmp",
    "coded",
    "contents",
    "eq",
    "first",
    "from_gives",
    "hash_input",
    "holds",
    "invariant",
    "inverse",
    "inverse_ok",
    "is_clone",
    "is_default",
    "is_infallible",
    "laws",
    "left",
    "matches_eq",
    "matches_partial_cmp",
    "next_back_gives",
    "next_gives",
    "output",
    "partial_cmp",
    "remaining",
    "respects_eq",
    "right",
    "spent",
    "then",
    "total",
    "view",
];

/// Files in which `pub(crate)` stays, since the package's own `several` lends several values of a
/// map at once. No contract can say what the map is after that.
pub const OPENED: &[&str] = &[
    "ent_storage/src/handle_map.rt",
    "ent_storage/src/handle_map/generation.rt",
    "ent_storage/src/handle_map/slot.rt",
    "ent_storage/src/sparse_map.rt",
];

/// The words that begin a clause of a contract. A clause with a star is one too.
pub const CLAUSES: &[&str] = &["requires", "ensures"];

/// Traits of which each `impl` is ghost as a whole.
pub const GHOST_TRAITS: &[&str] = &["Model"];

/// A type that isn't `Drop` has to be used up. Rust knows no such types, so the name goes, from
/// derives and from bounds.
pub const DROP: &str = "Drop";

/// The type of the right to allocate, which the kit's `std::alloc` has. A value of it goes,
/// wherever it is handed on.
pub const RIGHT: &str = "Global";

/// Types of the kit whose last argument may be that type.
pub const RIGHT_TYPES: &[&str] = &["Arc", "IntoIter", "Table", "Vec"];

/// In a list of how arguments may begin: the right to allocate, and no more.
pub const OF_RIGHT: &[&str] = &["alloc"];

/// The type by which a struct has a type parameter that none of its other fields has.
pub const PHANTOM: &str = "PhantomData";

/// The type that a call passes for a ghost parameter whose meaning its proof picks.
pub const BRAND: &str = "Brand";

/// Attributes that speak to the prover.
pub const GHOST_ATTRIBUTES: &[&str] = &["tactic", "cycle"];

/// Attributes that stay as they are.
pub const KEPT_ATTRIBUTES: &[&str] = &[
    "cfg(test)",
    "cold",
    "inline",
    "inline(always)",
    "inline(never)",
    "must_use",
    "non_exhaustive",
    "test",
];

/// Derives that stay. `Clone` does only beside `Copy`: else it may fail where Rust's may not.
pub const KEPT_DERIVES: &[&str] = &[
    "Clone",
    "Copy",
    "Debug",
    "Default",
    "Eq",
    "Hash",
    "Ord",
    "PartialEq",
    "PartialOrd",
];

/// The derive that is written out: `Display` by the messages of `#[error("..")]`, and `Error`.
pub const ERROR_DERIVE: &str = "Error";

/// A trait of std or of the kit whose `impl` means the same in Rust as in the kit.
pub struct KeptTrait {
    /// Its name.
    pub name: &'static str,
    /// What an `impl` of it may have: what it must have, and what the kit calls as Rust does.
    pub members: &'static [&'static str],
}

const fn kept(name: &'static str, members: &'static [&'static str]) -> KeptTrait {
    KeptTrait { name, members }
}

/// Those traits. The traits of the sources are known too.
const KEPT_TRAITS: &[KeptTrait] = &[
    kept("Debug", &["fmt"]),
    kept("Clone", &["clone"]),
    kept("Default", &["default"]),
    kept("Display", &["fmt"]),
    kept("DoubleEndedIterator", &["next_back"]),
    kept("Eq", &[]),
    kept("Error", &[]),
    kept("ExactSizeIterator", &["len"]),
    kept("From", &["from"]),
    kept("Hash", &["hash"]),
    kept("Iterator", &["Item", "next", "size_hint"]),
    kept("Join", &[]),
    kept("Ord", &["cmp"]),
    kept("PartialEq", &["eq"]),
    kept("PartialOrd", &["partial_cmp"]),
    kept("Play", &[]),
    kept("Split", &[]),
    kept("TableRule", &[]),
    kept("Write", &["flush", "write"]),
];

/// The trait of std or of the kit of this name.
pub fn kept_trait(name: &str) -> Option<&'static KeptTrait> {
    KEPT_TRAITS.iter().find(|it| it.name == name)
}

/// The traits by which a value is written. A type may have both, though both have a `fmt`: a call
/// names the trait.
const TEXTS: &[&str] = &["Debug", "Display"];

/// Whether these two are those traits.
pub fn are_texts(one: Option<&str>, other: Option<&str>) -> bool {
    one != other
        && [one, other]
            .iter()
            .flatten()
            .filter(|it| TEXTS.contains(it))
            .count()
            == 2
}

/// Words after which a source declares a name.
pub const DECLARING: &[&str] = &[
    "const", "enum", "fn", "mod", "static", "struct", "trait", "type",
];

/// Types of Rust and of the kit that have no method and lead to none. So the sources may implement
/// a trait for them.
pub const OPEN_TYPES: &[&str] = &["()", "Either"];

/// Methods that nearly every type has by a trait of Rust's prelude, or by a derive, or that a macro
/// calls. A type must have no method of its own with such a name: the rules of look-up would decide
/// which of the two is called.
pub const COMMON_METHODS: &[&str] = &[
    "as_mut",
    "as_ref",
    "borrow",
    "borrow_mut",
    "clamp",
    "clone",
    "clone_from",
    "cmp",
    "eq",
    "fmt",
    "ge",
    "gt",
    "hash",
    "into",
    "into_iter",
    "le",
    "lt",
    "max",
    "min",
    "ne",
    "partial_cmp",
    "to_owned",
    "to_string",
    "try_into",
    "type_id",
    "write_fmt",
];

/// All methods of std that a value may have.
const STD_METHODS: &str = include_str!("std_methods.txt");

/// Whether a type or a trait of std has a method of this name.
pub fn is_of_std(name: &str) -> bool {
    let lines = STD_METHODS.lines().filter(|line| !line.starts_with('#'));
    lines.flat_map(str::split_whitespace).any(|it| it == name)
}

/// Methods of the sources whose name std has too, and that aren't in the lists of methods: each
/// with the word before the point that makes it the sources' own.
pub const OWN_CALLS: &[(&str, &[&str])] = &[
    ("and", &["requests"]),
    ("end", &["progress", "self"]),
    ("flush", &["allocator", "entities", "self", "world"]),
    ("lines", &["checking"]),
    ("read", &["applying"]),
    ("replace", &["calls"]),
    ("width", &["rows", "storage"]),
    ("write", &["self"]),
];

/// The kit's list, which is Rust's own in the package.
pub const LIST: &str = "Vec";

/// A call of the kit's list that Rust's own has otherwise, or not at all.
pub struct ListCall {
    /// Its name in the sources.
    pub from: &'static str,
    /// How many arguments it has.
    pub arguments: usize,
    /// Its name in the results. The trait that has it has no name that a list of Rust has.
    pub to: &'static str,
}

const fn list_call(from: &'static str, arguments: usize, to: &'static str) -> ListCall {
    ListCall {
        from,
        arguments,
        to,
    }
}

/// Those calls.
pub const LIST_CALLS: &[ListCall] = &[
    list_call("capacity", 0, "sized_capacity"),
    list_call("extend_from_slice", 1, "extend_from_slice_fallibly"),
    list_call("extend_with_clones", 1, "extend_from_slice_fallibly"),
    list_call("insert", 2, "insert_fallibly"),
    list_call("push", 1, "push_fallibly"),
    list_call("push_reserved", 1, "push_reserved"),
    list_call("reserve", 1, "reserve_fallibly"),
    list_call("reserve_exact", 1, "reserve_exact_fallibly"),
    list_call("resize", 2, "resize_fallibly"),
    list_call("shrink_to_fit", 0, "shrink_to_fit_fallibly"),
    list_call("sort", 0, "sort_fallibly"),
    list_call("sort_by_cached_key", 1, "sort_by_cached_key_fallibly"),
    list_call("sort_by_key", 1, "sort_by_key_fallibly"),
];

/// The same of what is called by a path.
pub const LIST_PATHS: &[(&str, &str)] = &[
    ("from_slice", "from_slice_fallibly"),
    ("with_capacity", "with_capacity_fallibly"),
];

/// The path of that trait.
pub const LIST_TRAIT: &str = "crate::kit::vec::FallibleVec";

/// Names of values of which no declaration tells whether they are lists, and whether they are.
pub const RECEIVERS: &[(&str, bool)] = &[
    // A queue of commands, or what lends one.
    ("queue", false),
    // The lists of the slots, where a file other than that of their type lends them.
    ("pending", true),
    ("records", true),
];

/// Methods that only look at a value, so that nothing changes if they aren't called.
pub const LOOKING: &[&str] = &["beyond", "cursor"];

/// The names of Rust's prelude. No source may give one of them another meaning.
pub const PRELUDE: &[&str] = &[
    "AsMut",
    "AsRef",
    "AsyncFn",
    "AsyncFnMut",
    "AsyncFnOnce",
    "Box",
    "Clone",
    "Copy",
    "Debug",
    "Default",
    "DoubleEndedIterator",
    "Drop",
    "Eq",
    "Err",
    "ExactSizeIterator",
    "Extend",
    "Fn",
    "FnMut",
    "FnOnce",
    "From",
    "FromIterator",
    "Future",
    "Hash",
    "Into",
    "IntoFuture",
    "IntoIterator",
    "Iterator",
    "None",
    "Ok",
    "Option",
    "Ord",
    "PartialEq",
    "PartialOrd",
    "Result",
    "Send",
    "Sized",
    "Some",
    "String",
    "Sync",
    "ToOwned",
    "ToString",
    "TryFrom",
    "TryInto",
    "Unpin",
    "Vec",
    "align_of",
    "align_of_val",
    "drop",
    "size_of",
    "size_of_val",
];

/// The crates of Rust itself.
pub const CRATES: &[&str] = &["alloc", "core", "std"];

/// The primitive types of Rust.
pub const PRIMITIVES: &[&str] = &[
    "bool", "char", "f128", "f16", "f32", "f64", "i128", "i16", "i32", "i64", "i8", "isize", "str",
    "u128", "u16", "u32", "u64", "u8", "usize",
];

/// Names that may be used without a path: of the prelude, and types. They mean what they mean in
/// the kit.
pub const BARE: &[&str] = &[
    "Clone",
    "Copy",
    "Default",
    "DoubleEndedIterator",
    "Eq",
    "Err",
    "ExactSizeIterator",
    "Fn",
    "FnMut",
    "FnOnce",
    "From",
    "Into",
    "Hash",
    "Into",
    "Item",
    "Iterator",
    "None",
    "Ok",
    "Option",
    "Ord",
    "PartialEq",
    "PartialOrd",
    "Result",
    "Self",
    "Send",
    "Sized",
    "Some",
    "Sync",
    "bool",
    "char",
    "i64",
    "str",
    "u128",
    "u16",
    "u32",
    "u64",
    "u8",
    "usize",
];

/// Words of Rust that the sources use.
pub const KEYWORDS: &[&str] = &[
    "_", "as", "break", "const", "continue", "crate", "else", "enum", "false", "fn", "for", "if",
    "impl", "in", "let", "loop", "match", "move", "mut", "pub", "return", "self", "struct",
    "super", "trait", "true", "type", "use", "where", "while",
];

/// Words that begin an item. No body has one.
pub const ITEM_WORDS: &[&str] = &["const", "enum", "impl", "mod", "struct", "trait", "type"];

/// What a type of the sources has by a trait of std, and may be called by a path.
pub const GIVEN: &[&str] = &["File", "Item", "default", "from"];

/// A module of the kit's std, or a crate of the kit's.
pub struct Module {
    /// Its path in the sources.
    pub path: &'static str,
    /// Its path in the results: in Rust's `core` or `alloc`, or in the package's kit.
    pub to: &'static str,
    /// The names in it that are known. Their contracts are those of what the path leads to.
    pub names: &'static [&'static str],
    /// The names in it that are ghost, so that their imports go.
    pub ghost: &'static [&'static str],
}

/// A name that has to be imported, and what is imported.
pub struct Import {
    /// The name.
    pub name: &'static str,
    /// Its path in the results.
    pub path: &'static str,
}

/// A method that the kit hands more than Rust does. A trait has it by another name.
pub struct Renamed {
    /// Its name in the sources.
    pub from: &'static str,
    /// How its arguments may begin, each as tokens. A quote stands for any text, and `OF_RIGHT` for
    /// the right to allocate.
    pub arguments: &'static [&'static [&'static str]],
    /// Its name in the result.
    pub to: &'static str,
    /// The path of the trait.
    pub import: &'static str,
}

/// A type whose layout in memory the package chooses. The kit has no word for it, and no contract
/// speaks of it. A line whose type isn't there is an error.
pub struct Layout {
    /// The crate that declares the type.
    pub krate: &'static str,
    /// Its name.
    pub name: &'static str,
    /// The attribute that it gets.
    pub attribute: &'static str,
}

/// The types with a layout of their own.
pub const LAYOUTS: &[Layout] = &[
    // Rust promises that an `Option` of a word that is never 0 takes no more room than the word,
    // and by this attribute it promises it of a handle.
    Layout {
        krate: "ent_handle",
        name: "Handle",
        attribute: "#[repr(transparent)]",
    },
    // A reservation writes the reserver, and a command its queue, so two of them in a list share no
    // line of a processor's cache.
    Layout {
        krate: "ent_blocks",
        name: "BlockReserver",
        attribute: "#[repr(align(128))]",
    },
    Layout {
        krate: "ent_total",
        name: "Reserver",
        attribute: "#[repr(align(128))]",
    },
    // Each thread writes to a log of its own.
    Layout {
        krate: "ent_replay",
        name: "Log",
        attribute: "#[repr(align(128))]",
    },
];

/// The layout of the type of this crate, if it has one of its own.
pub fn layout_of(krate: &str, name: &str) -> Option<&'static Layout> {
    LAYOUTS
        .iter()
        .find(|layout| layout.krate == krate && layout.name == name)
}

/// Traits whose last two parameters have defaults in the package: the crate and the trait. In the
/// sources a trait's parameter can have none.
const DEFAULTED: &[(&str, &str)] = &[("ent_runner", "System"), ("ent_runner", "LogSystem")];

/// Whether the trait of this crate is one of them.
pub fn is_defaulted(krate: &str, name: &str) -> bool {
    DEFAULTED.contains(&(krate, name))
}

/// How the parameters of such a trait end.
pub const LAST_TWO: &[&str] = &["S", ":", "Source", ",", "E", ">", "{"];

/// Those defaults: after how many of these words each one comes.
pub const DEFAULTS: &[(usize, &str)] = &[
    (3, " = crate::reserving::Shared"),
    (5, " = crate::handles::Memory"),
];

/// A struct of one field whose `impl PartialEq` compares this field of the two, and nothing else.
pub struct Compared {
    /// The crate that declares the type.
    pub krate: &'static str,
    /// Its name.
    pub name: &'static str,
    /// Its field.
    pub field: &'static str,
}

impl Compared {
    /// The code of the only function of the `impl`.
    pub fn body(&self) -> String {
        let field = self.field;
        format!("fn eq(&self, other: &Self) -> bool {{ self.{field} == other.{field} }}")
    }
}

/// Those structs. Their two impls are printed as the derives that do the same: Rust takes a
/// constant as a pattern only if its type derives both. The sources can't derive them, since a
/// derive compares what a model's `inverse` makes of the two values, and a handle's makes another
/// word of a number that is no handle's.
pub const COMPARED: &[Compared] = &[Compared {
    krate: "ent_handle",
    name: "Handle",
    field: "bits",
}];

/// The traits of those impls.
pub const EQUALITY: &[&str] = &["PartialEq", "Eq"];

/// The struct of this crate whose equality is derived in the package, if it is one.
pub fn compared(krate: &str, name: &str) -> Option<&'static Compared> {
    COMPARED
        .iter()
        .find(|it| it.krate == krate && it.name == name)
}

/// The traits that plain data has in the package, and that the kit can't derive for it: there a
/// clone may fail.
const OF_DATA: &[&str] = &["Clone", "PartialEq", "Eq", "Hash"];

/// What a report has in the package: in the kit the clone of a list may fail.
const OF_REPORTS: &[&str] = &["Clone", "PartialEq", "Eq"];

/// The types whose derive gets traits, by their crates. The proofs know none of these.
const DERIVES_MORE: &[(&str, &[&str], &[&str])] = &[
    (
        "ent_replay",
        &[
            "Call",
            "CheckError",
            "Difference",
            "FlushReply",
            "Log",
            "Reservation",
            "ReserveReply",
        ],
        OF_DATA,
    ),
    ("ent_world", &["SyncReport"], OF_REPORTS),
];

/// The traits that the type of this crate derives in the package alone.
pub fn derived_more(krate: &str, name: &str) -> &'static [&'static str] {
    let of = |it: &&(&str, &[&str], &[&str])| it.0 == krate && it.1.contains(&name);
    DERIVES_MORE.iter().find(of).map_or(&[], |it| it.2)
}

/// Files of crates in which what `fmt` writes is padded in the package, as Rust's own numbers and
/// texts are. In the kit nobody can ask for a width.
pub const PADDED: &[(&str, &str)] = &[("ent_handle", "text.rt")];

/// Whether `write!` is `padded!` in this file of this crate.
pub fn is_padded(krate: &str, path: &str) -> bool {
    let file = path.rsplit('/').next();
    PADDED.iter().any(|it| it.0 == krate && file == Some(it.1))
}

/// The path of the macro that pads.
pub const PADDING: &str = "crate::kit::padded";

/// A function of a type that has another name in the package.
pub struct RenamedFunction {
    /// The crate that declares the type.
    pub krate: &'static str,
    /// The type. No other crate declares one of its name.
    pub of: &'static str,
    /// The function's name in the sources.
    pub from: &'static str,
    /// Its name in the result.
    pub to: &'static str,
}

/// Those functions. The allocator's `new` has a parameter, the limits. In Rust `new()` has none, so
/// the package adds it, and has the sources' own by another name. It isn't `with_limits`, which
/// keeps a handle back.
pub const RENAMED_FUNCTIONS: &[RenamedFunction] = &[RenamedFunction {
    krate: "ent_alloc",
    of: "Entities",
    from: "new",
    to: "with_exact_limits",
}];

/// Types that derive `Clone` and aren't `Copy`, though each of their fields is: the crate and the
/// type. So `clone` can't fail in the kit either. They are iterators.
pub const OF_COPIES: &[(&str, &str)] = &[("ent_alloc", "Living")];

/// Functions that are `const` in the package, so that a `const` or a `static` can have what they
/// make: the crate, the file and the function. In the kit what they call isn't `const`.
pub const CONSTANTS: &[(&str, &str, &str)] = &[
    ("ent_alloc", "entities.rt", "new"),
    ("ent_alloc", "entities.rt", "with_limits"),
    ("ent_alloc", "limits.rt", "default_limits"),
    ("ent_alloc", "limits.rt", "generations"),
    ("ent_alloc", "limits.rt", "keeping_placeholder"),
    ("ent_alloc", "limits.rt", "new"),
    ("ent_alloc", "limits.rt", "slots"),
    ("ent_alloc", "requests.rt", "none"),
    ("ent_alloc", "slots.rt", "new"),
    ("ent_handle", "handle.rt", "from_bits"),
    ("ent_handle", "handle.rt", "from_parts"),
    ("ent_handle", "handle.rt", "generation"),
    ("ent_handle", "handle.rt", "index"),
    ("ent_handle", "handle.rt", "new"),
    ("ent_handle", "handle.rt", "to_bits"),
    ("ent_replay", "log.rt", "new"),
    ("ent_storage", "handle_map.rt", "limit"),
    ("ent_storage", "handle_map.rt", "new"),
    ("ent_storage", "handle_map.rt", "with_limit"),
    ("ent_storage", "limit.rt", "of"),
    ("ent_storage", "limit.rt", "slots"),
];

/// Whether this function of a file of this crate is one of them.
pub fn is_constant(krate: &str, path: &str, name: &str) -> bool {
    let file = path.rsplit('/').next();
    CONSTANTS
        .iter()
        .any(|it| it.0 == krate && file == Some(it.1) && it.2 == name)
}

/// A type or a module of std, and what may be called by a path that begins with it.
pub type Associated = (&'static str, &'static [&'static str]);

/// Names that are known together.
pub struct Forms {
    /// Modules. Of two with one path the later one counts.
    pub modules: &'static [Module],
    /// Names of the kit's prelude that Rust's has otherwise or not at all.
    pub prelude: &'static [Import],
    /// Macros that Rust has otherwise or not at all.
    pub macros: &'static [Import],
    /// Macros that are Rust's.
    pub kept_macros: &'static [&'static str],
    /// Methods that are renamed.
    pub renamed: &'static [Renamed],
    /// Methods of std and of the kit's crates that are in Rust, or in the package's kit, as in the
    /// kit of the proofs. The methods of the sources themselves are known too.
    pub methods: &'static [&'static str],
    /// What may be called by a path.
    pub associated: &'static [Associated],
    /// The type that a test is handed as `rt`. Rust hands a test nothing, so it makes one.
    pub runtime: Option<&'static str>,
    /// The types and traits of an `rt` that hands out the right to allocate.
    pub hands_out_right: &'static [&'static str],
    /// Names that may be used without a path, beside `BARE`.
    pub bare: &'static [&'static str],
    /// Whether a file may have a `static`.
    pub statics: bool,
}

/// A module that leads to this path, without ghost names.
pub const fn module(
    path: &'static str,
    to: &'static str,
    names: &'static [&'static str],
) -> Module {
    Module {
        path,
        to,
        names,
        ghost: &[],
    }
}

/// What the crates of the package may use.
pub static PACKAGE: Forms = Forms {
    modules: MODULES,
    prelude: &[Import {
        name: "Vec",
        path: "alloc::vec::Vec",
    }],
    macros: &[Import {
        name: "prove_eq",
        path: "crate::kit::prove_eq",
    }],
    kept_macros: &["matches", "unreachable", "write"],
    renamed: &[Renamed {
        from: "collect",
        arguments: &[OF_RIGHT],
        to: "collect_in",
        import: "crate::kit::vec::CollectIn",
    }],
    methods: METHODS,
    associated: ASSOCIATED,
    runtime: None,
    hands_out_right: &[],
    bare: &[],
    statics: false,
};

const MODULES: &[Module] = &[
    module("atomic_table", "crate::kit::atomic_table", TABLE),
    module("either", "crate::kit::either", &["Either", "Left", "Right"]),
    module("itoa", "crate::kit::itoa", &["Buffer", "Integer"]),
    module("smallvec", "crate::kit::smallvec", &["SmallVec"]),
    Module {
        path: "std::alloc",
        to: "crate::kit::alloc",
        names: &["AllocError", "AllocFailed"],
        ghost: &[RIGHT],
    },
    module("std::cmp", "core::cmp", &["Ordering", "Reverse"]),
    module(
        "std::collections",
        "crate::kit::collections",
        &["BTreeMap", "LinkedList"],
    ),
    module("std::error", "core::error", &["Error"]),
    module(
        "std::fmt",
        "core::fmt",
        &["Debug", "Display", "Formatter", "Result", "Write"],
    ),
    Module {
        path: "std::marker",
        to: "core::marker",
        names: &["PhantomData"],
        ghost: &["Model", BRAND],
    },
    module("std::hash", "core::hash", &["Hash", "Hasher"]),
    module("std::mem", "core::mem", &["replace", "swap"]),
    module("std::num", "core::num", &["NonZeroU32", "NonZeroU64"]),
    module("std::slice", "core::slice", &["Iter"]),
    module("std::sync", "crate::kit::sync", &["Arc"]),
    module(
        "std::thread",
        "crate::kit::thread",
        &["Threads", "join_mut"],
    ),
    module("std::vec", "alloc::vec", &["IntoIter"]),
    Module {
        path: "thiserror",
        to: "",
        names: &[],
        ghost: &[ERROR_DERIVE],
    },
];

const TABLE: &[&str] = &[
    "Badge",
    "Join",
    "Play",
    "Seat",
    "Split",
    "Table",
    "TableRule",
];

const METHODS: &[&str] = &[
    "all",
    "and_then",
    "any",
    "as_bytes",
    "as_chunks",
    "as_mut_slice",
    "as_ref",
    "as_slice",
    "binary_search",
    "binary_search_by_key",
    "capacity",
    "cast_signed",
    "cast_unsigned",
    "checked_add",
    "checked_mul",
    "checked_sub",
    "clear",
    "close_with",
    "cmp",
    "contains",
    "copied",
    "copy_from_slice",
    "count",
    "enumerate",
    "extend_from_slice",
    "fetch_add",
    "fetch_sub",
    "filter",
    "find",
    "first",
    "format",
    "free",
    "get",
    "get_mut",
    "insert",
    "into",
    "into_badge",
    "into_iter",
    "into_seat",
    "is_ascii_digit",
    "is_empty",
    "is_err",
    "is_none",
    "is_none_or",
    "is_ok",
    "is_some",
    "iter",
    "iter_mut",
    "join_seat",
    "last",
    "len",
    "load_new_seat",
    "map",
    "map_err",
    "max",
    "min",
    "next",
    "next_back",
    "ok",
    "ok_or",
    "overflowing_add",
    "parse",
    "pop",
    "position",
    "push",
    "push_reserved",
    "remove",
    "reserve",
    "reserve_exact",
    "resize",
    "retain",
    "rev",
    "reverse",
    "saturating_add",
    "saturating_mul",
    "saturating_sub",
    "shrink_to_fit",
    "size_hint",
    "sort_by_cached_key",
    "sort_by_key",
    "sort_unstable",
    "split_at",
    "split_at_mut",
    "split_first",
    "split_first_chunk",
    "split_last",
    "split_seat",
    "swap_remove",
    "take",
    "then",
    "to_le_bytes",
    "truncate",
    "unsigned_abs",
    "unwrap",
    "unwrap_or",
    "word",
    "write_str",
    "write_u64",
    "zip",
];

const ASSOCIATED: &[Associated] = &[
    ("Arc", &["new", "ptr_eq", "try_clone", "try_unwrap"]),
    ("Table", &["of_words"]),
    ("BTreeMap", &["new"]),
    ("Badge", &["blank"]),
    ("Buffer", &["new"]),
    ("NonZeroU32", &["new"]),
    ("NonZeroU64", &["MIN", "new"]),
    ("SmallVec", &["new", "with_capacity"]),
    ("Vec", &["new", "with_capacity"]),
    ("str", &["from_utf8"]),
    ("i64", &["MAX", "MIN", "from"]),
    ("u8", &["MAX", "from"]),
    ("u16", &["MAX", "from", "from_le_bytes", "try_from"]),
    ("u32", &["MAX", "from", "from_le_bytes", "try_from"]),
    ("u64", &["MAX", "from", "from_le_bytes", "try_from"]),
    ("usize", &["MAX", "from", "try_from"]),
];

/// Names that the kit's prelude has and that a source may use only where they are known.
pub const REFUSED_NAMES: &[&str] = &["AllocGlobal", "Box", "HostRuntime", "Print", "Rc", "String"];

/// Words of Rust that the sources don't use, and of which the eraser knows no form.
pub const REFUSED_WORDS: &[&str] = &[
    "async",
    "await",
    "extern",
    "macro_rules",
    "static",
    "union",
    "yield",
];
