//! Forms of the repository's own tests, which the kit hands a runtime. The package has none of
//! them.

mod common;
use common::{erased, erased_test};

/// The result of the source as one of a test has to be this one, and as one of the package there is
/// none.
#[track_caller]
fn gives(source: &str, wanted: &str) {
    let result = erased_test(source).expect("known forms");
    let text = result.split_once("\n\n").expect("a first line").1;
    assert_eq!(text, wanted);
    assert!(erased(source).is_err(), "the package may have it");
}

#[test]
fn a_test_makes_its_runtime() {
    gives(
        "/// Why.\n#[test]\nfn a(rt: HostRuntime) -> Result<(), B> {\n    c(&rt)\n}\n",
        "use crate::host::rt::HostRuntime;\n\n/// Why.\n#[test]\nfn a() -> Result<(), B> {\n    \
         let rt = HostRuntime;\n    c(&rt)\n}\n",
    );
    // Who is no test is handed it.
    gives(
        "fn a(rt: HostRuntime) {}\n",
        "use crate::host::rt::HostRuntime;\n\n#[inline]\nfn a(rt: HostRuntime) {}\n",
    );
}

#[test]
fn a_program_is_called_by_a_test() {
    gives(
        "use anyhow::{Result, ensure};\n\nfn main(rt: HostRuntime) -> Result<()> {\n    \
         ensure!(a, \"b\");\n    println!(rt; \"c\")?;\n}\n",
        "use crate::host::println;\nuse crate::host::rt::HostRuntime;\n\
         use crate::host::anyhow::{Result, ensure};\n\n#[inline]\n\
         pub fn main(rt: HostRuntime) -> Result<()> {\n    ensure!(a, \"b\");\n    \
         println!(rt; \"c\")?;\n}\n",
    );
}

#[test]
fn macros_that_take_it_are_imported() {
    gives(
        "use super::b;\n\nfn a(rt: R) {\n    assert!(rt; b());\n    assert_eq!(rt; b(), 1, \"{c}\");\n    \
         panic!(rt; \"d\");\n    let e = (print!(rt; \"\"), println!(rt; \"\"));\n}\n",
        "use crate::host::assert;\nuse crate::host::assert_eq;\nuse crate::host::panic;\n\
         use crate::host::print;\nuse crate::host::println;\nuse super::b;\n\n#[inline]\nfn a(rt: R) {\n    \
         assert!(rt; b());\n    assert_eq!(rt; b(), 1, \"{c}\");\n    panic!(rt; \"d\");\n    \
         let e = (print!(rt; \"\"), println!(rt; \"\"));\n}\n",
    );
}

#[test]
fn methods_that_take_it_are_renamed() {
    gives(
        "fn a(rt: R) {\n    b.expect(rt, \"c\");\n    b.expect(&rt, \"c\");\n    b.expect(\n        rt,\n        \
         \"c\",\n    );\n}\n",
        "use crate::host::rt::ExpectIn;\n\n#[inline]\nfn a(rt: R) {\n    b.expect_in(rt, \"c\");\n    \
         b.expect_in(&rt, \"c\");\n    b.expect_in(\n        rt,\n        \"c\",\n    );\n}\n",
    );
    gives(
        "use std::alloc::Global;\n\nfn a(alloc: Global) {\n    (b.to_vec(alloc), b.to_string(alloc));\n}\n",
        "use crate::host::slice::ToKitVec;\nuse crate::host::string::ToStringIn;\n\n#[inline]\nfn a() {\n    \
         (b.to_kit_vec(), b.to_string_in());\n}\n",
    );
    assert!(erased_test("fn a() {\n    b.expect(\"c\");\n}\n").is_err());
}

#[test]
fn a_text_in_place_of_an_error() {
    let source = "#[inline]\nfn a() {\n    b.ok_or(C::D);\n    b.ok_or(\"c\");\n}\n";
    let result = erased_test(source).expect("known forms");
    assert!(result.ends_with("{\n    b.ok_or(C::D);\n    b.ok_or_text(\"c\");\n}\n"));
}

#[test]
fn paths_of_the_host() {
    gives(
        "use itoa::{Buffer, Integer};\nuse std::process::Abort;\nuse std::thread::{Threads, join_mut, map_vec};\n\
         use std::thread;\n\nfn a(b: String) {\n    thread::yield_now();\n}\n",
        "use crate::host::string::String;\nuse crate::kit::itoa::{Buffer, Integer};\n\
         use crate::host::rt::Abort;\nuse crate::host::thread::{Threads, join_mut, map_vec};\n\
         use crate::host::thread;\n\n#[inline]\nfn a(b: String) {\n    thread::yield_now();\n}\n",
    );
}
