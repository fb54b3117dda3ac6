//! Each form in a small source, with the result that is wanted.

mod common;
use common::{audited, erased, erased_of, PATH};

/// The result of the source has to be this one, after its first line.
#[track_caller]
fn gives(source: &str, wanted: &str) {
    let result = erased(source).expect("known forms");
    let head = "// Made of crates/ent_here/src/here.rt by rust/erase. It isn't edited by hand.\n\n";
    assert_eq!(result.strip_prefix(head), Some(wanted));
}

/// The source has nothing that is ghost, so it stays as it is.
#[track_caller]
fn stays(source: &str) {
    gives(source, source);
}

#[test]
fn ghost_imports() {
    gives(
        "//! What it is.\nghost use A.b.{◌≡◌, [], c as d};\nghost use A.e as f;\n\nuse super::g;\n",
        "//! What it is.\n\nuse super::g;\n",
    );
    gives(
        "ghost use A.b.{◌≡◌};\n\nconst A: u8 = 1;\n",
        "const A: u8 = 1;\n",
    );
    gives(
        "impl A {\n    ghost use B.{c};\n\n    /// Why.\n    const D: u8 = 1;\n}\n",
        "impl A {\n    /// Why.\n    const D: u8 = 1;\n}\n",
    );
}

#[test]
fn ghost_members() {
    gives(
        "impl From<B> for A {\n    /// Ghost.\n    // Too.\n    ghost from_gives = { λ _ a. a ≡ { b } };\n\n    \
         fn from(b: B) -> Self {\n        A\n    }\n}\n",
        "impl From<B> for A {\n    #[inline]\n    fn from(b: B) -> Self {\n        A\n    }\n}\n",
    );
    gives(
        "use atomic_table::Join;\n\nimpl Join<V> for A {\n    ghost both = { b };\n\n    ghost spent = { [] };\n}\n",
        "use crate::kit::atomic_table::Join;\n\nimpl Join<V> for A {}\n",
    );
    gives(
        "trait A {\n    ghost may_issue: { Self → Type 0 };\n    ghost may_leave: { A } = { λ _. b };\n\n    \
         type B;\n}\n",
        "trait A {\n    type B;\n}\n",
    );
}

#[test]
fn ghost_fields() {
    gives(
        "struct A {\n    a: u8,\n    /// Ghost.\n    pub ghost in_range: { a ≤ 100 },\n    ghost b: { B } by { c },\n}\n",
        "struct A {\n    a: u8,\n}\n",
    );
}

#[test]
fn models() {
    gives(
        "use std::marker::Model;\n\nstruct A<'a>(&'a u8);\n\n/// Of A.\nimpl<'a> Model for A<'a> {\n    \
         ghost use B.{c};\n\n    ghost view = { λ a. record { b = a.0 } };\n}\n\nimpl A<'_> {}\n",
        "struct A<'a>(&'a u8);\n\nimpl A<'_> {}\n",
    );
}

#[test]
fn imports_of_which_a_part_is_ghost() {
    gives(
        "use std::marker::{Model, PhantomData};\n\nstruct A<B>(PhantomData<B>);\n",
        "use core::marker::PhantomData;\n\nstruct A<B>(PhantomData<B>);\n",
    );
}

#[test]
fn clauses_become_comments() {
    gives(
        "fn a(b: u8) -> Option<u8>\n    requires b { b ≡ { 1 } }\n    // Why.\n    ensures { IfSome result\n        \
         (λ c. c) }\n\n    ensures* d { e ∗ f }\n{\n    None\n}\n",
        "#[inline]\nfn a(b: u8) -> Option<u8>\n    // requires b { b ≡ { 1 } }\n    // Why.\n    \
         // ensures { IfSome result\n    //     (λ c. c) }\n\n    // ensures* d { e ∗ f }\n{\n    None\n}\n",
    );
}

#[test]
fn clauses_after_bounds() {
    gives(
        "fn a<R>(b: &R)\nwhere\n    R: Clone,\n    requires { c }\n{\n}\n",
        "#[inline]\nfn a<R>(b: &R)\nwhere\n    R: Clone,\n    // requires { c }\n{\n}\n",
    );
}

#[test]
fn clauses_in_the_signature_s_line() {
    gives(
        "impl A {\n    fn a() requires { b } {\n        c()\n    }\n}\n",
        "impl A {\n    #[inline]\n    fn a()\n    // requires { b }\n    {\n        c()\n    }\n}\n",
    );
}

#[test]
fn a_method_without_a_body_ends_above_its_clauses() {
    gives(
        "trait A {\n    /// Why.\n    fn a(&self) -> u8\n        requires { b }\n        ensures { c };\n\n    \
         fn d(&self);\n}\n",
        "trait A {\n    /// Why.\n    fn a(&self) -> u8;\n        // requires { b }\n        // ensures { c }\n\n    \
         fn d(&self);\n}\n",
    );
}

#[test]
fn clauses_of_closures() {
    gives(
        "fn a() {\n    b(\n        &mut |c: &u8| -> u8\n            requires { d }\n            ensures e { f }\n        \
         { *c },\n    );\n}\n",
        "#[inline]\nfn a() {\n    b(\n        &mut |c: &u8| -> u8\n            // requires { d }\n            \
         // ensures e { f }\n        { *c },\n    );\n}\n",
    );
}

/// The docs of a contract with these lines, below a doc comment with the same margin.
fn shown(margin: &str, clauses: &[&str]) -> String {
    let head = [
        "",
        "<details><summary>Contract</summary>",
        "",
        "<code style=\"display: block; tab-size: 4; white-space: pre-wrap\">// In the words of [contracts](crate::contracts):",
    ];
    let lines = head
        .iter()
        .chain(clauses)
        .chain(&["</code>", "", "</details>"]);
    let lines = lines.map(|line| format!("/// {line}"));
    let lines = lines.map(|line| format!("{margin}{}\n", line.trim_end()));
    lines.collect()
}

#[test]
fn names_of_definitions_are_links_in_the_docs() {
    let contract = shown(
        "",
        &[
            "ensures p { [Q](crate::contracts::ent_here::first_fault#P) (λ r. r \\* p) b.p }",
            "ensures { [set.len](crate::contracts::logic#FinSet.len) b \\< [All](crate::contracts::logic#All) (Some b) }",
        ],
    );
    gives(
        "ghost use Rattle.ent_here.specs.First.Fault.{P as Q, r, p};\nghost use Rattle.std.specs.FinSet as set;\n\
         ghost use Rattle.std.specs.Prelude.{◌*◌, All};\n\
         ghost use Rattle.std.specs.declared.option.Option.TheVariants.{Some};\n\n\
         /// Of a.\npub fn a(b: u8)\n    ensures p { Q (λ r. r * p) b.p }\n    ensures { set.len b < All (Some b) }\n{\n}\n",
        &format!("/// Of a.\n{contract}#[inline]\npub fn a(b: u8) {{\n}}\n").replace(
            " p) b.p",
            " [p](crate::contracts::ent_here::first_fault#p)) b.p",
        ),
    );
}

#[test]
fn names_that_a_block_imports_are_links_in_it() {
    let linked = shown(
        "    ",
        &["ensures { [P](crate::contracts::ent_here::here#P) b }"],
    );
    let plain = shown("    ", &["ensures { P b }"]);
    gives(
        "ghost use Rattle.ent_here.specs.Here.{Q};\n\nimpl A {\n    ghost use Rattle.ent_here.specs.Here.{P};\n\n    \
         /// Of a.\n    pub fn a(b: u8)\n        ensures { P b }\n    {\n    }\n}\n\n\
         impl A {\n    /// Of c.\n    pub fn c(b: u8)\n        ensures { P b }\n    {\n    }\n}\n",
        &format!(
            "impl A {{\n    /// Of a.\n{linked}    #[inline]\n    pub fn a(b: u8) {{\n    }}\n}}\n\n\
             impl A {{\n    /// Of c.\n{plain}    #[inline]\n    pub fn c(b: u8) {{\n    }}\n}}\n"
        ),
    );
}

#[test]
fn clauses_of_what_the_package_shows_go_to_its_docs() {
    let contract = shown(
        "    ",
        &[
            "// Why.",
            "ensures b { c",
            "&#9;≡ d }",
            "&#32;",
            "ensures { e }",
        ],
    );
    gives(
        "impl A {\n    /// Of a.\n    #[must_use]\n    pub fn a(&self) -> u8\n        // Why.\n        \
         ensures b { c\n            ≡ d }\n\n        ensures { e }\n    {\n        1\n    }\n}\n",
        &format!(
            "impl A {{\n    /// Of a.\n{contract}    #[must_use]\n    #[inline]\n    pub fn a(&self) -> u8 {{\n        \
             1\n    }}\n}}\n"
        ),
    );
    let contract = shown("", &["ensures { c }"]);
    gives(
        "/// Of a.\n#[tactic(auto)]\npub fn a<T>(b: T)\nwhere\n    T: Copy,\n    ensures { c }\n{\n}\n",
        &format!(
            "/// Of a.\n{contract}#[inline]\npub fn a<T>(b: T)\nwhere\n    T: Copy,\n{{\n}}\n"
        ),
    );
    gives(
        "/// Of a.\npub fn a() ensures { c } {\n}\n",
        &format!("/// Of a.\n{contract}#[inline]\npub fn a() {{\n}}\n"),
    );
}

#[test]
fn clauses_of_a_trait_that_the_package_shows_go_to_its_docs() {
    let contract = shown("    ", &["requires { b }", "ensures { c }"]);
    gives(
        "/// Of A.\npub trait A {\n    /// Of a.\n    fn a(&self) -> u8\n        requires { b }\n        \
         ensures { c };\n}\n",
        &format!(
            "/// Of A.\npub trait A {{\n    /// Of a.\n{contract}    fn a(&self) -> u8;\n}}\n"
        ),
    );
}

#[test]
fn without_docs_the_clauses_of_a_public_call_stay_comments() {
    gives(
        "// Why.\npub fn a()\n    ensures { c }\n{\n}\n",
        "// Why.\n#[inline]\npub fn a()\n    // ensures { c }\n{\n}\n",
    );
}

#[test]
fn who_may_call_a_function_with_a_condition() {
    gives(
        "/// Of A.\nimpl A {\n    /// Of a.\n    pub fn a(&self)\n        ensures { b }\n        \
         requires { c }\n    {\n    }\n}\n\n/// Of d.\npub const fn d()\n    requires { c }\n{\n}\n",
        "/// Of A.\nimpl A {\n    /// Of a.\n    #[inline]\n    pub(crate) fn a(&self)\n        // ensures { b }\n        \
         // requires { c }\n    {\n    }\n}\n\n/// Of d.\n#[inline]\npub(crate) const fn d()\n    \
         // requires { c }\n{\n}\n",
    );
    gives(
        "pub use b::a;\npub use b::{C, d};\n\nmod b {\n    pub fn a()\n        requires { c }\n    {\n    }\n\n    \
         pub fn d() {}\n\n    pub struct C;\n}\n",
        "pub(crate) use b::a;\npub use b::{C, d};\n\nmod b {\n    #[inline]\n    pub(crate) fn a()\n        \
         // requires { c }\n    {\n    }\n\n    #[inline]\n    pub fn d() {}\n\n    pub struct C;\n}\n",
    );
}

#[test]
fn all_may_call_a_function_that_only_requires_a_closure() {
    gives(
        "pub fn a<F: FnMut(u8)>(keep: F)\n    requires { F.IsAlwaysCallable keep }\n    ensures { b }\n{\n}\n",
        "#[inline]\npub fn a<F: FnMut(u8)>(keep: F)\n    // requires { F.IsAlwaysCallable keep }\n    \
         // ensures { b }\n{\n}\n",
    );
    gives(
        "pub fn a<F: FnMut(u8)>(keep: F)\n    requires { F.IsAlwaysCallable keep × b }\n{\n}\n",
        "#[inline]\npub(crate) fn a<F: FnMut(u8)>(keep: F)\n    // requires { F.IsAlwaysCallable keep × b }\n{\n}\n",
    );
    gives(
        "pub fn a<F: FnMut(u8)>(keep: F)\n    requires { F.IsAlwaysCallable keep }\n    requires { b }\n{\n}\n",
        "#[inline]\npub(crate) fn a<F: FnMut(u8)>(keep: F)\n    // requires { F.IsAlwaysCallable keep }\n    \
         // requires { b }\n{\n}\n",
    );
}

#[test]
fn a_clone_that_is_refused_no_memory() {
    gives(
        "struct A;\n\nimpl A {\n    fn again(&self) -> Self {\n        A\n    }\n}\n\nimpl Clone for A {\n    \
         ghost is_infallible = { λ _. ⊤ };\n\n    fn clone(&self) -> Result<Self, std::alloc::AllocError> {\n        \
         Ok(self.again())\n    }\n}\n",
        "struct A;\n\nimpl A {\n    #[inline]\n    fn again(&self) -> Self {\n        A\n    }\n}\n\n\
         impl Clone for A {\n    #[inline]\n    fn clone(&self) -> Self {\n        self.again()\n    }\n}\n",
    );
}

#[test]
fn links_to_the_package() {
    gives(
        "/// [`A`](forgeni::A), [`B`](crate::B).\nstruct B;\n",
        "/// [`A`](crate::A), [`B`](crate::proved::ent_here::B).\nstruct B;\n",
    );
}

#[test]
fn attributes_for_the_prover() {
    gives(
        "//! A.\n#![tactic(auto)]\n\nmod b;\n\n/// C.\n#[tactic(auto, using(crate::d::e))]\nfn c() {\n    \
         #[tactic(none)]\n    let f = 1;\n}\n\n#[cycle(g)]\nfn h() {}\n",
        "//! A.\n\nmod b;\n\n/// C.\n#[inline]\nfn c() {\n    let f = 1;\n}\n\n#[inline]\nfn h() {}\n",
    );
}

#[test]
fn drop_in_derives() {
    gives(
        "/// A.\n#[derive(Drop)]\nstruct A;\n",
        "/// A.\nstruct A;\n",
    );
    gives(
        "#[derive(Drop, Debug)]\nstruct A;\n",
        "#[derive(Debug)]\nstruct A;\n",
    );
    stays("#[derive(Clone, Copy, Debug, Default, PartialEq, Eq, Hash)]\nstruct A;\n");
    stays("#[non_exhaustive]\n#[must_use]\nenum A {\n    B,\n}\n");
}

#[test]
fn drop_in_bounds() {
    gives("impl<T: Drop> A<T> {}\n", "impl<T> A<T> {}\n");
    gives("impl<T: Drop + Copy> A<T> {}\n", "impl<T: Copy> A<T> {}\n");
    gives(
        "impl<T: Copy + Drop, U> A<T> {}\n",
        "impl<T: Copy, U> A<T> {}\n",
    );
    gives(
        "struct A<T: B + Drop + C>(T);\n",
        "struct A<T: B + C>(T);\n",
    );
    gives(
        "fn a<T>(b: T) -> u8\nwhere\n    T: Drop,\n    ensures { c }\n{\n    1\n}\n",
        "#[inline]\nfn a<T>(b: T) -> u8\n    // ensures { c }\n{\n    1\n}\n",
    );
    gives(
        "fn a<T>(b: T)\nwhere\n    T: Drop,\n{\n    c();\n}\n",
        "#[inline]\nfn a<T>(b: T)\n{\n    c();\n}\n",
    );
}

#[test]
fn paths() {
    gives(
        "use crate::a::B;\nuse ent_here::{C, d};\nuse ent_other::E;\nuse std::alloc::{AllocError, Global};\n\
         use std::cmp::Ordering;\nuse std::fmt;\nuse thiserror::Error;\npub use either::{Either, Left};\n\n\
         type F = Result<ent_other::E, std::cmp::Ordering>;\ntype G = crate::a::H<fmt::Result>;\n",
        "use crate::proved::ent_here::a::B;\nuse crate::proved::ent_here::{C, d};\n\
         use crate::proved::ent_other::E;\nuse crate::kit::alloc::AllocError;\n\
         use core::cmp::Ordering;\nuse core::fmt;\npub use crate::kit::either::{Either, Left};\n\n\
         type F = Result<crate::proved::ent_other::E, core::cmp::Ordering>;\n\
         type G = crate::proved::ent_here::a::H<fmt::Result>;\n",
    );
}

#[test]
fn links_of_docs() {
    gives(
        "/// [`A`](crate::A), [`B`](ent_other::B), [`C`] of `crate::C`.\nstruct D;\n",
        "/// [`A`](crate::proved::ent_here::A), [`B`](crate::proved::ent_other::B), [`C`] of `crate::C`.\nstruct D;\n",
    );
}

#[test]
fn what_the_crate_alone_sees() {
    gives(
        "pub(crate) struct A {\n    pub(crate) b: u8,\n    pub c: u8,\n}\n\npub(crate) fn d() {}\n",
        "pub(super) struct A {\n    pub(super) b: u8,\n    pub c: u8,\n}\n\n#[inline]\npub(super) fn d() {}\n",
    );
}

#[test]
fn names_of_the_kit_are_imported() {
    gives(
        "//! A.\n\nuse super::b;\nuse std::alloc::Global;\n\nfn c(alloc: Global, d: Vec<u8>) -> Vec<u8> {\n    prove_eq!(1, 1);\n    \
         d.iter().collect(alloc)\n}\n",
        "//! A.\n\nuse alloc::vec::Vec;\nuse crate::kit::prove_eq;\nuse crate::kit::vec::CollectIn;\n\
         use super::b;\n\n#[inline]\nfn c(d: Vec<u8>) -> Vec<u8> {\n    prove_eq!(1, 1);\n    \
         d.iter().collect_in()\n}\n",
    );
    gives(
        "ghost use A.{b};\n\n/// C.\n#[derive(Drop)]\nstruct C(Vec<u8>);\n",
        "use alloc::vec::Vec;\n\n/// C.\nstruct C(Vec<u8>);\n",
    );
}

#[test]
fn what_is_inlined() {
    gives("fn a() {}\n", "#[inline]\nfn a() {}\n");
    gives("pub const fn a() {}\n", "#[inline]\npub const fn a() {}\n");
    for attribute in ["inline", "inline(never)", "inline(always)", "cold", "test"] {
        stays(&format!("/// A.\n#[{attribute}]\nfn a() {{}}\n"));
    }
    stays("type A = fn(u8) -> u8;\n");
    stays("trait A {\n    fn a();\n    fn b() {}\n}\n");
}

/// What stands below the first line.
fn body(result: &str) -> Option<&str> {
    result.split_once("\n\n").map(|it| it.1)
}

/// A handle, whose equality is derived in the package, and its layout is chosen there.
const HANDLE: &str = "\
/// A.
#[derive(Drop, Ord)]
pub struct Handle {
    bits: u32,
}

/// Of both.
impl PartialEq for Handle {
    ghost eq = { a };

    fn eq(&self, other: &Self) -> bool {
        self.bits == other.bits
    }
}

impl Eq for Handle {
    ghost laws = { a; b };
}

struct Handles;
";

/// Another type has no layout, nor one of another crate.
#[test]
fn layouts() {
    let wanted =
        "/// A.\n#[derive(Ord, PartialEq, Eq)]\n#[repr(transparent)]\npub struct Handle {\n    \
                  bits: u32,\n}\n\nstruct Handles;\n";
    let misplaced = wanted.replace("\nstruct Handles", "\n#[repr(transparent)]\nstruct Handles");
    let (result, audited) = erased_of("ent_handle", PATH, HANDLE, &misplaced).expect("known forms");
    assert_eq!(body(&result), Some(wanted));
    assert!(audited.is_err());
    stays("pub struct Handle {\n    bits: u32,\n}\n");
}

/// The source of a system's handles and its error have defaults, once each. No other parameter has
/// one, nor another trait.
#[test]
fn defaults_of_parameters() {
    let header = "pub trait System<S: Source, E>";
    let source = format!("trait Source {{}}\n\n{header} {{\n    fn a<S: Source, E>();\n}}\n");
    let (of_source, of_error) = (" = crate::reserving::Shared", " = crate::handles::Memory");
    let defaults = format!(": Source{of_source}, E{of_error}>");
    let wanted = source.replace(": Source, E> {", &format!("{defaults} {{"));
    let misplaced = source.replace(": Source, E>(", &format!("{defaults}("));
    let twice = wanted.replace(of_source, &of_source.repeat(2));
    let error_twice = wanted.replace(of_error, &of_error.repeat(2));
    let swapped = source.replace(
        ": Source, E> {",
        &format!(": Source{of_error}, E{of_source}> {{"),
    );
    let other = source.replace("System", "Systems");
    let of_another = wanted.replace("System", "Systems");
    for result in [misplaced, twice, error_twice, swapped] {
        let (made, audited) = erased_of("ent_runner", PATH, &source, &result).expect("known forms");
        assert_eq!(body(&made), Some(wanted.as_str()));
        assert!(audited.is_err(), "{result}");
    }
    for (krate, source, result) in [
        ("ent_runner", &other, &of_another),
        ("ent_alloc", &source, &wanted),
    ] {
        let (made, audited) = erased_of(krate, PATH, source, result).expect("known forms");
        assert_eq!(body(&made), Some(source.as_str()));
        assert!(audited.is_err(), "{result}");
    }
    for parameters in [
        "<S: Source>",
        "<S: Source, O>",
        "<E, S: Source>",
        "<S: Source, E>: Source",
        "",
    ] {
        let source = source.replace("System<S: Source, E>", &format!("System{parameters}"));
        assert!(
            erased_of("ent_runner", PATH, &source, "").is_err(),
            "{source}"
        );
    }
}

/// Plain data gets more derives, and no other type of the crate or of another crate does.
#[test]
fn data() {
    let source = "/// A.\n#[derive(Debug, Drop)]\npub enum Call {\n    /// B.\n    B,\n}\n\n\
                  /// C.\n#[derive(Debug, Drop)]\npub struct Calls;\n";
    let wanted = "/// A.\n#[derive(Debug, Clone, PartialEq, Eq, Hash)]\npub enum Call {\n    \
                  /// B.\n    B,\n}\n\n/// C.\n#[derive(Debug)]\npub struct Calls;\n";
    let other = wanted.replace("(Debug)", "(Debug, Clone, PartialEq, Eq, Hash)");
    let (result, audited) = erased_of("ent_replay", PATH, source, &other).expect("known forms");
    assert_eq!(body(&result), Some(wanted));
    assert!(audited.is_err());
    let less = wanted.replace(", Hash", "");
    let (_, audited) = erased_of("ent_replay", PATH, source, &less).expect("known forms");
    assert!(audited.is_err());
    let (result, _) = erased_of("ent_handle", PATH, source, "").expect("known forms");
    let plain = wanted.replace(", Clone, PartialEq, Eq, Hash", "");
    assert_eq!(body(&result), Some(plain.as_str()));
}

/// The equality of a handle is printed as the derive, if it is that of the derive. That of another
/// type stays.
#[test]
fn equality_of_one_field() {
    let result = |source: &str| erased_of("ent_handle", PATH, source, "").map(|it| it.0);
    let known = result(HANDLE).expect("known forms");
    let differing = [
        ("PartialEq, ", ""),
        (", Eq", ""),
        ("PartialEq, Eq", "Eq, PartialEq"),
        ("struct Handles", "impl Eq for Handle {}\n\nstruct Handles"),
    ];
    for (from, to) in differing {
        let other = known.replacen(from, to, 1);
        assert!(other != known, "{from}");
        let audited = erased_of("ent_handle", PATH, HANDLE, &other).expect("known forms");
        assert!(audited.1.is_err(), "{other}");
    }
    let refused = [
        ("self.bits == other.bits", "self.bits != other.bits"),
        ("self.bits == other.bits", "self.bits == self.bits"),
        ("self.bits == other.bits", "true"),
        (
            "self.bits == other.bits\n    }",
            "self.bits == other.bits\n    }\n\n    fn ne(&self, other: &Self) -> bool {\n        true\n    }",
        ),
        ("    bits: u32,", "    bits: u32,\n    more: u32,"),
        ("    bits: u32,", "    more: u32,"),
        ("impl Eq for Handle {\n    ghost laws = { a; b };\n}\n", ""),
        ("ghost laws = { a; b };", "type A = u8;"),
    ];
    for (from, to) in refused {
        let other = HANDLE.replacen(from, to, 1);
        assert!(other != HANDLE, "{from}");
        assert!(result(&other).is_err(), "{other}");
    }
    gives(
        &HANDLE[HANDLE.find("impl Eq").expect("an impl")..].replace("Handle", "A"),
        "impl Eq for A {}\n\nstruct As;\n",
    );
}

/// The text of a handle keeps a width. That of another file doesn't.
#[test]
fn padded_texts() {
    let source = "fn a(f: A) -> A {\n    write!(f, \"{b}\")\n}\n";
    let wanted =
        "use crate::kit::padded;\n\n#[inline]\nfn a(f: A) -> A {\n    padded!(f, \"{b}\")\n}\n";
    let path = "crates/ent_handle/src/text.rt";
    let plain = format!("// Made.\n\n{}", wanted.replace("padded!", "write!"));
    let (result, audited) = erased_of("ent_handle", path, source, &plain).expect("known forms");
    assert_eq!(body(&result), Some(wanted));
    assert!(audited.is_ok(), "it is as the source says");
    let padded = format!("// Made.\n\n{wanted}");
    let (result, audited) = erased_of("ent_handle", PATH, source, &padded).expect("known forms");
    assert_eq!(body(&result), Some(&*format!("#[inline]\n{source}")));
    assert!(audited.is_err());
}

/// What makes an empty allocator is `const`. Another function isn't, nor one of another file.
#[test]
fn constants() {
    let source = "impl A {\n    pub fn new() -> A {\n        A\n    }\n\n    fn old() {}\n}\n";
    let wanted = "impl A {\n    #[inline]\n    pub const fn new() -> A {\n        A\n    }\n\n    \
                  #[inline]\n    fn old() {}\n}\n";
    let misplaced = wanted.replace("fn old", "const fn old");
    let path = "crates/ent_alloc/src/slots.rt";
    let (result, audited) = erased_of("ent_alloc", path, source, &misplaced).expect("known forms");
    assert_eq!(body(&result), Some(wanted));
    assert!(audited.is_err());
    let (result, _) = erased_of("ent_alloc", PATH, source, "").expect("known forms");
    assert!(!result.contains("const"));
}

/// The allocator's `new` has another name. Another type's hasn't.
#[test]
fn functions_by_another_name() {
    let source = "impl Entities {\n    pub fn new() -> Self {\n        A::new();\n        Self::new();\n        \
                  Entities::new()\n    }\n}\n\nimpl A {\n    fn new() -> Self {\n        Self::new();\n        \
                  Entities::new()\n    }\n}\n\nstruct Entities;\n\nstruct A;\n";
    let new = source.replace("Entities::new", "Entities::with_exact_limits");
    let new = new.replacen("pub fn new", "#[inline]\n    pub fn with_exact_limits", 1);
    let new = new.replacen("Self::new", "Self::with_exact_limits", 1);
    let wanted = new.replace("    fn new", "    #[inline]\n    fn new");
    let misplaced = wanted.replace("fn new", "fn with_exact_limits");
    let path = "crates/ent_alloc/src/here.rt";
    let (result, audited) = erased_of("ent_alloc", path, source, &misplaced).expect("known forms");
    assert_eq!(body(&result), Some(&*wanted));
    assert!(audited.is_err());
    // Another crate has no type of the name.
    assert!(erased_of("ent_here", PATH, source, "").is_err());
}

#[test]
fn the_kit_s_fmt() {
    gives(
        "use std::fmt;\n\nimpl fmt::Display for A {\n    ghost output = { λ a. b };\n\n    \
         fn fmt<W: fmt::Write>(&self, f: &mut fmt::Formatter<W>) -> fmt::Result {\n        \
         write!(f, \"{} {{\", 1)\n    }\n}\n",
        "use core::fmt;\n\nimpl fmt::Display for A {\n    #[inline]\n    \
         fn fmt(&self, f: &mut fmt::Formatter<'_>) -> fmt::Result {\n        \
         write!(f, \"{} {{\", 1)\n    }\n}\n",
    );
}

#[test]
fn messages_of_an_enum() {
    gives(
        "use thiserror::Error;\n\n/// A.\n#[derive(Debug, Error)]\npub enum A {\n    /// B.\n    \
         #[error(\"no b\")]\n    B,\n    #[error(\"{c} of {d:?}\")]\n    C { c: u8, d: E },\n    \
         #[error(\"{c}\")]\n    F {\n        /// C.\n        c: u8,\n        d: Vec<u8>,\n    },\n    \
         #[error(\"{{g}}\")]\n    G(u8),\n}\n\nstruct H;\n",
        "use alloc::vec::Vec;\n\n/// A.\n#[derive(Debug)]\npub enum A {\n    /// B.\n    B,\n    \
         C { c: u8, d: E },\n    F {\n        /// C.\n        c: u8,\n        d: Vec<u8>,\n    },\n    G(u8),\n}\n\n\
         impl core::fmt::Display for A {\n    \
         fn fmt(&self, f: &mut core::fmt::Formatter<'_>) -> core::fmt::Result {\n        match self {\n            \
         A::B => write!(f, \"no b\"),\n            A::C { c, d } => write!(f, \"{c} of {d:?}\"),\n            \
         A::F { c, .. } => write!(f, \"{c}\"),\n            A::G(..) => write!(f, \"{{g}}\"),\n        }\n    }\n}\n\n\
         impl core::error::Error for A {}\n\nstruct H;\n",
    );
}

#[test]
fn messages_of_a_struct() {
    gives(
        "#[derive(Clone, Copy, Error)]\n#[error(\"no a\")]\nstruct A;\n",
        "#[derive(Clone, Copy)]\nstruct A;\n\nimpl core::fmt::Display for A {\n    \
         fn fmt(&self, f: &mut core::fmt::Formatter<'_>) -> core::fmt::Result {\n        \
         write!(f, \"no a\")\n    }\n}\n\nimpl core::error::Error for A {}\n",
    );
    gives(
        "#[derive(Error)]\n#[error(\"{b} and {a}\")]\nstruct A {\n    pub a: u8,\n    b: u8,\n    c: u8,\n}\n",
        "struct A {\n    pub a: u8,\n    b: u8,\n    c: u8,\n}\n\nimpl core::fmt::Display for A {\n    \
         fn fmt(&self, f: &mut core::fmt::Formatter<'_>) -> core::fmt::Result {\n        \
         let A { b, a, .. } = self;\n        write!(f, \"{b} and {a}\")\n    }\n}\n\nimpl core::error::Error for A {}\n",
    );
}

#[test]
fn what_only_looks_ghost_stays() {
    stays(
        "/// It requires { x } and ensures { y }; `ghost use`.\nconst A: &str = \"ghost use B; requires { }\";\n\n\
         /* ghost a = { b }; */\nconst C: [char; 2] = ['{', '\\''];\n\n// #[tactic(auto)]\nconst D: &[u8] = b\"}\";\n\
         const E: &str = r#\"\"ensures { \"#;\nconst F: char = '\"';\n",
    );
}

#[test]
fn types_and_ranges_of_slices() {
    stays("type A = [u8; 2];\n\n#[inline]\nfn b() -> ([u8; 2], &[u8]) {\n    C.get(1..)\n}\n");
}

#[test]
fn code_stays_as_it_is_laid_out() {
    stays(
        "use super::a;\n\n\n/// B.\n#[inline]\npub fn b<'a, T>(c: &'a [T], d: impl Fn(u8) -> u8) -> Option<&'a T>\n\
         where\n    T: Ord + 'a,\n{\n    // Why.\n    let [first, others @ ..] = c else {\n        return None;\n    };\n    \
         if first < &c[1]  && others[..1] > c[1..] { return Some(first); }\n    for _ in 0..=9 { loop { break; } }\n    \
         while let F::I = end {}\n    let j = loop { break 1; };\n    match a::e(x.0.1) {\n        F::G { h, .. } | F::H(h, ..) => Some(h),\n        _ => unreachable!(),\n    }\n}\n",
    );
}

#[test]
fn several_modules_of_std_are_imported_one_by_one() {
    gives(
        "use std::{fmt, mem};\n\nfn a(f: &fmt::Result) {\n    mem::swap(f, f);\n}\n",
        "use core::fmt;\nuse core::mem;\n\n#[inline]\nfn a(f: &fmt::Result) {\n    mem::swap(f, f);\n}\n",
    );
    let result = "use core::fmt;\nuse core::num;\n";
    assert!(audited("use std::{fmt, mem};\n", result).is_err());
}

#[test]
fn a_trait_of_what_may_be_dropped() {
    gives(
        "trait A: Drop {\n    fn b(&self);\n}\n",
        "trait A {\n    fn b(&self);\n}\n",
    );
    assert!(audited("trait A: Copy {}\n", "trait A {}\n").is_err());
}

#[test]
fn an_impl_for_no_value() {
    gives(
        "trait A {\n    fn b(&self);\n}\n\nimpl A for () {\n    fn b(&self) {}\n}\n",
        "trait A {\n    fn b(&self);\n}\n\nimpl A for () {\n    #[inline]\n    fn b(&self) {}\n}\n",
    );
    assert!(erased("trait A {}\n\nimpl A for (u8, u8) {}\n").is_err());
}
