//! Sources with a form that isn't known. Each is refused, with its line.

mod common;
use common::{erased, PATH};

/// Each source, the line of its unknown form, and how the fault begins.
const REFUSED: &[(&str, usize, &str)] = &[
    // Ghost forms.
    (
        "\nghost val a = { b };\n",
        2,
        "an unknown ghost form: `ghost val`",
    ),
    (
        "impl A {\n    ghost foo = { b };\n}\n",
        2,
        "an unknown ghost form: `ghost foo`",
    ),
    (
        "impl A {\n    ghost view { b };\n}\n",
        2,
        "an unknown ghost form: `ghost view`",
    ),
    (
        "impl A {\n    ghost view = b;\n}\n",
        2,
        "an unknown ghost form: `ghost view`",
    ),
    (
        "trait A {\n    ghost may_issue: B;\n}\n",
        2,
        "an unknown ghost form: `ghost may_issue`",
    ),
    (
        "ghost view = { b };\n",
        1,
        "an unknown ghost form: `ghost view`",
    ),
    ("ghost fn a() {}\n", 1, "an unknown ghost form: `ghost fn`"),
    ("ghost use a.b(c);\n", 1, "an unknown form of `ghost use`"),
    (
        "fn a(ghost b: u8) {}\n",
        1,
        "an unknown ghost form in code: `ghost`",
    ),
    (
        "fn a() {\n    ghost let b = 1;\n}\n",
        2,
        "an unknown ghost form in code: `ghost`",
    ),
    (
        "struct A {\n    ghost a = { b },\n}\n",
        2,
        "an unknown form of a ghost field",
    ),
    (
        "struct A {\n    ghost a: { b } via { c },\n}\n",
        2,
        "an unknown form of a ghost field",
    ),
    (
        "struct A(ghost u8);\n",
        1,
        "an unknown form of a ghost field",
    ),
    (
        "trait A {\n    ghost a = { b };\n}\n",
        2,
        "an unknown ghost form: `ghost a`",
    ),
    // Clauses.
    (
        "fn a()\n    promises { b }\n{}\n",
        2,
        "an unknown clause: `promises`",
    ),
    (
        "fn a() -> u8\n    promises b { c }\n{}\n",
        2,
        "an unknown clause: `promises`",
    ),
    (
        "fn a() -> Option<u8>\n    decreases { b }\n{}\n",
        2,
        "an unknown clause: `decreases`",
    ),
    (
        "fn a() -> u8\n    requires { b }\n    promises { c }\n{}\n",
        3,
        "an unknown clause: `promises`",
    ),
    (
        "fn a<T>()\nwhere\n    T: Ord,\n    promises { b }\n{}\n",
        4,
        "an unknown block: `promises`",
    ),
    (
        "fn a<T>()\nwhere\n    T: Ord,\n    promises b { c }\n{}\n",
        4,
        "an unknown name: `promises`",
    ),
    ("fn a()\n    requires b\n{}\n", 3, "a body is missing"),
    (
        "fn a()\n    requires (b)\n{}\n",
        2,
        "a clause of an unknown form",
    ),
    (
        "fn a()\n    ensures** { b }\n{}\n",
        2,
        "a clause of an unknown form",
    ),
    (
        "fn a() {\n    b(|| ensures { c });\n}\n",
        2,
        "a contract without a body",
    ),
    (
        "trait A {\n    fn a()\n        promises { b };\n}\n",
        3,
        "an unknown clause: `promises`",
    ),
    // Clones.
    (
        "struct A;\n\nimpl Clone for A {\n    fn clone(&self) -> Result<Self, std::alloc::AllocError> {\n        \
         Ok(A)\n    }\n}\n",
        4,
        "another `clone` than by `again`",
    ),
    // Functions with a condition.
    (
        "pub use b::{a, C};\n\nmod b {\n    pub fn a()\n        requires { c }\n    {\n    }\n\n    pub struct C;\n}\n",
        1,
        "a function with a condition needs a `pub use` of its own",
    ),
    (
        "pub use b::a;\n\nmod b {\n    pub fn a()\n        requires { c }\n    {\n    }\n}\n\nmod d {\n    \
         pub fn a() {}\n}\n",
        1,
        "several functions `a`, of which some have a condition",
    ),
    // Blocks and signs.
    (
        "fn a() {\n    b();\n    proof { c }\n}\n",
        3,
        "an unknown block: `proof`",
    ),
    (
        "fn a() {\n    assume b {}\n}\n",
        2,
        "an unknown block: `assume`",
    ),
    (
        "fn a() {\n    let b = λ;\n}\n",
        2,
        "an unknown word in code: `λ`",
    ),
    (
        "fn a() {\n    b ≡ c\n}\n",
        2,
        "an unknown sign in code: `≡`",
    ),
    ("const A: u8 = 1 ∷ 2;\n", 1, "an unknown sign in code: `∷`"),
    // Attributes, derives, bounds, visibility.
    (
        "#[rattle(auto)]\nfn a() {}\n",
        1,
        "an unknown attribute: `rattle(auto)`",
    ),
    (
        "fn a() {}\n\n#[allow(dead_code)]\nfn b() {}\n",
        3,
        "an unknown attribute: `allow(dead_code)`",
    ),
    (
        "enum A {\n    #[error(\"b\")]\n    B,\n}\n",
        2,
        "an unknown attribute: `error(\"b\")`",
    ),
    (
        "#[derive(Clone, Copy, Ghost)]\nstruct A;\n",
        1,
        "an unknown derive: `Ghost`",
    ),
    (
        "#[derive(Clone, Debug)]\nstruct A;\n",
        1,
        "`Clone` without `Copy`",
    ),
    (
        "fn a<T, U>()\nwhere\n    T: Drop,\n    U: Copy,\n{}\n",
        3,
        "an unknown form of the bound `Drop`",
    ),
    (
        "impl Drop for A {}\n",
        1,
        "an impl of an unknown trait: `Drop`",
    ),
    (
        "impl AsMut for A {}\n",
        1,
        "an impl of an unknown trait: `AsMut`",
    ),
    (
        "mod a {\n    pub(crate) fn b() {}\n}\n",
        2,
        "`pub(crate)` in another place",
    ),
    (
        "pub(in crate::a) struct A;\n",
        1,
        "an unknown form of visibility",
    ),
    // Messages.
    (
        "#[derive(Error)]\nenum A {\n    B,\n}\n",
        3,
        "`A::B` has no message of a known form",
    ),
    (
        "#[derive(Error)]\n#[error(\"{0}\")]\nstruct A(u8);\n",
        1,
        "the message of `A` names no field",
    ),
    (
        "#[derive(Error)]\n#[error(transparent)]\nstruct A(u8);\n",
        3,
        "`A` has no message",
    ),
    (
        "#[derive(Error)]\n#[error(\"b\")]\nstruct A<T>(T);\n",
        3,
        "messages of a type with parameters",
    ),
    (
        "#[derive(Error)]\nenum A {\n    #[error(\"b\")]\n    B(#[from] C),\n}\n",
        4,
        "an unknown attribute: `from`",
    ),
    // Paths, macros, methods.
    (
        "use std::fs::File;\n",
        1,
        "an unknown path of std: `std::fs`",
    ),
    (
        "use std::{fmt, net};\n",
        1,
        "an unknown path of std: `std::net`",
    ),
    (
        "use std::{fmt, mem::swap};\n",
        1,
        "an unknown path of std: `std::mem`",
    ),
    (
        "pub use std::{fmt, mem};\n",
        1,
        "an unknown import of modules",
    ),
    (
        "use std::mem::size_of;\n",
        1,
        "an unknown path: `std::mem::size_of`",
    ),
    (
        "use std::alloc::{Global, System};\n",
        1,
        "an unknown path: `std::alloc::System`",
    ),
    (
        "use std::mem;\n\nfn a() {\n    mem::take(b);\n}\n",
        4,
        "an unknown path: `mem::take`",
    ),
    (
        "use std::mem as m;\n\nfn a() {\n    m::take(b);\n}\n",
        4,
        "an unknown path: `m::take`",
    ),
    (
        "fn a() {\n    std::process::exit(1);\n}\n",
        2,
        "an unknown path of std: `std::process`",
    ),
    ("use core::mem;\n", 1, "an unknown path of std: `core::mem`"),
    (
        "use either::IterEither;\n",
        1,
        "an unknown path: `either::IterEither`",
    ),
    ("use rayon::join;\n", 1, "an unknown crate: `rayon`"),
    ("type A = std::marker::Model;\n", 1, "a ghost path in code"),
    (
        "fn a() {\n    Vec::from_array(b);\n}\n",
        2,
        "an unknown path: `Vec::from_array`",
    ),
    (
        "fn a() {\n    Vec::<u8>::from_array(b);\n}\n",
        2,
        "an unknown path: `Vec::from_array`",
    ),
    (
        "fn a(b: String) {}\n",
        1,
        "an unknown name of the kit: `String`",
    ),
    (
        "fn a() {\n    let b = Box::new(1);\n}\n",
        2,
        "an unknown name of the kit: `Box`",
    ),
    (
        "fn a() {\n    assert!(rt; b);\n}\n",
        2,
        "an unknown macro: `assert!`",
    ),
    (
        "fn a() {\n    vec![in b; 1; 2]\n}\n",
        2,
        "an unknown macro: `vec!`",
    ),
    (
        "fn a() {\n    b.collect(rt.alloc())\n}\n",
        2,
        "an unknown method, or form of it: `collect`",
    ),
    (
        "fn a() {\n    b.iter().collect::<C>()\n}\n",
        2,
        "an unknown method, or form of it: `collect`",
    ),
    (
        "fn a() {\n    b.to_vec(alloc)\n}\n",
        2,
        "an unknown method, or form of it: `to_vec`",
    ),
    (
        "fn a() {\n    b.clone()\n}\n",
        2,
        "an unknown method, or form of it: `clone`",
    ),
    (
        "fn a() {\n    b.expect(rt, \"c\")\n}\n",
        2,
        "an unknown method, or form of it: `expect`",
    ),
    (
        "fn fmt<W: Write>(&self) {}\n",
        1,
        "another signature of `fmt`",
    ),
    ("fn fmt(&self) {}\n", 1, "another signature of `fmt`"),
    // Items and words.
    ("static A: u8 = 1;\n", 1, "an unknown item: `static`"),
    (
        "pub extern \"C\" fn a() {}\n",
        1,
        "an unknown item: `extern`",
    ),
    ("macro_rules! a {}\n", 1, "an unknown item: `macro_rules`"),
    (
        "const A: u8 = 1;\n\u{75}nsafe impl Send for B {}\n",
        2,
        "an unknown item: `\u{75}nsafe`",
    ),
    (
        "fn a() {\n    \u{75}nsafe { b() }\n}\n",
        2,
        "an unknown block: `\u{75}nsafe`",
    ),
    (
        "fn a() {\n    let b = \u{75}nsafe { c() };\n}\n",
        2,
        "an unknown block: `\u{75}nsafe`",
    ),
    (
        "fn a() {\n    c(|| \u{75}nsafe { c() });\n}\n",
        2,
        "an unknown block: `\u{75}nsafe`",
    ),
    (
        "fn a() {\n    match b {\n        c => proof { d },\n    }\n}\n",
        3,
        "an unknown block: `proof`",
    ),
    (
        "fn a() {\n    for b in (0..) {}\n}\n",
        2,
        "a range without an end",
    ),
    (
        "fn a() {\n    for b in 0.. {}\n}\n",
        2,
        "a range without an end",
    ),
    // Layout that would lose code.
    (
        "ghost use A.b; use super::c;\n",
        1,
        "what is ghost shares its last line with code",
    ),
    (
        "use super::c; ghost use A.b;\n",
        1,
        "this has to begin its line",
    ),
    // Texts that aren't whole.
    ("fn a() {\n    (b]\n}\n", 2, "a bracket without a partner"),
    ("fn a() {\n", 1, "a bracket without a partner"),
    ("\n\nconst A: &str = \"b;\n", 3, "a literal without an end"),
    ("\n/* a\n", 2, "a comment without an end"),
    ("const A: u8 = r#b;\n", 1, "a raw name"),
    ("fn a()\n", 1, "a body is missing"),
];

#[test]
fn unknown_forms_are_refused_with_their_lines() {
    for (source, line, what) in REFUSED {
        match erased(source) {
            Ok(result) => panic!("{source}\nis let through as\n{result}"),
            Err(fault) => {
                assert_eq!(fault.path, PATH, "{source}");
                assert_eq!(fault.line, *line, "{source}\n{fault}");
                assert!(fault.what.starts_with(what), "{source}\n{fault}");
            }
        }
    }
}

#[test]
fn a_fault_names_file_and_line() {
    let fault = erased("\nghost a;\n").expect_err("an unknown form");
    let wanted = "crates/ent_here/src/here.rt:2: an unknown ghost form: `ghost a`";
    assert_eq!(fault.to_string(), wanted);
}
