//! Forms of the two programs, of which the other crates of the package have none.

mod common;
use common::{audited_program, erased, erased_program};

/// The result of the source as one of a program has to be this one, and as one of another crate
/// there is none.
#[track_caller]
fn gives(source: &str, wanted: &str) {
    let result = erased_program(source).expect("known forms");
    let text = result.split_once("\n\n").expect("a first line").1;
    assert_eq!(text, wanted);
    assert!(erased(source).is_err(), "the package may have it");
}

#[test]
fn a_program_is_handed_its_runtime() {
    gives(
        "fn main(rt: HostRuntime) -> u8 {\n    a(rt.stdin())\n}\n",
        "use crate::kit::programs::rt::HostRuntime;\n\n#[inline]\npub fn main(rt: HostRuntime) -> u8 {\n    \
         a(rt.stdin())\n}\n",
    );
}

#[test]
fn a_text_is_made_without_the_right_to_allocate() {
    gives(
        "use std::alloc::Global;\n\nfn a(alloc: Global, b: u8) -> C {\n    format!(in alloc; \"{b}\")\n}\n",
        "use crate::kit::programs::format;\n\n#[inline]\nfn a(b: u8) -> C {\n    format!(\"{b}\")\n}\n",
    );
    let refused = erased_program("fn a(b: u8) -> C {\n    format!(in b; \"{b}\")\n}\n");
    assert!(refused.is_ok_and(|result| result.contains("format!(in b;")));
}

#[test]
fn a_list_of_the_bytes_of_a_text_is_a_list() {
    gives(
        "fn a(b: String) {\n    let mut c = b.into_bytes();\n    c.push(1)?;\n}\n",
        "use crate::kit::programs::string::String;\nuse crate::kit::vec::FallibleVec;\n\n#[inline]\nfn a(b: String) {\n    \
         let mut c = b.into_bytes();\n    c.push_fallibly(1)?;\n}\n",
    );
}

#[test]
fn statics_stay() {
    gives(
        "static A: [u8; 2] = [1, 2];\n",
        "static A: [u8; 2] = [1, 2];\n",
    );
    assert!(erased_program("static mut A: u8 = 1;\n").is_err());
    assert!(erased_program("fn a() {\n    static A: u8 = 1;\n}\n").is_err());
    assert!(audited_program("static A: u8 = 1;\n", "const A: u8 = 1;\n").is_err());
}

#[test]
fn another_name_of_a_type_has_its_functions() {
    gives(
        "use std::fmt::InlineText;\n\ntype Shown = InlineText<9>;\n\nfn a() -> Shown {\n    Shown::new()\n}\n",
        "use crate::kit::programs::inline_text::InlineText;\n\ntype Shown = InlineText<9>;\n\n#[inline]\n\
         fn a() -> Shown {\n    Shown::new()\n}\n",
    );
    let other = "use std::fmt::InlineText;\n\ntype Shown = InlineText<9>;\n\nfn a() -> Shown {\n    Shown::zero()\n}\n";
    assert!(erased_program(other).is_err());
}

#[test]
fn bare_names_of_programs() {
    gives(
        "fn a(b: f64) {\n    drop(b);\n}\n",
        "#[inline]\nfn a(b: f64) {\n    drop(b);\n}\n",
    );
}

#[test]
fn a_writer_of_the_sources_is_one_of_std() {
    gives(
        "use std::io;\nuse std::io::Write;\n\nstruct Over<W> {\n    a: W,\n}\n\nimpl<W: Write> Write for Over<W> {\n    \
         ghost contents = { λ b. W.contents b.a };\n\n    fn write(&mut self, b: &[u8]) -> io::Result<usize> {\n        \
         self.a.write(b)\n    }\n\n    fn flush(&mut self) -> io::Result<()> {\n        self.a.flush()\n    }\n}\n",
        "use std::io;\nuse std::io::Write;\n\nstruct Over<W> {\n    a: W,\n}\n\nimpl<W: Write> Write for Over<W> {\n    \
         #[inline]\n    fn write(&mut self, b: &[u8]) -> io::Result<usize> {\n        self.a.write(b)\n    }\n\n    \
         #[inline]\n    fn flush(&mut self) -> io::Result<()> {\n        self.a.flush()\n    }\n}\n",
    );
    let other =
        "use std::io;\nuse std::io::Write;\n\nstruct Over {}\n\nimpl Write for Over {\n    \
         fn by_ref(&mut self) -> u8 {\n        1\n    }\n}\n";
    assert!(erased_program(other).is_err());
}

#[test]
fn a_file_is_opened_by_its_runtime() {
    gives(
        "use std::fs::File;\nuse std::rt::Files;\n\nfn a<R: Files>(b: &R, c: &str) -> Option<R::File> {\n    \
         File::open(b, c).ok()\n}\n",
        "use crate::kit::programs::fs::File;\nuse crate::kit::programs::rt::Files;\n\n#[inline]\n\
         fn a<R: Files>(b: &R, c: &str) -> Option<R::File> {\n    File::open(b, c).ok()\n}\n",
    );
    let other = "use std::rt::Files;\n\nfn a<R: Files>(b: &R) -> Option<R::Dir> {\n    None\n}\n";
    assert!(erased_program(other).is_err());
}
