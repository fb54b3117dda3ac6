//! The names and the order of the package, on small results.

use erase::arranging::{arranged, has_the_same_lines};
use erase::forms::PACKAGE;
use erase::naming::{differs_by_names, named};
use erase::source::{Fault, Source};
use erase::Names;

/// A result of this crate with the package's names, which differs from what it was by names alone.
fn renamed(krate: &str, text: &str) -> String {
    let result = named(text, krate, &Names::new(&[&PACKAGE])).expect("a result");
    differ(text, &result).expect("other names alone");
    result
}

fn differ(before: &str, after: &str) -> Result<(), Fault> {
    differs_by_names(
        &Source::read("before.rs", before)?,
        &Source::read("after.rs", after)?,
    )
}

/// What is declared, imported, or named by a path has the package's name. A variant of the same
/// name stays, and so does what another crate declares.
#[test]
fn names_of_the_package() {
    let text = "use crate::handles::{Handle, Memory};\n\npub enum AllocFault {\n    Memory,\n    Other(Memory),\n}\n\n\
                pub fn a() -> Result<crate::handles::Memory, AllocFault> {\n    Err(AllocFault::Memory)\n}\n";
    let wanted = "use crate::handles::{Handle, OutOfMemory};\n\npub enum AllocError {\n    Memory,\n    Other(OutOfMemory),\n}\n\n\
                  pub fn a() -> Result<crate::handles::OutOfMemory, AllocError> {\n    Err(AllocError::Memory)\n}\n";
    assert_eq!(renamed("ent_alloc", text), wanted);
    let other = "pub struct Commands;\n\nuse crate::commands::CommandQueue as Queue;\n\nfn a(_: Commands, _: Queue) {}\n";
    assert_eq!(
        renamed("ent_total", other),
        other.replace("::CommandQueue", "::IssuedCommands")
    );
    assert_eq!(
        renamed("ent_queue", other),
        other
            .replace("::CommandQueue", "::IssuedCommands")
            .replace(" Commands", " SystemCommands")
    );
}

/// An import by the name that the package gives needs no other name.
#[test]
fn an_import_by_another_name() {
    let text =
        "use crate::allocator::{ReserveError as QueueFault, Source};\n\nfn a(_: QueueFault) {}\n";
    let wanted = "use crate::allocator::{ReserveError, Source};\n\nfn a(_: ReserveError) {}\n";
    assert_eq!(renamed("ent_queue", text), wanted);
}

/// A type of a trait isn't what the crate declares by its name.
#[test]
fn types_of_traits() {
    let text = "use crate::reserving::reserver::Reserver;\n\nimpl Source for A {\n    type Reserver = Reserver;\n\n    \
                fn a(_: &Self::Reserver) {}\n}\n";
    let wanted = text
        .replace("::Reserver;", "::SharedReserver;")
        .replace("= Reserver", "= SharedReserver");
    assert_eq!(renamed("ent_shared", text), wanted);
}

/// Docs have the package's names in links and in words that are names alone.
#[test]
fn docs() {
    let text = "use crate::handles::Memory;\n\n/// Memory, [`Memory`], [`OutOfMemory`](Memory), [`Memory`](A::Memory), `AllocFault`, \
                [`AllocError::Space`](AllocFault::Space), [`share`](crate::reserving::share).\nstruct A;\n";
    let wanted = "use crate::handles::OutOfMemory;\n\n/// Memory, [`OutOfMemory`], [`OutOfMemory`], [`Memory`](A::Memory), `AllocError`, \
                  [`AllocError::Space`], `share`.\nstruct A;\n";
    assert_eq!(renamed("ent_log", text), wanted);
}

/// Nothing but names of the table may differ.
#[test]
fn what_is_no_name() {
    for (before, after) in [
        ("fn a() -> Memory {}", "fn a() -> Report {}"),
        ("fn a() -> Memory {}", "fn b() -> OutOfMemory {}"),
        (
            "fn a() -> Memory {}",
            "fn a() -> OutOfMemory { }\nfn b() {}",
        ),
        ("// Memory.\nfn a() {}", "// Memories.\nfn a() {}"),
    ] {
        assert!(differ(before, after).is_err(), "{after}");
    }
    assert!(differ("fn a() -> Memory {}", "fn a() -> OutOfMemory {}").is_ok());
}

/// The functions of a type by topic, and then those that no topic has. Blocks of one header become
/// one.
#[test]
fn topics() {
    let text = "//! A.\n\nimpl Entities {\n    /// B.\n    pub fn len(&self) {}\n\n    fn own() {}\n\n    pub const fn with_limits() {}\n}\n\n\
                impl Entities {\n    pub fn alloc() {}\n}\n\nimpl A for Entities {\n    fn len() {}\n}\n";
    let wanted = "//! A.\n\n/// # Making one\nimpl Entities {\n    pub const fn with_limits() {}\n}\n\n\
                  /// # Handles\nimpl Entities {\n    pub fn alloc() {}\n}\n\n\
                  /// # Counts and limits\nimpl Entities {\n    /// B.\n    pub fn len(&self) {}\n}\n\n\
                  impl Entities {\n    fn own() {}\n}\n\nimpl A for Entities {\n    fn len() {}\n}\n";
    assert_eq!(
        arranged(text, "ent_alloc/entities.rs").as_deref(),
        Ok(wanted)
    );
    assert_eq!(arranged(text, "ent_alloc/slots.rs").as_deref(), Ok(text));
    // The value of a constant has braces.
    let constant = "pub const GREATEST: Limits = Limits { slots: 1 };";
    let text_of_limits = format!(
        "impl Limits {{\n    pub fn slots() {{}}\n\n    {constant}\n\n    pub fn new() {{}}\n}}\n"
    );
    let wanted_of_limits = format!(
        "/// # Making them\nimpl Limits {{\n    {constant}\n\n    pub fn new() {{}}\n}}\n\n\
         /// # Both numbers\nimpl Limits {{\n    pub fn slots() {{}}\n}}\n"
    );
    assert_eq!(
        arranged(&text_of_limits, "ent_alloc/limits.rs").as_deref(),
        Ok(wanted_of_limits.as_str())
    );
    let same = |after: &str| {
        has_the_same_lines(
            &Source::read("before.rs", text)?,
            &Source::read("after.rs", after)?,
        )
    };
    assert!(same(wanted).is_ok());
    assert!(same(&wanted.replace("    /// B.\n", "")).is_err());
    assert!(same(&wanted.replace("fn own() {}", "fn own() { }")).is_err());
}

/// The modules that the table has come first.
#[test]
fn modules() {
    let text = "//! A.\n\nmod absent;\nmod asking;\nmod entities;\n\npub use absent::A;\n";
    let wanted = "//! A.\n\nmod entities;\nmod asking;\nmod absent;\n\npub use absent::A;\n";
    assert_eq!(arranged(text, "ent_alloc/mod.rs").as_deref(), Ok(wanted));
    assert_eq!(arranged(text, "ent_log/mod.rs").as_deref(), Ok(text));
}
