//! One small source, erased.
#![allow(dead_code)]

use erase::audit::audit;
use erase::crates::{add_names, Crate, File};
use erase::forms::{Forms, PACKAGE};
use erase::host::HOST;
use erase::programs::PROGRAMS;
use erase::source::{Fault, Source};
use erase::{erase, Names};
use std::path::PathBuf;

/// The path of the source.
pub const PATH: &str = "crates/ent_here/src/here.rt";

/// The source's crate, `ent_here`, and `ent_other`. The sources may use these forms, and what a
/// letter names.
fn names(forms: &[&'static Forms], name: &str, path: &str, text: &str) -> Result<Names, Fault> {
    let mut names = Names::new(forms);
    let letters = |kind: &str, first: char, last: char| -> String {
        (first..=last)
            .map(|name| format!("{kind} {name};\n"))
            .collect()
    };
    let known = "fn end() {}\n";
    let other = letters("fn", 'a', 'z') + &letters("struct", 'A', 'Z') + known;
    let file = |path: &str, text: &str| File {
        path: path.to_owned(),
        result: PathBuf::new(),
        text: text.to_owned(),
    };
    let krate = |name: &str, file| Crate {
        name: name.to_owned(),
        files: vec![file],
    };
    let crates = [
        krate("ent_other", file("crates/ent_other/src/lib.rt", &other)),
        krate(name, file(path, text)),
    ];
    add_names(&mut names, &crates, "crate::proved")?;
    Ok(names)
}

/// The result of a source of the package, if its audit agrees.
pub fn erased(text: &str) -> Result<String, Fault> {
    erased_with(text, &[&PACKAGE])
}

/// The result of a source of a test, if its audit agrees.
pub fn erased_test(text: &str) -> Result<String, Fault> {
    erased_with(text, &[&PACKAGE, &HOST])
}

/// The result of a source of a program, if its audit agrees.
pub fn erased_program(text: &str) -> Result<String, Fault> {
    erased_with(text, &[&PACKAGE, &PROGRAMS])
}

fn erased_with(text: &str, forms: &[&'static Forms]) -> Result<String, Fault> {
    let names = names(forms, "ent_here", PATH, text)?;
    let source = Source::read(PATH, text)?;
    let result = erase(&source, "ent_here", &names)?;
    audited_with(&source, &result, &names)?;
    Ok(result)
}

/// The result of a source that is all of a crate of the package, if its audit agrees.
pub fn erased_as(krate: &str, text: &str) -> Result<String, Fault> {
    let path = format!("crates/{krate}/src/here.rt");
    let names = names(&[&PACKAGE], krate, &path, text)?;
    let source = Source::read(&path, text)?;
    let result = erase(&source, krate, &names)?;
    audit(&source, &Source::read("here.rs", &result)?, krate, &names)?;
    Ok(result)
}

/// The result of the source at this path of this crate, and what the audit says of another one.
pub fn erased_of(
    krate: &str,
    path: &str,
    text: &str,
    other: &str,
) -> Result<(String, Result<(), Fault>), Fault> {
    let names = names(&[&PACKAGE], krate, path, text)?;
    let source = Source::read(path, text)?;
    let audited = |result| audit(&source, &Source::read("here.rs", result)?, krate, &names);
    let result = erase(&source, krate, &names)?;
    audited(&result)?;
    let other = audited(other);
    Ok((result, other))
}

/// What the audit says of the result of a source of the package.
pub fn audited(text: &str, result: &str) -> Result<(), Fault> {
    let mut names = Names::new(&[&PACKAGE]);
    for name in ["ent_here", "ent_other"] {
        let path = format!("crate::proved::{name}");
        names.crates.insert(name.to_owned(), path);
    }
    let source = Source::read(PATH, text)?;
    names.add(&Source::read("crates/ent_other/src/lib.rt", "struct E;")?)?;
    names.add(&source)?;
    names.add_blocks(&source)?;
    audited_with(&source, result, &names)
}

/// What the audit says of the result of a source of a program.
pub fn audited_program(text: &str, result: &str) -> Result<(), Fault> {
    let names = names(&[&PACKAGE, &PROGRAMS], "ent_here", PATH, text)?;
    audited_with(&Source::read(PATH, text)?, result, &names)
}

fn audited_with(source: &Source<'_>, result: &str, names: &Names) -> Result<(), Fault> {
    let result = Source::read("here.rs", result)?;
    audit(source, &result, "ent_here", names)
}
