//! What is erased, and where the results go.

use crate::arranging::{arranged, has_the_same_lines};
use crate::audit::audit;
use crate::crates::{add_names, below, read, Crate, File};
use crate::erase;
use crate::forms::{Layout, LAYOUTS, PACKAGE};
use crate::host::HOST;
use crate::names::Names;
use crate::naming::{differs_by_names, modules, named};
use crate::programs::PROGRAMS;
use crate::source::{Fault, Source};
use std::collections::BTreeMap;
use std::error::Error;
use std::path::{Path, PathBuf};
use std::{fs, io};

/// The crates that the package's face calls. They are erased with all that they stand on.
const TOPS: &[&str] = &[
    "ent_blocks",
    "ent_log",
    "ent_replay",
    "ent_runner",
    "ent_total",
];

/// The programs, with their crates. The package has them behind its feature of this name.
pub(crate) const PROGRAM_CRATES: &[&str] = &[
    "cli",
    "ent_script",
    "spawnrun",
    "spawnrun_lib",
    "tracecheck",
];

/// That feature.
const PROGRAM_FEATURE: &str = "programs";

/// The tests of those crates, and what only the tests in plain Rust use.
const TESTS: &[&str] = &["cases_and_examples", "cli", "ent_tests"];

/// Their modules that aren't erased: the tests have no command lines.
const LEFT_OUT: &[(&str, &[&str])] = &[(
    "cli",
    &[
        "beginning",
        "ending",
        "input",
        "limits",
        "line_fault",
        "options",
        "words",
    ],
)];

/// A folder of results in the repository. Nothing else stands in it.
pub struct Target {
    /// The folder.
    pub folder: &'static str,
    /// Its path in the package that it is of.
    path: &'static str,
    /// The file that has the crates as modules, and its head.
    file: &'static str,
    head: &'static str,
}

/// The results of the package.
pub static PROVED: Target = Target {
    folder: "rust/forgeni/src/proved",
    path: crate::crates::PACKAGE,
    file: "modules.rs",
    head: "\
// The proved crates of this repository as plain Rust, each a module of the package that includes
// this file.
//
// `rust/erase` makes all files here of the sources below `crates/`. What is ghost is taken out, and
// the clauses of a contract go to the docs of a public call, and else stay as comments. None of
// these files is edited by hand: the gate makes them anew and compares. The modules, and some
// items, have other names than in the sources, by the table `rust/erase/names.txt`.
//
// The proofs are of the sources, before that.
//
// What a clause alone reads isn't used here, and the package doesn't call all that is proved. How
// the sources are written is up to them: they have labels where a proof names a loop, and values
// for the case that a call fails.
",
};

/// The results of the tests.
pub static TESTED: Target = Target {
    folder: "rust/erased_tests/src/made",
    path: "crate::made",
    file: "mod.rs",
    head: "\
//! The repository's own tests of the proved crates as plain Rust, each crate a module.
//!
//! `rust/erase --tests` makes all files here.
#![allow(dead_code, unused_imports, unused_variables, non_shorthand_field_patterns, clippy::all)]
",
};

/// The lints that the sources aren't written for.
const LINTS: &str =
    "dead_code, unused_assignments, unused_imports, unused_labels, unused_variables, clippy::all";

/// The texts of the files that are to be, by their paths in the repository.
pub type Files = BTreeMap<PathBuf, String>;

/// Erases the crates of the package, and those of the programs if `crates.txt` lists them. The
/// repository is the folder of `crates.txt`.
///
/// # Errors
///
/// A file can't be read, a source has an unknown form, a result isn't its source, or a type with a
/// layout of its own isn't there.
pub fn package(repository: &Path) -> Result<Files, Box<dyn Error>> {
    let crates = crates_below(repository, TOPS)?;
    let mut names = Names::new(&[&PACKAGE]);
    add_names(&mut names, &crates, PROVED.path)?;
    let is_missing =
        |it: &&Layout| names.crates.contains_key(it.krate) && !names.has_type(it.krate, it.name);
    if let Some(Layout { krate, name, .. }) = LAYOUTS.iter().find(is_missing) {
        let what = format!("the table LAYOUTS has `{name}` of {krate}, which isn't there");
        return Err(what.into());
    }
    let mut files = erased(&crates, &names, PROVED.folder)?;
    let listed = listed(repository)?;
    let is_listed = |name: &&&str| listed.lines().any(|line| names_crate(line, name));
    let programs: Vec<&str> = PROGRAM_CRATES.iter().filter(is_listed).copied().collect();
    let mut programs = read_all(repository, &programs)?;
    programs.iter_mut().for_each(|it| it.leave_out("tests"));
    let mut names = Names::new(&[&PACKAGE, &PROGRAMS]);
    add_names(&mut names, &crates, PROVED.path)?;
    add_names(&mut names, &programs, PROVED.path)?;
    files.extend(erased(&programs, &names, PROVED.folder)?);
    let all: Vec<&str> = crates
        .iter()
        .chain(&programs)
        .map(|it| it.name.as_str())
        .collect();
    let list = list_of(&PROVED, &all);
    files.insert(Path::new(PROVED.folder).join(PROVED.file), list);
    Ok(files)
}

/// Erases the tests of those crates.
///
/// # Errors
///
/// The same as for [`package`].
pub fn tests(repository: &Path) -> Result<Files, Box<dyn Error>> {
    let crates = crates_below(repository, TOPS)?;
    let mut tests = read_all(repository, TESTS)?;
    for (name, modules) in LEFT_OUT {
        for krate in tests.iter_mut().filter(|krate| krate.name == *name) {
            modules.iter().for_each(|module| krate.leave_out(module));
        }
    }
    let mut names = Names::new(&[&PACKAGE, &HOST]);
    add_names(&mut names, &crates, PROVED.path)?;
    add_names(&mut names, &tests, TESTED.path)?;
    let mut files = erased(&tests, &names, TESTED.folder)?;
    let mut list = format!("{}\n", TESTED.head);
    list.extend(TESTS.iter().map(|name| format!("pub mod {name};\n")));
    files.insert(Path::new(TESTED.folder).join(TESTED.file), list);
    Ok(files)
}

/// The sources of these crates.
fn read_all(repository: &Path, names: &[&str]) -> io::Result<Vec<Crate>> {
    names.iter().map(|name| read(repository, name)).collect()
}

/// The list of the repository's crates.
fn listed(repository: &Path) -> io::Result<String> {
    fs::read_to_string(repository.join("crates.txt"))
}

/// Whether a line of the list is that of this crate.
fn names_crate(line: &str, name: &str) -> bool {
    line.split_once(':')
        .and_then(|it| it.0.split_whitespace().next())
        == Some(name)
}

/// These crates and all of the repository's that they stand on.
fn crates_below(repository: &Path, tops: &[&str]) -> Result<Vec<Crate>, Box<dyn Error>> {
    let listed = listed(repository)?;
    let tops: Vec<String> = tops.iter().map(|top| (*top).to_owned()).collect();
    let names = below(&listed, &tops)?;
    let crates = names.iter().map(|name| read(repository, name));
    Ok(crates.collect::<Result<_, _>>()?)
}

/// The file that has these crates as modules in the order of the table, those of the programs
/// behind a feature.
fn list_of(target: &Target, crates: &[&str]) -> String {
    let there = modules().filter(|it| crates.contains(&it.0));
    let modules: String = there
        .map(|(krate, module)| {
            let feature = match PROGRAM_CRATES.contains(&krate) {
                true => format!("#[cfg(feature = \"{PROGRAM_FEATURE}\")]\n"),
                false => String::new(),
            };
            format!("\n{feature}#[allow({LINTS})]\n#[path = \"{krate}/mod.rs\"]\nmod {module};\n")
        })
        .collect();
    format!("{}{modules}", target.head)
}

/// The results of the crates, each audited.
fn erased(crates: &[Crate], names: &Names, folder: &str) -> Result<Files, Box<dyn Error>> {
    let folder = Path::new(folder);
    let mut files = Files::new();
    let mut faults = Vec::new();
    for krate in crates {
        for file in krate
            .files
            .iter()
            .filter(|file| !names.ghost_files.contains(&file.path))
        {
            let path = folder.join(&krate.name).join(&file.result);
            match audited(krate, file, &path, names) {
                Ok(text) => drop(files.insert(path, text)),
                Err(fault) => faults.push(fault.to_string()),
            }
        }
    }
    if !faults.is_empty() {
        return Err(faults.join("\n").into());
    }
    Ok(files)
}

/// The result of a source, after its audit.
fn audited(krate: &Crate, file: &File, path: &Path, names: &Names) -> Result<String, Fault> {
    let source = Source::read(&file.path, &file.text)?;
    let text = erase(&source, &krate.name, names)?;
    let path = path.display().to_string();
    let result = Source::read(&path, &text)?;
    audit(&source, &result, &krate.name, names)?;
    let named = named(&text, &krate.name, names)?;
    let named = Source::read(&path, &named)?;
    differs_by_names(&result, &named)?;
    let place = format!("{}/{}", krate.name, file.result.display());
    let arranged = arranged(named.text, &place)?;
    has_the_same_lines(&named, &Source::read(&path, &arranged)?)?;
    Ok(arranged)
}
