//! Forms that could become another program. Each file of `forms` has one. Its first line says what
//! the form is, and its second what becomes of it: `refused: LINE: WHY`; `stopped: WHY`, if the
//! package's kit refuses it at compile time; or `shown: VALUE`, which its function `shown` must
//! return in a debug build and in a release build of the package's edition.

mod common;
use common::erased_as;
use std::path::{Path, PathBuf};
use std::process::{Command, Output};
use std::{env, fs};

/// A form: its name, its text, and what its second line says.
struct Form {
    name: String,
    text: String,
}

impl Form {
    /// What the second line has after this word.
    fn says(&self, word: &str) -> Option<&str> {
        let second = self.text.lines().nth(1).unwrap_or_default();
        second.strip_prefix(&format!("//! {word}: "))
    }
}

/// All forms, in the order of their names.
fn forms() -> Vec<Form> {
    let folder = Path::new(env!("CARGO_MANIFEST_DIR")).join("tests/forms");
    let entries = fs::read_dir(folder).expect("the folder of the forms");
    let mut paths: Vec<PathBuf> = entries.map(|entry| entry.expect("a file").path()).collect();
    paths.sort();
    let form = |path: PathBuf| Form {
        name: path
            .file_stem()
            .expect("a name")
            .to_str()
            .expect("letters")
            .to_owned(),
        text: fs::read_to_string(&path).expect("a text"),
    };
    paths.into_iter().map(form).collect()
}

#[test]
fn each_form_says_what_becomes_of_it() {
    let counts = ["refused", "stopped", "shown"].map(|word| {
        let forms = forms();
        forms
            .iter()
            .filter(|form| form.says(word).is_some())
            .count()
    });
    assert_eq!(counts.iter().sum::<usize>(), forms().len());
    assert!(counts.iter().all(|count| *count > 0));
}

#[test]
fn forms_are_refused_with_their_places() {
    for form in forms() {
        let Some((line, why)) = form.says("refused").and_then(|says| says.split_once(": ")) else {
            continue;
        };
        match erased_as("ent_here", &form.text) {
            Ok(result) => panic!("{} is let through as\n{result}", form.name),
            Err(fault) => {
                assert!(fault.what.starts_with(why), "{}: {fault}", form.name);
                assert_eq!(fault.line.to_string(), line, "{}: {fault}", form.name);
            }
        }
    }
}

#[test]
fn other_forms_do_what_they_did() {
    let folder = folder("shown");
    let (mut modules, mut calls, mut wanted) = (String::new(), String::new(), String::new());
    for form in forms() {
        let Some(value) = form.says("shown") else {
            continue;
        };
        let name = &form.name;
        modules += &put(&folder, &form);
        calls += &format!("    println!(\"{name} {{:?}}\", proved::{name}::shown());\n");
        wanted += &format!("{name} {value}\n");
    }
    for (name, options) in BUILDS {
        let built = build(&folder, &modules, &calls, name, &options);
        assert!(built.status.success(), "{}", said(&built));
        let run = Command::new(folder.join(name))
            .output()
            .expect("the program");
        assert!(run.status.success(), "{}", said(&run));
        assert_eq!(String::from_utf8_lossy(&run.stdout), wanted, "{name}");
    }
}

#[test]
fn the_kit_stops_what_it_has_otherwise() {
    let folder = folder("stopped");
    for form in forms() {
        let Some(why) = form.says("stopped") else {
            continue;
        };
        let modules = put(&folder, &form);
        let calls = format!(
            "    println!(\"{{:?}}\", proved::{}::shown());\n",
            form.name
        );
        for (name, options) in BUILDS {
            let built = build(&folder, &modules, &calls, name, &options);
            assert!(!built.status.success(), "{} is built", form.name);
            assert!(
                said(&built).contains(why),
                "{}: {}",
                form.name,
                said(&built)
            );
        }
    }
}

/// The builds, with their options for rustc.
const BUILDS: [(&str, [&str; 2]); 2] = [
    ("debug", ["-Copt-level=0", "-Cdebug-assertions=on"]),
    ("release", ["-Copt-level=3", "-Cdebug-assertions=off"]),
];

/// A folder for a program.
fn folder(name: &str) -> PathBuf {
    let folder = Path::new(env!("CARGO_TARGET_TMPDIR")).join(name);
    fs::create_dir_all(folder.join("proved")).expect("a folder");
    folder
}

/// Writes the result of a form there. Returns the line that makes it a module.
fn put(folder: &Path, form: &Form) -> String {
    let name = &form.name;
    let result = erased_as(name, &form.text).unwrap_or_else(|fault| panic!("{name}: {fault}"));
    fs::write(folder.join(format!("proved/{name}.rs")), result).expect("a file");
    format!("pub mod {name};\n")
}

/// Builds a program that has these modules and the package's kit, and makes these calls.
fn build(folder: &Path, modules: &str, calls: &str, name: &str, options: &[&str]) -> Output {
    let package = Path::new(env!("CARGO_MANIFEST_DIR")).join("../forgeni");
    let kit = package.join("src/kit/mod.rs");
    let main = format!(
        "#![allow(dead_code, unused)]\nextern crate alloc;\n#[path = {kit:?}]\nmod kit;\nmod proved;\n\n\
         fn main() {{\n{calls}}}\n"
    );
    fs::write(folder.join("main.rs"), main).expect("a file");
    fs::write(folder.join("proved/mod.rs"), modules).expect("a file");
    let manifest = fs::read_to_string(package.join("Cargo.toml")).expect("a manifest");
    let mut editions = manifest
        .lines()
        .filter_map(|line| line.strip_prefix("edition = "));
    let edition = editions.next().expect("an edition").trim_matches('"');
    let mut build = Command::new(env::var("RUSTC").unwrap_or("rustc".to_owned()));
    build.current_dir(folder).args(options);
    build.args([
        "--edition",
        edition,
        "--cfg",
        "feature=\"std\"",
        "-Aunexpected_cfgs",
    ]);
    build.args(["-o", name, "main.rs"]).output().expect("rustc")
}

/// What a program writes to standard error.
fn said(output: &Output) -> String {
    String::from_utf8_lossy(&output.stderr).into_owned()
}

/// If two sources have one result, one of them would be lost.
#[test]
fn two_sources_have_two_results() {
    let repository = Path::new(env!("CARGO_TARGET_TMPDIR")).join("roots");
    let sources = repository.join("crates/ent_here/src");
    fs::create_dir_all(&sources).expect("a folder");
    fs::write(sources.join("lib.rt"), "pub fn one() {}\n").expect("a file");
    assert!(erase::crates::read(&repository, "ent_here").is_ok());
    for other in ["main.rt", "mod.rt"] {
        fs::write(sources.join(other), "fn two() {}\n").expect("a file");
        let read = erase::crates::read(&repository, "ent_here").map(|_| ());
        fs::remove_file(sources.join(other)).expect("the file");
        let wanted = format!(
            "crates/ent_here/src/lib.rt and crates/ent_here/src/{other} have one result, so one would be lost"
        );
        assert_eq!(read.expect_err("two of one").to_string(), wanted);
    }
    // The gate refuses a source outside the repository's crates.
    fs::remove_dir_all(&repository).expect("the folder");
}
