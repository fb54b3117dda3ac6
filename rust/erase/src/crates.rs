//! Which crates are erased, and their sources.

use crate::names::Names;
use crate::naming::module_of;
use crate::source::{Fault, Source};
use std::collections::{BTreeMap, BTreeSet};
use std::path::{Path, PathBuf};
use std::{fs, io};

/// The path of the package, in which the crates are modules.
pub const PACKAGE: &str = "crate";

/// A source of a crate.
pub struct File {
    /// Its path from the top of the repository, as `crates/ent_alloc/src/slots.rt`.
    pub path: String,
    /// Its path in the result of its crate, as `slots.rs`. That of `lib.rt` or `main.rt` is
    /// `mod.rs`.
    pub result: PathBuf,
    /// Its text.
    pub text: String,
}

/// A crate with its sources, in the order of their names.
pub struct Crate {
    /// Its name.
    pub name: String,
    /// Its sources.
    pub files: Vec<File>,
}

impl Crate {
    /// Leaves out a module, with all that is below it and what the crate exports of it.
    pub fn leave_out(&mut self, module: &str) {
        let path = format!("crates/{}/src/{module}", self.name);
        self.files.retain(|file| {
            let rest = file.path.strip_prefix(&path);
            !rest.is_some_and(|rest| rest == ".rt" || rest.starts_with('/'))
        });
        let declared = format!("mod {module};\n");
        let exported = format!("pub use {module}::");
        for file in &mut self.files {
            if file.result == Path::new("mod.rs") {
                let text = file
                    .text
                    .replace(&format!("#[cfg(test)]\n{declared}"), "")
                    .replace(&format!("\n{declared}"), "\n")
                    .replace("\n\n\n", "\n\n");
                let lines = text.split_inclusive(";\n");
                file.text = lines
                    .filter(|item| !item.trim_start().starts_with(&exported))
                    .collect();
            }
        }
    }
}

/// The crates of this repository that these ones stand on, with themselves, in the order of
/// `crates.txt`: a crate comes after those that it uses.
///
/// # Errors
///
/// A crate isn't listed.
pub fn below(listed: &str, tops: &[String]) -> Result<Vec<String>, String> {
    let lines = listed.lines().filter(|line| !line.starts_with('#'));
    let crates: Vec<(&str, Vec<&str>)> = lines
        .filter_map(|line| line.split_once(':'))
        .map(|(head, uses)| {
            let name = head.split_whitespace().next().unwrap_or("");
            (name, uses.split_whitespace().collect())
        })
        .collect();
    let mut wanted: BTreeSet<&str> = tops.iter().map(String::as_str).collect();
    for (name, uses) in crates.iter().rev() {
        if wanted.contains(name) {
            wanted.extend(uses);
        }
    }
    let is_listed = |name: &str| crates.iter().any(|(listed, _)| *listed == name);
    if let Some(missing) = tops.iter().find(|name| !is_listed(name)) {
        return Err(format!("crates.txt doesn't list {missing}"));
    }
    let chosen = crates.iter().filter(|(name, _)| wanted.contains(name));
    Ok(chosen.map(|(name, _)| (*name).to_owned()).collect())
}

/// Reads the sources of a crate.
///
/// # Errors
///
/// A file can't be read, or two files have one result, such as those of a library and of a program.
pub fn read(repository: &Path, name: &str) -> io::Result<Crate> {
    let folder = repository.join("crates").join(name).join("src");
    let mut paths = Vec::new();
    collect(&folder, &mut paths)?;
    paths.sort();
    let file = |path: PathBuf| -> io::Result<File> {
        let local = path
            .strip_prefix(&folder)
            .expect("a path in the folder")
            .to_owned();
        let is_root = ["lib.rt", "main.rt"]
            .map(Path::new)
            .contains(&local.as_path());
        Ok(File {
            path: format!("crates/{name}/src/{}", local.display()),
            result: if is_root {
                PathBuf::from("mod.rs")
            } else {
                local.with_extension("rs")
            },
            text: fs::read_to_string(&path)?,
        })
    };
    let files: Vec<File> = paths.into_iter().map(file).collect::<io::Result<_>>()?;
    let mut sources = BTreeMap::new();
    for file in &files {
        if let Some(other) = sources.insert(&file.result, &file.path) {
            let what = format!(
                "{other} and {} have one result, so one would be lost",
                file.path
            );
            return Err(io::Error::other(what));
        }
    }
    Ok(Crate {
        name: name.to_owned(),
        files,
    })
}

fn collect(folder: &Path, paths: &mut Vec<PathBuf>) -> io::Result<()> {
    for entry in fs::read_dir(folder)? {
        let path = entry?.path();
        if path.is_dir() {
            collect(&path, paths)?;
        } else if path.extension().is_some_and(|extension| extension == "rt") {
            paths.push(path);
        }
    }
    Ok(())
}

/// Adds what the crates declare. They are modules below `path`. If that is the package, each has a
/// name of its own.
///
/// # Errors
///
/// A source can't be cut into tokens, or a name has two meanings.
pub fn add_names(names: &mut Names, crates: &[Crate], path: &str) -> Result<(), Fault> {
    for krate in crates {
        let own = module_of(&krate.name).filter(|_| path == PACKAGE);
        let path = format!("{path}::{}", own.unwrap_or(&krate.name));
        names.crates.insert(krate.name.clone(), path);
    }
    for file in crates.iter().flat_map(|krate| &krate.files) {
        names.add(&Source::read(&file.path, &file.text)?)?;
    }
    for file in crates.iter().flat_map(|krate| &krate.files) {
        names.add_blocks(&Source::read(&file.path, &file.text)?)?;
    }
    names.check()
}

#[cfg(test)]
mod tests {
    use super::{below, Crate, File};
    use std::path::PathBuf;

    const LISTED: &str =
        "# A comment: with a colon.\n\na: itoa\nb staticlib: a\nc:\nd: b c\ne: a\n";

    fn names(tops: &[&str]) -> Result<Vec<String>, String> {
        let tops: Vec<String> = tops.iter().map(|top| (*top).to_owned()).collect();
        below(LISTED, &tops)
    }

    fn file(path: &str, result: &str, text: &str) -> File {
        File {
            path: format!("crates/a/src/{path}"),
            result: PathBuf::from(result),
            text: text.to_owned(),
        }
    }

    #[test]
    fn a_module_is_left_out_with_all_below_it() {
        let root = "mod b;\n#[cfg(test)]\nmod c;\n#[cfg(test)]\nmod c_more;\n";
        let mut krate = Crate {
            name: "a".to_owned(),
            files: vec![
                file("b.rt", "b.rs", "b"),
                file("c/d.rt", "c/d.rs", "d"),
                file("c.rt", "c.rs", "mod d;\n"),
                file("c_more.rt", "c_more.rs", "more"),
                file("lib.rt", "mod.rs", root),
            ],
        };
        krate.leave_out("c");
        let left: Vec<&str> = krate.files.iter().map(|file| file.text.as_str()).collect();
        let root_left = "mod b;\n#[cfg(test)]\nmod c_more;\n";
        assert_eq!(left, ["b", "more", root_left]);
    }

    #[test]
    fn what_a_crate_stands_on_comes_before_it() {
        assert_eq!(names(&["d"]).expect("crates"), ["a", "b", "c", "d"]);
        assert_eq!(names(&["e", "c"]).expect("crates"), ["a", "c", "e"]);
        assert_eq!(
            names(&["f"]).expect_err("no f"),
            "crates.txt doesn't list f"
        );
    }
}
