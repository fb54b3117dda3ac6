//! Erases the proved crates into the package, at the top of the repository.
//!
//! `erase` writes the results. `erase --check` compares them with those that are there, and fails
//! if one byte differs. `erase --tests` writes the tests of those crates for `rust/erased_tests`.

use erase::plan::{package, tests, Files, Target, PROVED, TESTED};
use std::error::Error;
use std::path::{Path, PathBuf};
use std::process::ExitCode;
use std::{env, fs, io};

fn main() -> ExitCode {
    let repository = Path::new(".");
    let arguments: Vec<String> = env::args().skip(1).collect();
    let done = match arguments.iter().map(String::as_str).collect::<Vec<_>>()[..] {
        [] => package(repository).and_then(|files| make(repository, &files, &PROVED)),
        ["--check"] => package(repository).and_then(|files| check(repository, &files)),
        ["--tests"] => tests(repository).and_then(|files| make(repository, &files, &TESTED)),
        _ => Err("erase, erase --check or erase --tests, at the top of the repository".into()),
    };
    match done {
        Ok(said) => {
            println!("{said}");
            ExitCode::SUCCESS
        }
        Err(fault) => {
            eprintln!("{fault}");
            ExitCode::FAILURE
        }
    }
}

/// Writes what differs, and takes away what no source makes any more.
fn make(repository: &Path, files: &Files, target: &Target) -> Result<String, Box<dyn Error>> {
    let differing = differing(repository, files, target)?;
    for path in &differing {
        match files.get(path) {
            Some(text) => {
                fs::create_dir_all(repository.join(path).parent().unwrap_or(repository))?;
                fs::write(repository.join(path), text)?;
            }
            None => fs::remove_file(repository.join(path))?,
        }
    }
    Ok(format!(
        "{} erased sources, of which {} changed",
        files.len(),
        differing.len()
    ))
}

/// Fails if a result differs from what is there.
fn check(repository: &Path, files: &Files) -> Result<String, Box<dyn Error>> {
    let differing = differing(repository, files, &PROVED)?;
    if differing.is_empty() {
        return Ok(format!(
            "{} erased sources are those of crates/",
            files.len()
        ));
    }
    let list: Vec<String> = differing
        .iter()
        .map(|path| path.display().to_string())
        .collect();
    Err(format!(
        "not what the sources make, which `erase` writes:\n{}",
        list.join("\n")
    )
    .into())
}

/// The files that are not as they are to be, or are there and not to be.
fn differing(repository: &Path, files: &Files, target: &Target) -> io::Result<Vec<PathBuf>> {
    let folder = Path::new(target.folder);
    let is_other = |path: &Path, text: &str| match fs::read_to_string(repository.join(path)) {
        Ok(there) => there != text,
        Err(_) => true,
    };
    let others = files.iter().filter(|(path, text)| is_other(path, text));
    let mut differing: Vec<PathBuf> = others.map(|(path, _)| path.clone()).collect();
    let mut there = Vec::new();
    if repository.join(folder).is_dir() {
        list(repository, folder, &mut there)?;
    }
    differing.extend(there.into_iter().filter(|path| !files.contains_key(path)));
    Ok(differing)
}

/// All files below the folder.
fn list(repository: &Path, folder: &Path, files: &mut Vec<PathBuf>) -> io::Result<()> {
    for entry in fs::read_dir(repository.join(folder))? {
        let entry = entry?;
        let path = folder.join(entry.file_name());
        if entry.file_type()?.is_dir() {
            list(repository, &path, files)?;
        } else {
            files.push(path);
        }
    }
    Ok(())
}
