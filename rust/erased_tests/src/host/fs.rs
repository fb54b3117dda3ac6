//! Files.

use super::rt::Files;
use std::fs::Metadata;
use std::io;
use std::path::Path;

/// The folder that the programs of the repository's tests run in.
const FOLDER: &str = concat!(
    env!("CARGO_MANIFEST_DIR"),
    "/../../crates/cases_and_examples/data"
);

/// The text of a file.
pub fn read_to_string(_rt: &impl Files, path: &str) -> io::Result<String> {
    std::fs::read_to_string(Path::new(FOLDER).join(path))
}

/// Where a file is opened by its name.
#[derive(Debug)]
pub enum File {}

impl File {
    /// The file of this name, open for reading.
    pub fn open<R: Files>(rt: &R, name: &str) -> io::Result<R::File> {
        rt.open_file(name)
    }
}

/// What the file of this name is.
pub fn metadata<R: Files>(rt: &R, name: &str) -> io::Result<Metadata> {
    rt.metadata(name)
}
