//! Files that a program opens by name.
//!
//! The contracts are those of the kit's `std::fs`.

use super::rt::Files;
use std::fs::Metadata;
use std::io;

/// Where a file is opened by its name.
#[derive(Debug)]
pub enum File {}

impl File {
    /// The contract: the file of this name, open for reading; or why it can't be opened.
    ///
    /// For a long name Rust's std takes memory, and it ends the program if that is refused.
    pub fn open<R: Files>(rt: &R, name: &str) -> io::Result<R::File> {
        rt.open_file(name)
    }
}

/// The contract: what the file of this name is; or why that can't be said.
///
/// For a long name Rust's std takes memory, and it ends the program if that is refused.
pub fn metadata<R: Files>(rt: &R, name: &str) -> io::Result<Metadata> {
    rt.metadata(name)
}

#[cfg(test)]
mod tests {
    use super::*;
    use crate::kit::programs::rt::HostRuntime;
    use std::io::Read;
    use std::string::String;

    #[test]
    fn a_file_is_read_from_its_first_byte() {
        let mut file = File::open(
            &HostRuntime,
            concat!(env!("CARGO_MANIFEST_DIR"), "/Cargo.toml"),
        );
        let mut text = String::new();
        file.as_mut()
            .expect("a file")
            .read_to_string(&mut text)
            .expect("a text");
        assert!(text.contains("\nname = \"forgeni\"\n"));
    }

    #[test]
    fn a_folder_is_no_file() {
        let is_folder = |name| metadata(&HostRuntime, name).map(|it| it.is_dir()).ok();
        assert_eq!(is_folder(env!("CARGO_MANIFEST_DIR")), Some(true));
        let file = concat!(env!("CARGO_MANIFEST_DIR"), "/Cargo.toml");
        assert_eq!(is_folder(file), Some(false));
        assert_eq!(is_folder("/no/such/file"), None);
    }

    #[test]
    fn what_is_not_there_is_not_opened() {
        let kind = |name| {
            File::open(&HostRuntime, name)
                .err()
                .map(|error| error.kind())
        };
        assert_eq!(kind("/no/such/file"), Some(io::ErrorKind::NotFound));
        assert_eq!(kind(""), Some(io::ErrorKind::NotFound));
        assert_eq!(kind("a\0b"), Some(io::ErrorKind::InvalidInput));
    }
}
