//! What a program is handed: all of its rights.
//!
//! The contracts are those of the kit's `std::rt`.

use super::env::Env;
use super::streams::Stream;
use super::time::Clock;
use crate::kit::alloc::AllocError;
use crate::kit::thread::{Join, StdThreads};
use std::fs::Metadata;
use std::io;

/// The right to allocate. In Rust nobody has to be handed it.
pub trait AllocGlobal {}

/// The right to open files.
pub trait Files {
    /// A file that is open.
    type File: io::Read;

    /// The contract: the file of this name, open for reading; or why it can't be opened.
    fn open_file(&self, name: &str) -> io::Result<Self::File>;

    /// The contract: what the file of this name is; or why that can't be said.
    fn metadata(&self, name: &str) -> io::Result<Metadata>;
}

/// The rights.
#[derive(Clone, Copy, Debug, Default)]
pub struct HostRuntime;

impl AllocGlobal for HostRuntime {}

impl Clock for HostRuntime {}

impl Env for HostRuntime {}

impl Files for HostRuntime {
    type File = std::fs::File;

    fn open_file(&self, name: &str) -> io::Result<Self::File> {
        std::fs::File::open(name)
    }

    fn metadata(&self, name: &str) -> io::Result<Metadata> {
        std::fs::metadata(name)
    }
}

impl Join for HostRuntime {
    fn join(&self, first: &mut (dyn FnMut() + Send), second: &mut (dyn FnMut() + Send)) {
        StdThreads.join(first, second);
    }
}

impl HostRuntime {
    /// The standard input.
    pub fn stdin(&self) -> Stream {
        Stream::input()
    }

    /// The standard output.
    pub fn stdout(&self) -> Stream {
        Stream::output()
    }

    /// The standard error stream. It may be asked for twice.
    pub fn stderr(&self) -> Stream {
        Stream::errors()
    }
}

impl From<AllocError> for io::Error {
    fn from(_refused: AllocError) -> Self {
        io::Error::from(io::ErrorKind::OutOfMemory)
    }
}

#[cfg(test)]
mod tests {
    use super::*;

    #[test]
    fn out_of_memory_is_an_error_of_its_kind() {
        assert_eq!(
            io::Error::from(AllocError).kind(),
            io::ErrorKind::OutOfMemory
        );
    }
}
