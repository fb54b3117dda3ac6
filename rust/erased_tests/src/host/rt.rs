//! The runtime that a test is handed.

use crate::kit::thread::{Join, StdThreads};
use std::cell::RefCell;
use std::fs::Metadata;
use std::io;

std::thread_local! {
    static PRINTED: RefCell<String> = const { RefCell::new(String::new()) };
}

/// Prints a text, for a test to read.
pub fn print_text(_rt: &impl Print, text: &str) -> io::Result<()> {
    PRINTED.with_borrow_mut(|printed| printed.push_str(text));
    Ok(())
}

/// What this thread has printed since it was asked last.
pub fn printed() -> String {
    PRINTED.take()
}

/// The right to end the process.
pub trait Abort {}

/// The right to read files.
pub trait Files {
    /// A file that is open.
    type File: io::Read;

    /// The file of this name, open for reading.
    fn open_file(&self, name: &str) -> io::Result<Self::File>;

    /// What the file of this name is.
    fn metadata(&self, name: &str) -> io::Result<Metadata>;
}

/// The right to allocate.
pub trait AllocGlobal {}

/// The right to print.
pub trait Print {}

/// All of these rights, and that to start threads.
#[derive(Clone, Copy, Debug, Default)]
pub struct HostRuntime;

impl Abort for HostRuntime {}

impl AllocGlobal for HostRuntime {}

impl Files for HostRuntime {
    type File = std::fs::File;

    fn open_file(&self, name: &str) -> io::Result<Self::File> {
        std::fs::File::open(name)
    }

    fn metadata(&self, name: &str) -> io::Result<Metadata> {
        std::fs::metadata(name)
    }
}

impl Print for HostRuntime {}

impl Join for HostRuntime {
    fn join(&self, first: &mut (dyn FnMut() + Send), second: &mut (dyn FnMut() + Send)) {
        StdThreads.join(first, second);
    }
}

impl<R: Abort> Abort for &R {}

/// `expect` that is handed the right to end the process.
pub trait ExpectIn {
    type Item;

    fn expect_in(self, rt: impl Abort, text: &str) -> Self::Item;
}

impl<T> ExpectIn for Option<T> {
    type Item = T;

    #[track_caller]
    fn expect_in(self, _rt: impl Abort, text: &str) -> T {
        self.expect(text)
    }
}

impl<T, E> ExpectIn for Result<T, E> {
    type Item = T;

    #[track_caller]
    fn expect_in(self, _rt: impl Abort, text: &str) -> T {
        self.ok().expect(text)
    }
}
