// Made of crates/cli/src/devices/named.rt by rust/erase. It isn't edited by hand.

//! A file that is read in place of standard input.

use crate::cli::devices::device::{Failed, Sink};
use crate::kit::programs::fs::File;
use std::io::ErrorKind;
use crate::kit::programs::rt::Files;
use crate::kit::programs::fs;
use std::io;

/// Why a named file isn't read.
#[derive(Clone, Copy, Debug, PartialEq, Eq)]
pub enum NameFault {
    /// There is no file of this name.
    Missing,
    /// It is the name of a folder.
    Folder,
    /// The file can't be opened.
    Closed,
    /// Memory ran out.
    Memory,
}

impl From<io::Error> for NameFault {
    #[inline]
    fn from(error: io::Error) -> Self {
        match error.kind() {
            ErrorKind::NotFound | ErrorKind::NotADirectory => NameFault::Missing,
            ErrorKind::IsADirectory => NameFault::Folder,
            ErrorKind::OutOfMemory => NameFault::Memory,
            _ => NameFault::Closed,
        }
    }
}

impl NameFault {
    // What is wrong with the name.
    #[inline]
    fn reason(self) -> &'static str
        // ensures { result.now ≡ reason self }
    {
        match self {
            NameFault::Missing => "no such file",
            NameFault::Folder => "is a folder",
            NameFault::Closed => "can't be opened",
            NameFault::Memory => "out of memory",
        }
    }
}

/// Opens the file of this name for reading.
///
/// # Errors
///
/// - `Missing` if there is no such file.
/// - `Folder` if it is the name of a folder.
/// - `Memory` if memory ran out.
/// - `Closed` if the system doesn't open it for another reason.
#[inline]
pub fn open_named<R: Files>(rt: &R, name: &str) -> Result<R::File, NameFault> {
    if fs::metadata(rt, name)?.is_dir() {
        return Err(NameFault::Folder);
    }
    Ok(File::open(rt, name)?)
}

/// Writes one line that says why a program doesn't read the file of this name: `PROGRAM: no such
/// file: NAME`.
///
/// # Errors
///
/// `Failed` if the device failed. Any part of the line may have gone out.
///
/// <details><summary>Contract</summary>
///
/// <code style="display: block; tab-size: 4; white-space: pre-wrap">// In the words of [contracts](crate::contracts):
/// ensures said { OnOk result (Appends (E.written errors.old) (E.written errors.new)
/// &#9;(refusal program.now name.now fault)) }
/// ensures unfailed { OnOk result (E.failures errors.new ≡ E.failures errors.old) }
/// ensures failed { OnErr result (E.failures errors.new ≡ E.failures errors.old + 1) }
/// </code>
///
/// </details>
#[inline]
pub fn put_refusal<E: Sink>(
    errors: &mut E,
    program: &str,
    name: &str,
    fault: NameFault,
) -> Result<(), Failed> {
    errors.put(program.as_bytes())?;
    errors.put(b": ")?;
    errors.put(fault.reason().as_bytes())?;
    errors.put(b": ")?;
    errors.put(name.as_bytes())?;
    errors.put(b"\n")
}
