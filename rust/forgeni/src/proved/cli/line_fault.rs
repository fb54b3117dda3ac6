// Made of crates/cli/src/line_fault.rt by rust/erase. It isn't edited by hand.

//! Why arguments ask for nothing.

use crate::kit::programs::clap::error::ErrorKind;
use crate::kit::alloc::AllocError;

/// Why arguments ask a program for nothing.
#[derive(Debug)]
pub enum LineFault {
    /// They are no command line of the program, or they ask for help. The error's `Display` is the
    /// text to show.
    Line(crate::kit::programs::clap::Error),
    /// Memory ran out while they were read.
    Memory,
}

impl From<crate::kit::programs::clap::Error> for LineFault {
    #[inline]
    fn from(error: crate::kit::programs::clap::Error) -> Self {
        if error.kind() == ErrorKind::OutOfMemory {
            LineFault::Memory
        } else {
            LineFault::Line(error)
        }
    }
}

impl From<AllocError> for LineFault {
    #[inline]
    fn from(_refused: AllocError) -> Self {
        LineFault::Memory
    }
}
