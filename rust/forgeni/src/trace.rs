//! Checks whether another allocator answers as the proved one does.
//!
//! If you already have an allocator of this kind, you can keep it and check it: record its calls
//! and answers, and feed them to a [`Checker`]. Calls that don't overlap others go in one by one.
//! Reservations of threads go in as a *run*, each caller's in its own order: the checker finds an
//! order in which the allocator could have given these answers, or reports that there is none.
//!
//! ```
//! use forgeni::trace::{Checker, FreeReply, Reservation};
//! use forgeni::{Handle, Limits};
//!
//! let one = |text: &str| text.parse::<Handle>();
//! let mut checker = Checker::new(Limits::GREATEST);
//! checker.alloc(one("0v1")?)?;
//! checker.free(one("0v1")?, FreeReply::Freed)?;
//!
//! // Two threads reserved. Their logs come one after the other.
//! checker.run(vec![
//!     Reservation::new(1, 1, one("1v1")?),
//!     Reservation::new(2, 1, one("0v2")?),
//! ])?;
//!
//! // New slots come to life first.
//! let differs = checker.flush([one("0v2")?, one("1v1")?]).unwrap_err();
//! assert_eq!(
//!     differs.to_string(),
//!     "differs line 5: flush => born 0v2 1v1, expected born 1v1 0v2",
//! );
//! # Ok::<(), Box<dyn std::error::Error>>(())
//! ```
//!
//! A [`Recorder`] has a [`Log`] for each thread, which appends to it without a lock. A [`Call`] is
//! written as a line of a trace, so a program can also keep its calls as text.
//!
//! # What is proved
//!
//! The checker is sound and complete. If neither a call nor the end fails, the trace agrees: a
//! sequential allocator could have given these answers, in an order that keeps each caller's own.
//! If a call differs, no trace that begins like this agrees, in whatever order its reservations
//! came. The contracts of [`Checker::call`] and [`Checker::finish`] state this, call by call.

use crate::errors::OutOfMemory;
use crate::handle::Handle;
use crate::shown::shows;
use crate::traces::trace::{write_difference, write_line};
use alloc::vec::Vec;
use core::error::Error;
use core::fmt;
use core::ops::Deref;
use core::str;

pub use crate::traces::trace::{AllocReply, FlushReply, FreeReply, ReserveReply};
pub use crate::traces::trace::{Call, CheckError, Checker, Difference};
pub use crate::traces::trace::{Log, Recorder, Reservation};
pub use crate::traces::HandleList;

// ---- lists of handles

impl Deref for HandleList {
    type Target = [Handle];

    fn deref(&self) -> &[Handle] {
        self.as_slice()
    }
}

macro_rules! of_handles {
    ($name:ident) => {
        impl From<&[Handle]> for $name {
            fn from(handles: &[Handle]) -> Self {
                handles.to_vec().into()
            }
        }

        impl<const N: usize> From<[Handle; N]> for $name {
            fn from(handles: [Handle; N]) -> Self {
                handles.to_vec().into()
            }
        }
    };
}

of_handles!(HandleList);
of_handles!(FlushReply);
of_handles!(ReserveReply);

impl From<Handle> for ReserveReply {
    fn from(handle: Handle) -> Self {
        [handle].into()
    }
}

// ---- texts

/// Writes what the function appends.
fn written(
    out: &mut fmt::Formatter<'_>,
    append: impl FnOnce(&mut Vec<u8>) -> Result<(), OutOfMemory>,
) -> fmt::Result {
    let mut text = Vec::new();
    append(&mut text).map_err(|_| fmt::Error)?;
    out.pad(str::from_utf8(&text).map_err(|_| fmt::Error)?)
}

/// As a line of a trace, without the end of the line.
impl fmt::Display for Call {
    fn fmt(&self, out: &mut fmt::Formatter<'_>) -> fmt::Result {
        written(out, |text| write_line(text, self))
    }
}

/// In one line, as `differs line 5: len => 3, expected 2`.
impl fmt::Display for Difference {
    fn fmt(&self, out: &mut fmt::Formatter<'_>) -> fmt::Result {
        written(out, |text| write_difference(text, self))
    }
}

impl fmt::Display for CheckError {
    fn fmt(&self, out: &mut fmt::Formatter<'_>) -> fmt::Result {
        match self {
            Self::Differs(difference) => difference.fmt(out),
            Self::TooMany => out.pad("more than 2^50 handles were requested before a flush"),
            Self::Memory => OutOfMemory.fmt(out),
        }
    }
}

impl Error for Difference {}

impl Error for CheckError {}

shows! {
    Checker: calls error;
    Recorder: calls;
}
