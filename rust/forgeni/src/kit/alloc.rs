//! Allocations that may fail.
//!
//! The contracts are those of the kit's `core/src/alloc.rt` and `std_alloc/src/room.rt`.

use ::alloc::collections::TryReserveError;
use core::fmt;

/// Memory ran out.
///
/// The contract: a call that returns it has changed nothing that its caller can see.
#[derive(Clone, Copy, Debug, PartialEq, Eq)]
pub struct AllocError;

/// Memory ran out, and the value that was to be stored comes back.
#[derive(Clone, Copy, Debug, PartialEq, Eq)]
pub struct AllocFailed<T> {
    pub value: T,
}

impl fmt::Display for AllocError {
    fn fmt(&self, f: &mut fmt::Formatter<'_>) -> fmt::Result {
        f.write_str("out of memory")
    }
}

impl core::error::Error for AllocError {}

impl<T> fmt::Display for AllocFailed<T> {
    fn fmt(&self, f: &mut fmt::Formatter<'_>) -> fmt::Result {
        AllocError.fmt(f)
    }
}

impl<T: fmt::Debug> core::error::Error for AllocFailed<T> {}

impl From<TryReserveError> for AllocError {
    fn from(_refused: TryReserveError) -> Self {
        AllocError
    }
}

impl<T> From<AllocFailed<T>> for AllocError {
    fn from(_refused: AllocFailed<T>) -> Self {
        AllocError
    }
}
