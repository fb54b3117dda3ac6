//! Any error, as the crate `anyhow` has it.

use std::error::Error;

/// A text says what went wrong.
#[derive(Debug)]
pub struct Fault(#[allow(dead_code)] pub String);

pub type Result<T, E = Fault> = std::result::Result<T, E>;

impl<E: Error> From<E> for Fault {
    fn from(error: E) -> Self {
        Fault(error.to_string())
    }
}

/// Returns an error unless that holds.
macro_rules! ensure {
    ($holds:expr, $text:expr) => {
        if !$holds {
            return Err($crate::host::anyhow::Fault($text.to_owned()));
        }
    };
}
pub(crate) use ensure;

/// An error that says this.
macro_rules! anyhow {
    ($text:expr) => {
        $crate::host::anyhow::Fault($text.to_owned())
    };
}
pub(crate) use anyhow;
