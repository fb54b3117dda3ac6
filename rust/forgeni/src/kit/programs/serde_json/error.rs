//! Why a text is no value, and where.

use super::cut::is_cut_short;
use crate::kit::alloc::{AllocError, AllocFailed};
use crate::kit::programs::json::Invalid;
use core::fmt;

/// Why.
#[derive(Clone, Copy, Debug, PartialEq, Eq)]
pub(super) enum Code {
    Invalid,
    NumberOutOfRange,
    OutOfMemory,
}

impl From<Invalid> for Code {
    fn from(_invalid: Invalid) -> Self {
        Code::Invalid
    }
}

impl From<AllocError> for Code {
    fn from(_refused: AllocError) -> Self {
        Code::OutOfMemory
    }
}

impl<T> From<AllocFailed<T>> for Code {
    fn from(_refused: AllocFailed<T>) -> Self {
        Code::OutOfMemory
    }
}

/// Why a text was not read, and where.
#[derive(Clone, Copy, Debug, PartialEq, Eq)]
pub struct Error {
    code: Code,
    is_cut_short: bool,
    line: usize,
    column: usize,
}

impl Error {
    /// The error of this text whose token begins here. Lines and columns count from 1; at the end
    /// of a text the column is that of its last byte.
    pub(super) fn at(code: Code, text: &[u8], offset: usize) -> Self {
        let before = &text[..offset.min(text.len())];
        let is_line_feed = |byte: &&u8| **byte == b'\n';
        let passed = before.iter().rev().take_while(|byte| !is_line_feed(byte));
        Error {
            code,
            is_cut_short: code == Code::Invalid && is_cut_short(text),
            line: before.iter().filter(is_line_feed).count() + 1,
            column: passed.count() + usize::from(offset < text.len()),
        }
    }

    /// The contract: whether memory ran out.
    pub fn is_memory(&self) -> bool {
        self.code == Code::OutOfMemory
    }
}

impl fmt::Display for Error {
    fn fmt(&self, f: &mut fmt::Formatter<'_>) -> fmt::Result {
        let what = match self.code {
            Code::OutOfMemory => return f.write_str("out of memory"),
            Code::NumberOutOfRange => "number out of range",
            Code::Invalid if self.is_cut_short => "EOF while parsing",
            Code::Invalid => "invalid JSON",
        };
        write!(f, "{what} at line {} column {}", self.line, self.column)
    }
}

impl core::error::Error for Error {}
