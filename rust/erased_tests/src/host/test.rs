//! What a test returns.

use crate::traces::RunMemory;
use std::error::Error;
use std::fmt;

/// Why a test failed.
#[derive(Debug)]
pub struct Fail(#[allow(dead_code)] std::string::String);

impl Fail {
    pub fn new(text: &str) -> Self {
        Fail(text.to_owned())
    }
}

/// It is no `Error`.
impl From<RunMemory> for Fail {
    fn from(refused: RunMemory) -> Self {
        Fail(format!("{refused:?}"))
    }
}

/// An error or a text.
impl<E: Into<Box<dyn Error>>> From<E> for Fail {
    fn from(error: E) -> Self {
        Fail(error.into().to_string())
    }
}

/// A text as an error.
#[derive(Debug)]
pub struct Text(&'static str);

impl fmt::Display for Text {
    fn fmt(&self, f: &mut fmt::Formatter<'_>) -> fmt::Result {
        f.write_str(self.0)
    }
}

impl Error for Text {}

/// `ok_or` with a text, which Rust takes for no error.
pub trait OkOrText<T> {
    fn ok_or_text(self, text: &'static str) -> Result<T, Text>;
}

impl<T> OkOrText<T> for Option<T> {
    fn ok_or_text(self, text: &'static str) -> Result<T, Text> {
        self.ok_or(Text(text))
    }
}
