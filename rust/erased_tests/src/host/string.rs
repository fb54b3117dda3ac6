//! The kit's `String`: each call that may grow it returns a `Result`.

use crate::kit::alloc::AllocError;
use std::fmt;
use std::ops::Deref;

/// A text.
#[derive(PartialEq, Eq, PartialOrd, Ord, Hash)]
pub struct String(std::string::String);

impl String {
    pub fn with_capacity(count: usize) -> Result<Self, AllocError> {
        let mut text = std::string::String::new();
        text.try_reserve(count)?;
        Ok(String(text))
    }

    pub fn new() -> Self {
        String(std::string::String::new())
    }

    pub fn from_str(text: &str) -> Result<Self, AllocError> {
        String::of(text.to_owned())
    }

    pub fn push_str(&mut self, text: &str) -> Result<(), AllocError> {
        self.0.push_str(text);
        Ok(())
    }

    pub fn clear(&mut self) {
        self.0.clear();
    }

    pub fn of(text: std::string::String) -> Result<Self, AllocError> {
        Ok(String(text))
    }

    /// What `write!` calls.
    pub fn write_fmt(&mut self, what: fmt::Arguments<'_>) -> Result<(), AllocError> {
        fmt::Write::write_fmt(&mut self.0, what).map_err(|_| AllocError)
    }

    pub fn as_str(&self) -> &str {
        &self.0
    }
}

impl Deref for String {
    type Target = str;

    fn deref(&self) -> &str {
        &self.0
    }
}

impl fmt::Display for String {
    fn fmt(&self, f: &mut fmt::Formatter<'_>) -> fmt::Result {
        fmt::Display::fmt(&self.0, f)
    }
}

impl fmt::Debug for String {
    fn fmt(&self, f: &mut fmt::Formatter<'_>) -> fmt::Result {
        fmt::Debug::fmt(&self.0, f)
    }
}

/// The kit's `to_string`.
pub trait ToStringIn {
    fn to_string_in(&self) -> Result<String, AllocError>;
}

impl<D: fmt::Display> ToStringIn for D {
    fn to_string_in(&self) -> Result<String, AllocError> {
        String::of(self.to_string())
    }
}
