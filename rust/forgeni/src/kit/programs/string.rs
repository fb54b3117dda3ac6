//! The kit's `String`: each call that may grow it returns a `Result`.
//!
//! The contracts are those of the kit's `std_alloc/src/string.rt` and of `std::convert::AsStr`.

use crate::kit::alloc::AllocError;
use ::alloc::vec::Vec;
use core::borrow::Borrow;
use core::fmt;
use core::ops::Deref;

/// A text whose growth may be refused.
///
/// The contract of each call that returns an `Err`: the text is as before.
#[derive(PartialEq, Eq, PartialOrd, Ord, Hash)]
pub struct String(std::string::String);

impl String {
    /// The contract: no text. It doesn't allocate.
    pub const fn new() -> Self {
        String(std::string::String::new())
    }

    /// The contract: a copy of the text. None of no text takes memory.
    #[inline]
    pub fn from_str(text: &str) -> Result<Self, AllocError> {
        let mut made = String::new();
        if !text.is_empty() {
            allow_growth()?;
            made.0.try_reserve_exact(text.len())?;
            made.0.push_str(text);
        }
        Ok(made)
    }

    /// A text of Rust, for nothing.
    pub const fn of(text: std::string::String) -> Self {
        String(text)
    }

    /// The contract: the text is at the end.
    #[inline]
    pub fn push_str(&mut self, text: &str) -> Result<(), AllocError> {
        if text.len() > self.0.capacity() - self.0.len() {
            allow_growth()?;
            self.0.try_reserve(text.len())?;
        }
        self.0.push_str(text);
        Ok(())
    }

    /// The contract: the character is at the end.
    #[inline]
    pub fn push(&mut self, letter: char) -> Result<(), AllocError> {
        self.push_str(letter.encode_utf8(&mut [0; 4]))
    }

    /// What `format!` makes.
    pub fn formatted(what: fmt::Arguments<'_>) -> Result<Self, AllocError> {
        let mut text = String::new();
        text.write_fmt(what)?;
        Ok(text)
    }

    /// What `write!` calls. The contract: what is written is at the end.
    pub fn write_fmt(&mut self, what: fmt::Arguments<'_>) -> Result<(), AllocError> {
        let before = self.0.len();
        let written = fmt::Write::write_fmt(&mut Growing(self), what);
        written.map_err(|fmt::Error| {
            self.0.truncate(before);
            AllocError
        })
    }

    #[inline]
    pub fn as_str(&self) -> &str {
        &self.0
    }

    /// The contract: the bytes of the text. It doesn't allocate.
    #[inline]
    pub fn into_bytes(self) -> Vec<u8> {
        self.0.into_bytes()
    }
}

/// A text that is written to.
struct Growing<'a>(&'a mut String);

impl fmt::Write for Growing<'_> {
    fn write_str(&mut self, text: &str) -> fmt::Result {
        self.0.push_str(text).map_err(|AllocError| fmt::Error)
    }
}

/// In tests, whether a growth is to be refused now. Else it is up to the allocator alone.
#[inline]
fn allow_growth() -> Result<(), AllocError> {
    #[cfg(test)]
    crate::kit::refusing::ask()?;
    Ok(())
}

impl Deref for String {
    type Target = str;

    #[inline]
    fn deref(&self) -> &str {
        &self.0
    }
}

/// A map finds a text by its characters.
impl Borrow<str> for String {
    #[inline]
    fn borrow(&self) -> &str {
        &self.0
    }
}

impl fmt::Display for String {
    fn fmt(&self, f: &mut fmt::Formatter<'_>) -> fmt::Result {
        f.write_str(&self.0)
    }
}

impl fmt::Debug for String {
    fn fmt(&self, f: &mut fmt::Formatter<'_>) -> fmt::Result {
        self.0.fmt(f)
    }
}

/// What is a text.
pub trait AsStr {
    /// The text.
    fn as_str(&self) -> &str;
}

impl AsStr for String {
    #[inline]
    fn as_str(&self) -> &str {
        &self.0
    }
}

impl AsStr for &str {
    #[inline]
    fn as_str(&self) -> &str {
        self
    }
}

/// The kit's `to_string`.
pub trait ToStringIn {
    /// The contract is that of the type.
    fn to_string_in(&self) -> Result<String, AllocError>;
}

#[cfg(test)]
mod tests {
    use super::*;
    use crate::kit::refusing::refuse;

    #[test]
    fn no_text_takes_no_memory() {
        let mut empty = refuse(|| String::from_str("")).expect("nothing is asked for");
        refuse(|| empty.push_str("")).expect("nothing is asked for");
        assert_eq!((empty.as_str(), empty.0.capacity()), ("", 0));
        assert_eq!(String::new(), empty);
    }

    #[test]
    fn a_refused_growth_changes_nothing() {
        assert_eq!(refuse(|| String::from_str("a")), Err(AllocError));
        let mut text = String::from_str("a").expect("memory");
        text.0.shrink_to_fit();
        assert_eq!(refuse(|| text.push_str("bc")), Err(AllocError));
        assert_eq!(refuse(|| text.push('ä')), Err(AllocError));
        assert_eq!(refuse(|| write!(text, "{}", 12)), Err(AllocError));
        assert_eq!(text.as_str(), "a");
    }

    #[test]
    fn a_text_that_is_refused_halfway_goes() {
        let mut text = String::from_str("a").expect("memory");
        text.0.reserve_exact(3);
        let long = "b".repeat(text.0.capacity());
        assert_eq!(refuse(|| write!(text, "12{long}")), Err(AllocError));
        assert_eq!(text.as_str(), "a");
        assert_eq!(
            refuse(|| String::formatted(format_args!("{}", 1))),
            Err(AllocError)
        );
    }

    #[test]
    fn texts_grow_at_the_end() {
        let mut text = String::from_str("a").expect("memory");
        text.push('ä').expect("memory");
        text.push('😀').expect("memory");
        text.push_str("b\0").expect("memory");
        write!(text, "{}-{:03}", 1, 2).expect("memory");
        assert_eq!(text.as_str(), "aä😀b\u{0}1-002");
        assert_eq!(&text.into_bytes()[..3], "aä".as_bytes());
    }
}
