//! The words that a program was started with.
//!
//! The contracts are those of the kit's `std::env`.

use super::string::String;
use crate::kit::vec::FallibleVec;
use std::ffi::OsString;
use std::io;
use std::vec::{IntoIter, Vec};

/// The right to read the words.
pub trait Env {}

/// The words.
pub type Args = IntoIter<String>;

/// The contract: all words in their order, the program's name first; or `InvalidData` if one is no
/// UTF-8, or `OutOfMemory` if there isn't enough memory for the list of them.
///
/// The words themselves are in memory that Rust's std takes, and it ends the program if that is
/// refused.
pub fn args(_rt: &impl Env) -> io::Result<Args> {
    texts(std::env::args_os())
}

fn texts(words: impl ExactSizeIterator<Item = OsString>) -> io::Result<Args> {
    let mut texts = Vec::with_capacity_fallibly(words.len())?;
    for word in words {
        let text = word.into_string().map_err(|_| io::ErrorKind::InvalidData)?;
        texts.push_reserved(String::of(text));
    }
    Ok(texts.into_iter())
}

#[cfg(test)]
mod tests {
    use super::*;
    use crate::kit::refusing::refuse;

    fn kind(words: Vec<OsString>) -> io::ErrorKind {
        let refused = texts(words.into_iter()).err();
        refused.expect("no words").kind()
    }

    #[test]
    fn words_keep_their_order() {
        let words = ["", "run", "ä", "--workers=2"];
        let found = texts(words.iter().map(OsString::from)).expect("words");
        assert!(found.eq(words.map(|word| String::of(word.into()))));
        let none = refuse(|| texts(std::iter::empty()));
        assert_eq!(none.expect("nothing is asked for").len(), 0);
    }

    #[test]
    fn a_list_that_is_refused_is_an_error_of_memory() {
        let words = std::vec![OsString::from("a")];
        assert_eq!(refuse(|| kind(words)), io::ErrorKind::OutOfMemory);
    }

    #[test]
    #[cfg(unix)]
    fn a_word_that_is_no_text_is_refused() {
        use std::os::unix::ffi::OsStringExt;
        let words = std::vec![OsString::from("a"), OsString::from_vec(std::vec![0xff])];
        assert_eq!(kind(words), io::ErrorKind::InvalidData);
    }
}
