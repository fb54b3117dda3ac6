//! Command lines: as much of the kit's `clap` as the two programs use.
//!
//! A command has options that take one value, and subcommands that have none themselves. The
//! contracts are those of the kit's `clap/specs`: which words are taken, and which values they
//! give. The texts are those of `clap`.

mod argument;
mod command;
mod matches;
mod parsing;
mod similar;

pub(crate) use argument::value_parser;
pub use argument::{numbers, Arg, ArgAction};
pub use command::Command;
pub use error::Error;
pub use matches::ArgMatches;

pub mod parser {
    //! What words give.

    pub use super::matches::ValueSource;
}

pub mod error {
    //! Why words are not taken.

    use crate::kit::alloc::{AllocError, AllocFailed};
    use crate::kit::programs::string::String;
    use core::fmt;

    /// What kind of fault an error is.
    #[derive(Clone, Copy, Debug, PartialEq, Eq)]
    pub enum ErrorKind {
        /// Words that are no command line, or that ask for help.
        Words,
        /// Options that don't go together.
        ArgumentConflict,
        /// There is no memory for what the words give, or for the text that refuses them.
        OutOfMemory,
    }

    /// Why words are not taken. It shows the text for the person who wrote them, with its line
    /// feeds.
    #[derive(Debug, PartialEq, Eq)]
    pub struct Error {
        kind: ErrorKind,
        text: String,
    }

    impl Error {
        /// The error with this text.
        pub(super) const fn of(text: String) -> Self {
            Error {
                kind: ErrorKind::Words,
                text,
            }
        }

        /// The same error, but for memory, of this kind.
        pub(super) fn of_kind(self, kind: ErrorKind) -> Self {
            match self.kind {
                ErrorKind::OutOfMemory => self,
                _ => Error { kind, ..self },
            }
        }

        /// The contract: its kind.
        pub fn kind(&self) -> ErrorKind {
            self.kind
        }
    }

    impl From<AllocError> for Error {
        fn from(_refused: AllocError) -> Self {
            Error {
                kind: ErrorKind::OutOfMemory,
                text: String::new(),
            }
        }
    }

    impl<T> From<AllocFailed<T>> for Error {
        fn from(_refused: AllocFailed<T>) -> Self {
            Error::from(AllocError)
        }
    }

    impl fmt::Display for Error {
        fn fmt(&self, f: &mut fmt::Formatter<'_>) -> fmt::Result {
            f.write_str(match self.kind {
                ErrorKind::Words | ErrorKind::ArgumentConflict => self.text.as_str(),
                ErrorKind::OutOfMemory => "out of memory",
            })
        }
    }
}

#[cfg(test)]
mod tests;
