//! What the sources of the two programs use of their kit beyond what the other sources do: command
//! lines, JSON, texts, words, the clock and the standard streams.
//!
//! As elsewhere in the kit, each item says which contract it has to keep, and its tests go to the
//! edges of it. Rust's crates `clap` and `serde_json` don't stand in for the kit's: theirs say
//! other things in other words, read `1e30` as another number, have no reader of tokens, and take
//! memory that can't be refused.

pub mod clap;
pub mod env;
pub mod fast_float;
pub mod fs;
pub mod inline_text;
pub mod json;
pub mod rt;
pub mod serde_json;
pub mod simdutf8;
pub mod streams;
pub mod string;
pub mod time;

/// The kit's `format!`. The contract: the text with each value in its place, or an `Err` if there
/// isn't enough memory for it.
macro_rules! format_fallibly {
    ($($what:tt)*) => {
        $crate::kit::programs::string::String::formatted(format_args!($($what)*))
    };
}
pub(crate) use format_fallibly as format;
