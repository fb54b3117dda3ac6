//! The test whether bytes are UTF-8, which is that of Rust.
//!
//! The contract is that of the kit's `simdutf8/specs`: an `Ok` has the bytes as a text, and an
//! `Err` says that they are none.

pub mod basic {
    pub use core::str::from_utf8;
}
