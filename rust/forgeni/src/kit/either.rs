//! One of two types, as the crate `either` has it.
//!
//! The contracts are those of the kit's `either/src/lib.rt`.

pub use Either::{Left, Right};

/// A value of the one type or of the other.
#[derive(Clone, Copy, Debug, PartialEq, Eq, Hash)]
pub enum Either<L, R> {
    Left(L),
    Right(R),
}
