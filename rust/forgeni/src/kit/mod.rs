//! What the proved sources use of their kit's std and crates, for plain Rust.
//!
//! The sources below [`proved`](crate::proved) were proved against contracts of the kit: its `Vec`
//! whose growth can fail, its atomic words, its threads. Here are types of the same names, and
//! calls of a list, over Rust's own `core` and `alloc`, in safe code. Nothing here is proved. So
//! each item says which contract it has to keep, and its tests go to the edges of it. Each file
//! names the files of the kit's folder `rattle` that state the contracts.
//!
//! There is no dependency in place of these lines. For the atomic word, the failing `Vec` and the
//! small vector in safe code no crate has these calls, so there would be a wrapper all the same.
//! `itoa` and `either` would serve, but what the sources use of them is 20 lines and 5, and a
//! package without dependencies is built offline and audited by reading it.

pub mod alloc;
pub mod atomic_table;
pub mod collections;
pub mod either;
pub mod itoa;
pub mod padding;
#[cfg(feature = "programs")]
pub mod programs;
#[cfg(test)]
mod refusing;
pub mod smallvec;
mod sorting;
pub mod sync;
pub mod thread;
pub mod vec;

/// Two values that the kit has proved equal. With debug assertions this is tested. Without them
/// nothing is run, so `rust/erase` takes only code that looks at values.
macro_rules! prove_eq {
    ($($part:tt)*) => {
        debug_assert_eq!($($part)*)
    };
}
pub(crate) use padding::padded;
pub(crate) use prove_eq;
