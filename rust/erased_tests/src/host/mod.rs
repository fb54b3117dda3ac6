//! What the kit hands a test, for tests in plain Rust: the runtime, and the calls that take it.

pub mod anyhow;
pub mod collections;
pub mod env;
pub mod fs;
pub mod rt;
pub mod slice;
pub mod string;
pub mod test;
pub mod thread;

/// `assert!` that is handed the runtime. So are the ones below.
macro_rules! assert {
    ($rt:expr; $($part:tt)*) => {
        ::std::assert!($($part)*)
    };
}
pub(crate) use assert;

macro_rules! assert_eq {
    ($rt:expr; $($part:tt)*) => {
        ::std::assert_eq!($($part)*)
    };
}
pub(crate) use assert_eq;

macro_rules! panic {
    ($rt:expr; $($part:tt)*) => {
        ::std::panic!($($part)*)
    };
}
pub(crate) use panic;

/// `print!` that is handed the runtime.
macro_rules! print {
    ($rt:expr; $($part:tt)*) => {
        $crate::host::rt::print_text($rt, &::std::format!($($part)*))
    };
}
pub(crate) use print;

macro_rules! println {
    ($rt:expr; $($part:tt)*) => {
        $crate::host::rt::print_text($rt, &(::std::format!($($part)*) + "\n"))
    };
}
pub(crate) use println;
