//! The repository's own tests of its proved crates, on their sources in plain Rust.
//!
//! The crates and their kit are those of the package, by path. `rust/erase --tests` makes the tests
//! of `made`, of those in Rattle. Those of `values` are written here.
#![cfg(test)]

extern crate alloc;

mod cases;
#[path = "../../forgeni/src/handle_list.rs"]
mod handle_list;
#[allow(dead_code, unused_imports, unused_macros)] // Not all that the eraser may name is used.
mod host;
#[path = "../../forgeni/src/kit/mod.rs"]
mod kit;
#[rustfmt::skip]
mod made;
mod side_by_side;
mod values;

include!("../../forgeni/src/proved/modules.rs");
