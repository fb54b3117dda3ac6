//! The peers in plain Rust: an allocator of the form of Bevy's, sparse sets, maps by slot, and a
//! world with its sync point. They prove nothing, and take for granted that memory is there.

// They are whole, and a work may not call all of one.
#![allow(dead_code)]

pub mod allocator;
pub mod bundle;
pub mod slot_map;
pub mod sparse_sets;
mod storage;
pub mod world;
