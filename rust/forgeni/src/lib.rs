#![doc = include_str!("../README.md")]
#![cfg_attr(not(test), no_std)]
#![forbid(unsafe_code)]
#![deny(missing_docs)]
// What opens a phase returns it with its reservers, or hands back what it was given.
#![allow(clippy::type_complexity)]

// The words of a phase, of claims and of numbers are an `AtomicU64` each.
#[cfg(not(target_has_atomic = "64"))]
compile_error!("forgeni needs atomic words of 64 bits, which this target lacks");

extern crate alloc;
#[cfg(any(feature = "std", test))]
extern crate std;

// A page of a type has its `impl` blocks in the order in which these modules are declared.
mod entities;
pub mod world;

include!("proved/modules.rs");

mod flushing;
mod handle;

pub mod handle_map;
mod several;
pub mod sparse_map;

pub mod threads;

mod phase;

pub mod blocks;

pub mod frames;
pub mod log;
pub mod map;
pub mod trace;

mod cloning;
mod component;
// Definitions, for those who read the docs. There is nothing to compile in it.
#[cfg(doc)]
#[rustfmt::skip]
pub mod contracts;
#[cfg(feature = "programs")]
#[path = "../drawing/mod.rs"]
mod drawing;
mod errors;
mod follows;
#[cfg(feature = "std")]
mod guarding;
#[cfg(not(feature = "std"))]
#[path = "unguarded.rs"]
mod guarding;
mod handle_list;
mod history;
mod joining;
#[allow(dead_code, missing_docs, unreachable_pub)]
mod kit;
mod lending;
mod lent;
mod numbers;
#[cfg(feature = "rayon")]
mod on_rayon;
#[cfg(feature = "programs")]
#[doc(hidden)]
pub mod programs;
#[cfg(feature = "std")]
mod reservers;
#[cfg(test)]
mod room;
#[cfg(feature = "serde")]
mod serde_impls;
mod shown;
mod storage;
mod system;
mod tracked;
#[cfg(feature = "std")]
mod waiting;
mod world_phase;
mod world_saves;

pub use allocator::Limits;
pub use entities::{Entities, Freed, Living, State};
pub use errors::{Absent, AllocError, FreeError, HandedBack, ImageFault, OutOfMemory};
pub use errors::{Refused, ReserveError};
pub use handle::{Handle, ParseHandleError};
#[cfg(feature = "serde")]
#[doc(hidden)]
pub use serde_impls::for_tables;

// What a module has is here too, by its name alone.
#[doc(no_inline)]
pub use self::{blocks::*, frames::*, log::*, map::*, threads::*, world::*};
