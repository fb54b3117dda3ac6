// Made of crates/ent_shared/src/lib.rt by rust/erase. It isn't edited by hand.

//! Reservation by many threads at once: one atomic word counts down, and each caller reserves from
//! it through a shared reference.

pub mod holders;
mod phase;
mod plays;
mod record;
mod reserver;
mod rule;
mod shared;
mod source;
mod word;

pub use crate::allocator::Refused;
pub(crate) use phase::share;
pub use record::{Record, RecordEntry, Reservation, Start};
pub use reserver::SharedReserver;
pub use shared::SharedSource;
