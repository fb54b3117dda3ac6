// Made of crates/ent_blocks/src/lib.rt by rust/erase. It isn't edited by hand.

//! Reservation in blocks: the front of the pool is dealt to callers before they run, so which
//! handle each is given depends on no other, and on no thread.

mod accounting;
mod block_reserver;
mod block_size;
mod blocks;
mod closing;
mod deals;
mod ended;
mod held;
mod in_blocks;
mod opening;
mod overflow;
mod part;
mod source;
mod taking;

pub(crate) use crate::in_blocks::overflow::open_with_overflow;
pub use block_reserver::{BlockReserver, again};
pub use block_size::BlockSize;
pub use blocks::Blocks;
pub use deals::Deals;
pub use ended::Ended;
pub use in_blocks::InBlocks;
pub(crate) use opening::open_in_blocks;
pub use overflow::{Overflow, OverflowReserver};
