// Made of crates/ent_blocks/src/overflow.rt by rust/erase. It isn't edited by hand.

//! Blocks whose callers go on to one cursor that all share. As long as no caller goes past its
//! block, its handles don't depend on the others.

mod dealing;
mod opening;
mod phase;
mod reserver;
mod source;

pub(crate) use opening::open_with_overflow;
pub use phase::Overflow;
pub use reserver::OverflowReserver;
