// Made of crates/ent_queue/src/lib.rt by rust/erase. It isn't edited by hand.

//! Queues of commands that systems write and a world applies, and what systems fill them with, or
//! logs.

mod issuing;
mod logging;
mod leaving;
mod commands;
mod bundle;
mod bundle_ref;
mod entries;
mod entry;
mod handles_ref;
mod kind;
mod output;
mod queue;
mod reading;
mod writing;

pub use bundle::Bundle;
pub use bundle_ref::{BundleItems, BundleRef};
pub use commands::SystemCommands;
pub use crate::allocator::ReserveError;
pub use entries::Entries;
pub use entry::Entry;
pub use handles_ref::{Handles, HandlesRef};
pub use output::Output;
pub use queue::IssuedCommands;
