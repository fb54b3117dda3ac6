// Made of crates/ent_log/src/lib.rt by rust/erase. It isn't edited by hand.

//! Commands of any type: logs that systems fill, and the sync point that hands their entries on.

mod log;
mod sync_point;
mod begin_error;
mod entry;
mod handing;
mod reserves;
mod rest;

pub use begin_error::BeginError;
pub use entry::Entry;
pub use log::Log;
pub use reserves::Reserves;
pub use sync_point::SyncPoint;
