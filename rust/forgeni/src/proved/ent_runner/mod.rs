// Made of crates/ent_runner/src/lib.rt by rust/erase. It isn't edited by hand.

//! Systems run on workers. Each fills an output of its own, a queue of a world or a log, with
//! handles of one shared allocator or of a block of its own.

mod blocks;
mod crew;
mod frame;
mod logs;
mod run_error;
mod stage;
mod systems;

pub use blocks::room::check_run;
pub(crate) use blocks::running::run_in_blocks;
pub use crew::{ClaimRecord, Claimer, Claims, Crew, Jobs};
pub use crate::kit::either::{Either, Left, Right};
pub use frame::gate::{Gate, NoGate};
pub use frame::report::{FrameFault, FrameReport};
pub(crate) use frame::run_frame;
pub use frame::system::System;
pub use logs::beginning::run_to_sync_point;
pub use logs::run_logs;
pub use logs::system::LogSystem;
pub use run_error::RunError;
pub use systems::{Issuers, Loggers, Systems};
