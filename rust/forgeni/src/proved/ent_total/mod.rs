// Made of crates/ent_total/src/lib.rt by rust/erase. It isn't edited by hand.

//! The calls of the libraries below for callers who prove nothing: each tests what the call below
//! requires, and returns an error that hands everything back.

mod world;
mod applying;
mod image;
mod closing;
mod phase;
mod open_world;
mod in_world;
mod reserving;
mod issuing;
mod reserver;
mod sharing;
mod in_blocks;
mod cloning;
mod close_error;
mod ending;
mod filling;
mod filling_in_blocks;
mod frame_error;
mod framing;
mod go_on_error;
mod lending;
mod logging;
mod of_blocks;
mod opening;
mod other_phase;
mod queues;
mod returning;
mod running_in_blocks;
mod share_error;
mod stop;
mod stopped;
mod sync_error;
mod world_opening;

pub use cloning::{clone_world, clone_world_from};
pub use close_error::CloseError;
pub use filling_in_blocks::fill_in_blocks;
pub use frame_error::FrameError;
pub use framing::run_frame;
pub use go_on_error::GoOnError;
pub use image::{read_world, read_world_within};
pub use in_blocks::share_in;
pub use in_world::{EndedWorld, InWorld, open_in};
pub use of_blocks::OfBlocks;
pub use open_world::OpenWorld;
pub use opening::Opening;
pub use other_phase::OtherPhase;
pub use phase::Phase;
pub use queues::Queues;
pub use reserver::Reserver;
pub use running_in_blocks::run_in_blocks;
pub use share_error::ShareError;
pub use sharing::share;
pub use stop::Stop;
pub use stopped::Stopped;
pub use sync_error::SyncError;
pub use world::{World, new_world};
pub use world_opening::open;
