// Made of crates/ent_world/src/lib.rt by rust/erase. It isn't edited by hand.

//! Worlds: who is alive and what each entity is made of, and the sync point at which the commands
//! of all systems take effect.

mod applying;
mod births;
mod cloning;
mod dealt;
mod fault;
mod image;
mod image_fault;
mod open_world;
mod rows;
mod spawning;
mod stop;
mod sync;
mod view;
mod world;
mod world_rest;

pub use dealt::Dealt;
pub use fault::{Fault, FaultKind, SyncFault, Report};
pub use image_fault::WorldImageFault;
pub use open_world::OpenWorld;
pub use view::View;
pub use world::World;
pub use world_rest::WorldRest;
