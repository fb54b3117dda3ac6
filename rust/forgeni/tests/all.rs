//! The tests that can share a program, which is built and linked once. Those that stand in a
//! program of their own need one: `counted` is run under callgrind by its name, `memory` and
//! `out_of_memory` have little memory or an allocator that refuses, and `sizes` is also run as
//! optimised code.

mod common;
mod worlds;

#[cfg(feature = "std")]
mod behind_blocks;
#[cfg(feature = "std")]
mod block_frames;
mod blocks;
mod clones;
mod entries;
mod errors;
mod follows;
#[cfg(feature = "std")]
mod frames;
mod handle_map;
mod handles;
mod history;
mod image;
#[cfg(feature = "std")]
mod in_place;
#[cfg(feature = "std")]
mod joiners;
mod joining;
mod like_bevy;
mod like_hecs;
mod like_slotmap;
mod limits;
#[cfg(feature = "std")]
mod log_systems;
mod logs;
mod model;
#[cfg(feature = "std")]
mod own_errors;
mod panics;
mod phases;
mod recording;
mod reserving;
mod sharing;
mod sparse_map;
mod storage_model;
#[cfg(feature = "std")]
mod systems;
mod texts;
mod threads;
mod trace;
mod trace_model;
mod tracked;
mod worked_calls;
mod worked_traces;
mod worked_worlds;
mod world_image;
mod world_model;
