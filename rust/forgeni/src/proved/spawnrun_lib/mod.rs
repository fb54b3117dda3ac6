// Made of crates/spawnrun_lib/src/lib.rt by rust/erase. It isn't edited by hand.

//! The program `spawnrun` without its `main`: devices, the whole input, the command line, the runs
//! of schedules and of scripts, and the message on a refused input.
//!
//! A run of a script does what its systems do, frame after frame over one world, and returns its
//! report.
//!
//! `main` is one call of `start`, which hands the arguments and the standard streams to `execute`.
//! All that happens from then on has a contract, over any devices, so that tests can use devices in
//! memory.

mod bindings;
mod bytes;
mod change;
mod frame;
mod frame_in_blocks;
mod frame_text;
mod frame_workers;
mod head;
mod issuing;
mod labels;
mod output;
mod piece;
mod product;
mod program;
mod progress;
mod replaying;
mod roll;
mod running;
mod schedule;
mod script_run;
mod script_run_in_blocks;
mod script_system;
mod show;
mod spawning;
mod starting;
mod status;
mod task;
mod text;
mod wants;
mod work;
mod world_parts;
mod world_text;

pub use crate::cli::{Counted, Failed, LineFault, Sink, Source, refuse_words};
pub use frame_text::write_frame;
pub use product::INPUT_LIMIT;
pub use program::execute;
pub use progress::Progress;
pub(crate) use script_run::run_script;
pub(crate) use script_run_in_blocks::run_script_in_blocks;
pub use script_system::ScriptSystem;
pub use show::Show;
pub use starting::start;
pub use status::Status;
pub use task::{Task, command_line};
pub use text::Text;
pub(crate) use work::do_task;
pub use world_text::write_world;
