// Made of crates/ent_script/src/lib.rt by rust/erase. It isn't edited by hand.

//! Scripts of frames, systems and operations: their types, and how they are read from JSON.

mod at;
mod birth;
mod bundle;
mod cause;
mod cutting;
mod divided;
pub mod elements;
mod fields;
mod format;
pub mod found;
mod frame;
mod frames;
mod front;
mod heading;
mod in_order;
mod kind;
mod leaf;
mod merging;
mod names;
mod number;
mod object;
mod operation;
mod part;
mod part_fault;
mod parts;
mod passing;
mod read_fault;
mod reading;
mod script;
mod share;
pub mod sizes;
mod streaming;
mod system;
mod target;
mod top;
mod writing;

pub use bundle::Bundle;
pub use cause::{Cause, ScriptCause};
pub use frame::Frame;
pub use operation::Operation;
pub use read_fault::ReadFault;
pub(crate) use reading::read_script;
pub use script::Script;
pub use system::System;
pub use target::Target;
pub(crate) use writing::write_refusal;
