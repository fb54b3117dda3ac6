// Made of crates/cli/src/lib.rt by rust/erase. It isn't edited by hand.

//! What the programs have in common: their devices, their options for limits, and how a run begins
//! and ends.

mod beginning;
mod devices;
mod ending;
mod input;
mod limits;
mod line_fault;
mod options;
mod words;

pub use beginning::begin;
pub use devices::{
    Counted, Failed, InputFault, Muted, NameFault, Noting, Sink, Source, open_named, put_refusal,
    read_all,
};
pub use ending::{finish, refuse_file, refuse_line, refuse_words};
pub(crate) use limits::limits_of;
pub use line_fault::LineFault;
pub use options::{generations_option, number_option, slots_option};
