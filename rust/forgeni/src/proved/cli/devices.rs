// Made of crates/cli/src/devices.rt by rust/erase. It isn't edited by hand.

//! What a program reads from and writes to: a file, a terminal, or memory.

mod counted;
mod device;
mod input;
mod named;
mod pipe;

pub use crate::cli::devices::counted::Counted;
pub use crate::cli::devices::device::{Failed, Sink, Source};
pub use crate::cli::devices::input::{InputFault, read_all};
pub use crate::cli::devices::named::{NameFault, open_named, put_refusal};
pub use crate::cli::devices::pipe::{Muted, Noting};
