// Made of crates/ent_handle/src/lib.rt by rust/erase. It isn't edited by hand.

//! Handles of entities and their text, numbers as bytes, and the small types that all crates above
//! share.

mod birth;
mod bytes;
mod component;
mod decimal;
mod handed_back;
mod handle;
mod memory;
mod text;

pub use birth::Birth;
pub(crate) use bytes::{read_long, read_word, write_long, write_word};
pub use component::ComponentId;
pub use decimal::read_decimal;
pub use handed_back::HandedBack;
pub use handle::Handle;
pub use memory::OutOfMemory;
pub use text::{ParseHandleError, split_once};
