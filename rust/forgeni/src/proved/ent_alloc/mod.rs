// Made of crates/ent_alloc/src/lib.rt by rust/erase. It isn't edited by hand.

//! Bevy's entity allocator for one caller: its exclusive calls, and the arithmetic by which many
//! callers reserve.

mod entities;
mod giving;
mod asking;
mod requesting;
mod image;
mod cloning;
mod absent;
mod fault;
mod front;
mod image_fault;
mod image_slots;
mod limits;
mod living;
mod packed_slot;
mod phased;
mod portion;
mod prepared;
mod refused;
mod requests;
mod reserve_error;
mod reserved;
mod slot_record;
mod slots;
mod source;
mod space;
mod span;
mod state;

pub use absent::Absent;
pub use entities::Entities;
pub use fault::{AllocError, FreeError, Freed};
pub use image_fault::ImageFault;
pub use limits::{Limits, QUOTA};
pub use living::Living;
pub use phased::Phased;
pub use portion::Portion;
pub use prepared::Prepared;
pub use refused::Refused;
pub use requesting::cancel_requests;
pub use reserve_error::ReserveError;
pub use reserved::Reserved;
pub use source::Source;
pub use space::Space;
pub use span::Span;
pub use state::State;
