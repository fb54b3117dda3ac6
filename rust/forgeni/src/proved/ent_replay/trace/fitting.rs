// Made of crates/ent_replay/src/trace/fitting.rt by rust/erase. It isn't edited by hand.

//! Whether what a line says was answered is what the allocator answers.

use crate::traces::handle_list::HandleList;
use crate::traces::trace::reply::{FlushReply, FreeReply, ReserveReply};
use crate::allocator::Space;
use crate::handles::Handle;

/// Whether the lists are the same.
#[inline]
fn same(told: &[Handle], given: &[Handle]) -> bool
    // ensures { IsTrue result ↔ (told.now ≡ given.now) }
{
    told == given
}

#[inline]
pub(super) fn fits_freed(told: FreeReply, given: FreeReply) -> bool
    // ensures { IsTrue result ↔ FitsFreed told given }
{
    if told == FreeReply::Freed {
        matches!(given, FreeReply::Next(_) | FreeReply::Retired)
    } else {
        told == given
    }
}

#[inline]
pub(super) fn fits_born(told: &FlushReply, given: &HandleList) -> bool
    // ensures { IsTrue result ↔ FitsBorn told.now given.now }
{
    match told {
        FlushReply::Born(told) => same(told.as_slice(), given.as_slice()),
        FlushReply::Count(told) => *told as usize == given.len(),
    }
}

#[inline]
pub(super) fn fits_reserved(told: &ReserveReply, given: &Result<HandleList, Space>) -> bool
    // ensures { IsTrue result ↔ FitsReserved told.now given.now }
{
    match (told, given) {
        (ReserveReply::Handles(told), Ok(given)) => same(told.as_slice(), given.as_slice()),
        (ReserveReply::Space, Err(_)) => true,
        (ReserveReply::SpaceLeft(told), Err(space)) => *told == space.left,
        _ => false,
    }
}
