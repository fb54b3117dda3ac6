// Made of crates/ent_replay/src/trace/key.rt by rust/erase. It isn't edited by hand.

//! The place of a reservation in its run, by its answer.

use crate::traces::trace::reply::ReserveReply;
use crate::allocator::Entities;
use crate::handles::Handle;

/// The keys of refusals. A reservation that was served has a lower key: the place of a handle.
const FIRST_REFUSED: u64 = 1 << 32;

const LAST_REFUSED: u64 = 1 << 33;

/// The place of a reservation in its run, if nothing else is known of its caller.
///
/// First come the reservations that were served, by the place of a handle that they got. Then come
/// those that were refused: first the one that says how many handles were left, then those that
/// don't say so, the greatest first, then those that found none.
#[inline]
pub(super) fn own_key(entities: &Entities, requested: u32, reply: &ReserveReply) -> u64
    // ensures key { KeyOf (available entities.now.allocator) requested reply.now result }
    // ensures small { requested < 2 ^ 32 }
{
    match reply {
        ReserveReply::Handles(handles) => list_key(entities, handles.as_slice()),
        ReserveReply::Space => LAST_REFUSED - u64::from(requested),
        ReserveReply::SpaceLeft(0) => LAST_REFUSED,
        ReserveReply::SpaceLeft(_) => FIRST_REFUSED,
    }
}

/// The place of the first of these handles, or 0 if there is none or no allocator could give it.
#[inline]
fn list_key(entities: &Entities, handles: &[Handle]) -> u64
    // ensures { (n : ℕ)
    //     → KeyOf (available entities.now.allocator) n (ReserveReply.Handles handles.now) result }
{
    let Some((first, _)) = handles.split_first() else {
        return 0;
    };
    match entities.place(*first) {
        Some(place) => u64::from(place),
        None => 0,
    }
}
