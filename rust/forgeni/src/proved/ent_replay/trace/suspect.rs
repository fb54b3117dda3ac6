// Made of crates/ent_replay/src/trace/suspect.rt by rust/erase. It isn't edited by hand.

//! Chooses which of the reservations that can't be placed a difference names.

use alloc::vec::Vec;
use crate::kit::vec::FallibleVec;
use crate::traces::by_caller::ByCaller;
use crate::traces::trace::key::own_key;
use crate::traces::trace::lineup::fits_at;
use crate::traces::trace::placed::Placed;
use crate::traces::trace::reply::ReserveReply;
use crate::allocator::Entities;
use crate::handles::OutOfMemory;

/// How many reservations are tried.
const TRIES: u32 = 64;

/// How many positions may be requested between two flushes.
const MOST: i64 = 1 << 50;

/// A reservation in its turn.
struct Turn {
    key: u64,
    index: usize,
}

/// If none of these fits at this position, the index of the one that is named: the first one that
/// is its caller's next one, and without whose answer all others fit. If none of the first 64
/// callers has such a reservation, it is the first of the list.
#[inline]
pub(super) fn suspect(
    entities: &Entities,
    at: i64,
    rest: &[Placed],
) -> Result<usize, OutOfMemory>
    // requires { rest.now ≢ [] }
    // ensures { IfOk result (λ index. IsFirstAt rest.now index) }
{
    let order = turns(entities, rest)?;
    let mut seen = ByCaller::new();
    let mut tries = 0;
    for (index, one) in rest.iter().enumerate() {
        let caller = one.reservation.caller;
        if seen.get(caller).is_some() {
            continue;
        }
        let next = at.saturating_sub(i64::from(one.reservation.requested));
        if others_fit(entities, next, rest, &order, index)? {
            return Ok(index);
        }
        tries += 1;
        if tries == TRIES {
            break;
        }
        seen.insert(caller, one.key)?;
    }
    Ok(0)
}

/// The reservations in the order of the handles that they were given.
#[inline]
fn turns(entities: &Entities, rest: &[Placed]) -> Result<Vec<Turn>, OutOfMemory> {
    let mut order = Vec::with_capacity_fallibly(rest.len())?;
    for (index, one) in rest.iter().enumerate() {
        let reservation = &one.reservation;
        let key = own_key(entities, reservation.requested, &reservation.reply);
        order.push_fallibly(Turn { key, index })?;
    }
    order.sort_by_cached_key_fallibly(|turn| turn.key)?;
    Ok(order)
}

/// Whether all reservations but one fit in this order, one after the other, if the order is also
/// that of each caller. A reservation of nothing fits anywhere.
#[inline]
fn others_fit(
    entities: &Entities,
    at: i64,
    rest: &[Placed],
    order: &[Turn],
    named: usize,
) -> Result<bool, OutOfMemory> {
    let mut last = ByCaller::new();
    let mut next = at;
    for turn in order {
        let Some(one) = rest.get(turn.index) else {
            return Ok(false);
        };
        let requested = one.reservation.requested;
        if turn.index == named || (requested == 0 && is_nothing(&one.reservation.reply)) {
            continue;
        }
        let caller = one.reservation.caller;
        let place = turn.index as u64;
        if last.get(caller).unwrap_or(0) > place || !fits_within(entities, next, one)? {
            return Ok(false);
        }
        last.insert(caller, place)?;
        next = next.saturating_sub(i64::from(requested));
    }
    Ok(true)
}

/// Whether the reservation fits at a position that an allocator counts.
#[inline]
fn fits_within(entities: &Entities, at: i64, one: &Placed) -> Result<bool, OutOfMemory> {
    let cursor = entities.cursor();
    let room = MOST - entities.asked() as i64;
    match at.checked_add(room) {
        Some(reach) if at <= cursor && cursor <= reach => {
            fits_at(entities, at, &one.reservation)
        }
        _ => Ok(false),
    }
}

/// Whether it is the answer to a request for nothing.
#[inline]
fn is_nothing(reply: &ReserveReply) -> bool {
    match reply {
        ReserveReply::Handles(handles) => handles.is_empty(),
        _ => false,
    }
}
