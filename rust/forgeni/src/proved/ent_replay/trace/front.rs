// Made of crates/ent_replay/src/trace/front.rt by rust/erase. It isn't edited by hand.

//! The front of the pool, for a difference to show.

use alloc::vec::Vec;
use crate::kit::vec::FallibleVec;
use crate::traces::handle_list::HandleList;
use crate::allocator::Entities;
use crate::handles::{Handle, OutOfMemory};

/// How many handles are shown.
const SHOWN: usize = 8;

/// The handle of the pool that a request finds first that finds the cursor at this position.
#[inline]
fn handle_at(entities: &Entities, position: i64) -> Option<Handle>
    // requires least { neg_ℤ (pos (2 ^ 60)) ≤ℤ position }
    // requires passed { position ≤ℤ pos (top entities.now.allocator) }
    // ensures { result ≡ slice_get (pool_at entities.now.allocator position) 0 }
{
    match entities.reply_one(position) {
        Ok(handle) => Some(handle),
        Err(_) => None,
    }
}

/// The front of the pool that a request finds that finds the cursor at this position. Requests that
/// follow don't change it.
#[inline]
pub(super) fn front_at(
    entities: &Entities,
    position: i64,
) -> Result<HandleList, OutOfMemory>
    // requires least { pos (top entities.now.allocator) ≤ℤ (position +ℤ pos (2 ^ 50)) }
    // requires passed { position ≤ℤ pos (top entities.now.allocator) }
    // ensures { IfOk result (λ front.
    //     front ≡ take 8 (pool_at entities.now.allocator position)) }
{
    let mut front = Vec::new();
    let mut next = position;
    while front.len() < SHOWN {
        let Some(handle) = handle_at(entities, next) else {
            break;
        };
        front.push_fallibly(handle)?;
        next -= 1;
    }
    Ok(HandleList::new(front))
}
