// Made of crates/ent_blocks/src/accounting.rt by rust/erase. It isn't edited by hand.

//! What was used of all blocks, by the reservers that are here.

use alloc::vec::Vec;
use crate::kit::vec::FallibleVec;
use crate::in_blocks::held::Held;
use crate::in_blocks::part::Part;

/// How many blocks are held by nothing here. `None` if what is here doesn't hold some of the
/// blocks, in their order.
#[inline]
pub(super) fn missing<H: Held>(parts: &[Part], held: &[H]) -> Option<usize>
    // ensures among { IsSome result ↔ IsTrue (are_among parts.now (map H.block held.now)) }
    // ensures count { IfSome result (λ n. length held.now + n ≡ length parts.now) }
{
    let mut next = 0;
    for part in parts {
        if next < held.len() {
            let here = &held[next];
            if part.is_same(here.part()) {
                next += 1;
            }
        }
    }
    if next < held.len() {
        None
    } else {
        Some(parts.len() - next)
    }
}

/// Appends all blocks with what was used of each: all of it, if nothing here holds it. There is
/// room for them.
#[inline]
pub(super) fn account<H: Held>(parts: &[Part], held: &[H], all: &mut Vec<Part>)
    // requires none { all.old.items ≡ [] }
    // requires room { length parts.now ≤ vec_capacity all.old }
    // ensures all { all.new.items ≡ accounted parts.now (map H.block held.now) }
    // ensures count { vec_len all.new ≡ length parts.now }
    // ensures room { vec_capacity all.new ≡ vec_capacity all.old }
{
    let mut next = 0;
    for part in parts {
        let mut used = part.size();
        if next < held.len() {
            let here = held[next].part();
            if part.is_same(here) {
                used = here.used();
                next += 1;
            }
        }
        all.push_reserved(part.with_used(used));
    }
}
