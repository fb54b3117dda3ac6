// Made of crates/ent_runner/src/blocks/splitting.rt by rust/erase. It isn't edited by hand.

//! What the systems hand back is put into two lists.

use alloc::vec::Vec;
use crate::kit::vec::FallibleVec;

/// Puts what each one has first into this list, and what it has second into that one. There is room
/// for it.
#[inline]
pub(super) fn split<A, B>(all: Vec<(A, B)>, first: &mut Vec<A>, second: &mut Vec<B>)
    // requires empty { (first.old.items ≡ []) × (second.old.items ≡ []) }
    // requires room { (length all.items ≤ vec_capacity first.old)
    //     × (length all.items ≤ vec_capacity second.old) }
    // ensures first { first.new.items ≡ map (λ one. one.0) all.items }
    // ensures second { second.new.items ≡ map (λ one. one.1) all.items }
{
    for (one, other) in all {
        first.push_reserved(one);
        second.push_reserved(other);
    }
}
