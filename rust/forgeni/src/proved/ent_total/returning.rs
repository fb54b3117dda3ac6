// Made of crates/ent_total/src/returning.rt by rust/erase. It isn't edited by hand.

//! Reservers come back: what they reserve with goes back to the phase.
use alloc::vec::Vec;
use crate::kit::vec::FallibleVec;
use crate::phases::reserver::Reserver;
use crate::allocator::Phased;

/// Whether all reservers are of the phase of this number.
#[inline]
pub(super) fn are_of<S: Phased>(number: u64, reservers: &[Reserver<S>]) -> bool
    // ensures { IsTrue result ↔ AreOf number reservers.now }
{
    for reserver in reservers {
        if reserver.number != number {
            return false;
        }
    }
    true
}

/// Adds the reservers of the reservers to those returned, behind them. There is room for them.
#[inline]
pub(super) fn bring_back<S: Phased>(
    returned: &mut Vec<S::Reserver>,
    source: &S,
    number: u64,
    reservers: Vec<Reserver<S>>,
)
    // requires stands_for { J.phase_of S number ≡ Some source.now }
    // requires of { AreOf number reservers.items }
    // requires own { All (S.serves source.now) returned.old.items }
    // requires room { vec_len returned.old + length reservers.items ≤ vec_capacity returned.old }
    // ensures items { returned.new.items ≡ returned.old.items ++ reservers_of reservers.items }
    // ensures own { All (S.serves source.now) returned.new.items }
    // ensures room { vec_capacity returned.new ≡ vec_capacity returned.old }
{
    for reserver in reservers {
        returned.push_reserved(reserver.reserver);
    }
}
