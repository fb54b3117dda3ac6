// Made of crates/ent_runner/src/crew/record.rt by rust/erase. It isn't edited by hand.

//! What one worker has claimed. Contracts speak of it, and no value of it is ever made.

use crate::kit::collections::LinkedList;

/// One claimer's record.
pub struct ClaimRecord {
    /// The numbers below this one can be claimed.
    pub numbers: u64,
    /// The numbers that it has claimed, in order.
    pub claims: LinkedList<u64>,
    /// Whether it has found that no number is left.
    pub ended: bool,
}
