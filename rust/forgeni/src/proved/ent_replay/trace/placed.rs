// Made of crates/ent_replay/src/trace/placed.rt by rust/erase. It isn't edited by hand.

use crate::traces::trace::reservation::Reservation;

/// A reservation of the run, and the key that says where in the run it comes.
pub(super) struct Placed {
    pub(super) reservation: Reservation,
    pub(super) key: u64,
}
