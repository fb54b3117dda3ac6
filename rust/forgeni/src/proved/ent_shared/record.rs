// Made of crates/ent_shared/src/record.rt by rust/erase. It isn't edited by hand.

//! What one caller has done in a phase. Contracts speak of it, and no value of it is ever made.

use crate::allocator::{Entities, Space};
use crate::handles::Handle;
use crate::kit::collections::LinkedList;

/// The allocator as it was shared, without the rows that a program keeps beside its state: what a
/// caller does has nothing to do with them, so its record says nothing of them.
pub struct Start {
    entities: Entities,
}

/// One reservation. It covers the positions from `high` less `requested` up to, not including,
/// `high`.
pub struct Reservation {
    /// The number of its reserver.
    pub caller: u64,
    /// The cursor that its step found.
    pub high: i64,
    /// How many handles were requested.
    pub requested: u32,
    /// The reply: the handles, or how many the pool had.
    pub reply: Result<LinkedList<Handle>, Space>,
}

/// What a reserver did.
pub enum RecordEntry {
    /// It made a reservation.
    Own(Reservation),
    /// It met another one. These are all the reservations that the other one had made or learned of
    /// by then.
    Met(LinkedList<Reservation>),
}

/// One reserver's record of its phase.
pub struct Record {
    /// The allocator as it was shared.
    pub start: Start,
    /// The position of the reserver in the list that `share` gave, from 0.
    pub number: u64,
    /// What it did, in order.
    pub entries: LinkedList<RecordEntry>,
    /// How many handles it may still request.
    pub left: u64,
    /// Its next reservation begins here or lower.
    pub mark: i64,
    /// Where its last reservation that was served ends, or the top of the allocator's pending list.
    pub floor: i64,
}
