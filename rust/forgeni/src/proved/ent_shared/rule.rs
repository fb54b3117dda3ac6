// Made of crates/ent_shared/src/rule.rt by rust/erase. It isn't edited by hand.

//! The rule over the cursor word and the records of all reservers, and what its steps tell.

use crate::reserving::holders::HeldRecords;
use crate::reserving::record::Record;
use crate::kit::atomic_table::{Join, Play, Split, TableRule};
use crate::allocator::Entities;

/// What a phase begins with.
pub(super) struct Opening {
    pub(super) entities: Entities,
    pub(super) count: usize,
}

pub(super) struct Cursor;

impl TableRule<(), HeldRecords<Record>, Opening> for Cursor {}

/// A reservation.
pub(super) struct Reserve;

impl Play<(), HeldRecords<Record>> for Reserve {}

/// The first reserver meets the second.
pub(super) struct Meet;

impl Join<HeldRecords<Record>> for Meet {}

/// The reserver that was met goes back to a holder of its own.
pub(super) struct SplitSecond;

impl Split<HeldRecords<Record>> for SplitSecond {}
