// Made of crates/ent_shared/src/plays.rt by rust/erase. It isn't edited by hand.

//! What a holder knows, and what a step makes of it.

use crate::kit::atomic_table::{Join, Play, Split};
use crate::kit::collections::LinkedList;

/// What a holder knows: the records of those that it represents. No value of it is ever made.
pub type HeldRecords<R> = LinkedList<R>;

/// A new holder, which has no record.
pub(super) struct NewHolder;

impl<R> Play<(), HeldRecords<R>> for NewHolder {}

/// The first record moves to a holder of its own.
pub(super) struct SplitFirst;

impl<R> Split<HeldRecords<R>> for SplitFirst {}

/// The records of two holders in one.
pub(super) struct Merge;

impl<R> Join<HeldRecords<R>> for Merge {}
