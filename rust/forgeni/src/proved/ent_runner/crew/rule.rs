// Made of crates/ent_runner/src/crew/rule.rt by rust/erase. It isn't edited by hand.

//! The rule over the claim word and the records of all claimers, and what its steps tell.

use crate::running::crew::record::ClaimRecord;
use crate::kit::atomic_table::{Play, TableRule};
use crate::reserving::holders::HeldRecords;

/// How many numbers there are to claim, and how many claimers.
pub(super) struct Opening {
    pub(super) numbers: usize,
    pub(super) workers: usize,
}

pub(super) struct Numbers;

impl TableRule<(), HeldRecords<ClaimRecord>, Opening> for Numbers {}

/// A claim.
pub(super) struct Claim;

impl Play<(), HeldRecords<ClaimRecord>> for Claim {}
