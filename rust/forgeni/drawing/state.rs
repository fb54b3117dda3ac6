//! What holds between two events.

use std::collections::BTreeMap;

/// The occupant of a slot.
#[derive(Clone, Copy, Debug, PartialEq, Eq)]
pub(super) enum Occupant {
    /// The entity of this generation, which is alive.
    Alive(u32),
    /// The entity of this generation, which the next flush brings to life.
    Reserved {
        /// The generation.
        generation: u32,
        /// The caller that reserved it.
        caller: u32,
    },
    /// None. The next one has this generation.
    Waiting(u32),
    /// None, for good.
    Retired,
}

/// A call that a caller has opened.
#[derive(Clone, Copy, Debug, PartialEq, Eq)]
pub(super) struct OpenCall {
    /// How many handles it requests.
    pub(super) requested: u32,
    /// The cursor before its step and after it, once that was made.
    pub(super) span: Option<(i64, i64)>,
}

/// What holds between two events: the occupant of each slot that was made or reserved, the open
/// call of each caller, and the cursor, if it is known.
#[derive(Clone, Debug, Default, PartialEq, Eq)]
pub(super) struct State {
    pub(super) slots: BTreeMap<u32, Occupant>,
    pub(super) calls: BTreeMap<u32, OpenCall>,
    pub(super) cursor: Option<i64>,
}
