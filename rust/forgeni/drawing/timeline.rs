//! What holds after each event, as data.

use super::state::State;
use crate::handles::OutOfMemory;
use std::string::String;
use std::vec::Vec;

/// The most events of a picture.
pub(super) const MOST_EVENTS: usize = 200;

/// The most slots of a picture.
pub(super) const MOST_SLOTS: usize = 40;

/// How the line of an event is drawn.
#[derive(Clone, Copy, Debug, PartialEq, Eq)]
pub(super) enum Mark {
    /// Thin.
    Plain,
    /// Thick: it brings to life what is reserved.
    Flush,
    /// Red: a trace differs there.
    Differs,
}

/// An event, and what holds after it.
#[derive(Clone, Debug, PartialEq, Eq)]
pub(super) struct Moment {
    /// The event's text.
    pub(super) event: String,
    /// Why it did nothing, or what it was refused.
    pub(super) note: Option<String>,
    pub(super) mark: Mark,
    pub(super) after: State,
}

/// Events in their order, from a state on.
#[derive(Clone, Debug, PartialEq, Eq)]
pub(super) struct Timeline {
    pub(super) before: State,
    pub(super) moments: Vec<Moment>,
}

/// Why there is no picture.
#[derive(Clone, Copy, Debug, PartialEq, Eq)]
pub(super) enum Undrawn {
    /// There are so many events.
    Events(usize),
    /// At the event of this number, from 1, there are more than `MOST_SLOTS` slots.
    Slots(usize),
    /// Memory ran out.
    Memory,
}

impl From<OutOfMemory> for Undrawn {
    fn from(_refused: OutOfMemory) -> Self {
        Undrawn::Memory
    }
}
