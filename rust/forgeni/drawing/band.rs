//! A part of a timeline that is drawn side by side.

use super::label::Label;
use super::state::{Occupant, OpenCall, State};
use super::timeline::{Mark, Moment, Timeline};
use std::collections::BTreeSet;
use std::format;
use std::string::String;
use std::vec::Vec;

/// The most events side by side.
const MOST: usize = 40;

/// Events that follow each other, and what held before them.
///
/// Its *intervals* lie before, between and after its events. So there is one more than there are
/// events.
#[derive(Clone, Copy)]
pub(super) struct Band<'a> {
    pub(super) before: &'a State,
    pub(super) moments: &'a [Moment],
}

/// The same thing in intervals that follow each other.
#[derive(Clone, Copy, Debug, PartialEq, Eq)]
pub(super) struct Bar<T> {
    pub(super) what: T,
    /// The first interval.
    pub(super) begin: usize,
    /// The interval after the last one.
    pub(super) end: usize,
}

/// What is on a line: its name, and bars one after the other.
pub(super) struct Row {
    pub(super) name: String,
    pub(super) bars: Vec<Bar<Label>>,
}

impl<'a> Band<'a> {
    /// The bands of a timeline, in their order. A timeline without events has one.
    pub(super) fn all_of(timeline: &'a Timeline) -> Vec<Self> {
        let mut bands = Vec::new();
        let mut before = &timeline.before;
        for moments in timeline.moments.chunks(MOST) {
            bands.push(Band { before, moments });
            before = moments.last().map_or(before, |last| &last.after);
        }
        if bands.is_empty() {
            let moments = &timeline.moments;
            bands.push(Band { before, moments });
        }
        bands
    }

    /// What holds in each interval.
    pub(super) fn states(self) -> impl Iterator<Item = &'a State> {
        let after = self.moments.iter().map(|moment| &moment.after);
        core::iter::once(self.before).chain(after)
    }

    /// The occupants of a slot, and in which intervals.
    pub(super) fn occupants(self, slot: u32) -> Vec<Bar<Occupant>> {
        bars(self.states().map(|state| state.slots.get(&slot)))
    }

    /// The open calls of a caller, each before its step and after it, and in which intervals.
    pub(super) fn calls(self, caller: u32) -> Vec<Bar<OpenCall>> {
        bars(self.states().map(|state| state.calls.get(&caller)))
    }

    /// A row for each slot that was made or reserved, in ascending order of number.
    pub(super) fn slots(self) -> Vec<Row> {
        let slots = numbers(self.states().flat_map(|state| state.slots.keys()));
        let row = |slot| {
            let label = |occupant| Label::of_occupant(slot, occupant);
            Row::new(format!("slot {slot}"), self.occupants(slot), label)
        };
        slots.into_iter().map(row).collect()
    }

    /// A row for each caller with an open call, in ascending order of number.
    pub(super) fn callers(self) -> Vec<Row> {
        let callers = numbers(self.states().flat_map(|state| state.calls.keys()));
        let row = |caller| {
            let name = format!("caller {caller}");
            Row::new(name, self.calls(caller), Label::of_call)
        };
        callers.into_iter().map(row).collect()
    }

    /// The bars of all rows.
    pub(super) fn bars(self) -> impl Iterator<Item = Bar<Label>> {
        let rows = self.slots().into_iter().chain(self.callers());
        rows.flat_map(|row| row.bars)
    }

    /// How many intervals a text that begins with the bar may take, if no thick line is to cross
    /// it.
    pub(super) fn room<T>(self, bar: &Bar<T>) -> usize {
        let inner = &self.moments[bar.begin..bar.end - 1];
        let plain = inner.iter().take_while(|moment| moment.mark == Mark::Plain);
        plain.count() + 1
    }

    /// Whether the cursor is known somewhere.
    pub(super) fn has_cursor(self) -> bool {
        self.states().any(|state| state.cursor.is_some())
    }
}

impl Row {
    fn new<T>(name: String, bars: Vec<Bar<T>>, label: impl Fn(T) -> Label) -> Self {
        let labelled = |Bar { what, begin, end }| Bar {
            what: label(what),
            begin,
            end,
        };
        let bars = bars.into_iter().map(labelled).collect();
        Row { name, bars }
    }
}

/// These numbers, each once, in ascending order of number.
fn numbers<'a>(all: impl Iterator<Item = &'a u32>) -> Vec<u32> {
    let all: BTreeSet<u32> = all.copied().collect();
    all.into_iter().collect()
}

/// The runs of what is the same.
fn bars<'a, T: Copy + PartialEq + 'a>(all: impl Iterator<Item = Option<&'a T>>) -> Vec<Bar<T>> {
    let mut bars: Vec<Bar<T>> = Vec::new();
    for (at, what) in all.enumerate() {
        let Some(&what) = what else {
            continue;
        };
        let (begin, end) = (at, at + 1);
        match bars.last_mut() {
            Some(bar) if bar.end == at && bar.what == what => bar.end = end,
            _ => bars.push(Bar { what, begin, end }),
        }
    }
    bars
}
