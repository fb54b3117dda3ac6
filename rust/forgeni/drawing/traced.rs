//! The timeline of a trace that differs: the run that breaks.
//!
//! Up to that run the trace agrees, so what held there is read from the proved `Entities`. From
//! there on it is what the lines say, in the order of their numbers.

use super::followed::Followed;
use super::state::{Occupant, State};
use super::timeline::{Mark, Moment, Timeline, Undrawn, MOST_EVENTS, MOST_SLOTS};
use crate::handles::{Handle, OutOfMemory};
use crate::traces::trace::{
    read_line, write_difference, write_line, AllocReply, Call, CheckError, Comparer, Difference,
    FlushReply, FreeReply, Reservation, ReserveReply,
};
use std::collections::BTreeSet;
use std::format;
use std::string::{String, ToString};
use std::vec::Vec;

/// A line with its number, from 1.
struct Line {
    number: u64,
    call: Call,
}

/// The run in which a trace differs, with the line after it if that is the one that differs.
pub(super) struct BrokenRun {
    pub(super) difference: Difference,
    before: State,
    lines: Vec<Line>,
}

impl BrokenRun {
    /// The run of this trace, which begins so, in which the proved `Comparer` finds a difference.
    /// `None` if it finds none.
    pub(super) fn find(begin: Followed, trace: &[u8]) -> Option<Self> {
        let mut comparer = Comparer::from_entities(begin.entities.try_clone().ok()?);
        let mut followed = begin;
        let mut lines = Vec::new();
        for (number, text) in (1..).zip(trace.split(|byte| *byte == b'\n')) {
            let text = text.strip_suffix(b"\r").unwrap_or(text);
            let Some(call) = read_line(number, text).ok()? else {
                continue;
            };
            let is_alone = !matches!(call, Call::Reserve(_));
            let line = call.clone();
            lines.push(Line { number, call });
            match comparer.take(number, line) {
                Ok(next) => comparer = next,
                Err(error) => return Self::new(error, followed.state, lines),
            }
            if is_alone {
                follow(&mut followed, &lines).ok()?;
                lines.clear();
            }
        }
        Self::new(comparer.finish().err()?, followed.state, lines)
    }

    fn new(error: CheckError, before: State, mut lines: Vec<Line>) -> Option<Self> {
        let CheckError::Differs(difference) = error else {
            return None;
        };
        let is_in_run = |line: &Line| matches!(line.call, Call::Reserve(_));
        lines.retain(|line| is_in_run(line) || line.number == difference.number);
        Some(BrokenRun {
            difference,
            before,
            lines,
        })
    }

    /// What the program prints of the difference.
    pub(super) fn text(&self) -> Result<String, OutOfMemory> {
        let mut text = Vec::new();
        write_difference(&mut text, &self.difference)?;
        Ok(String::from_utf8_lossy(&text).to_string())
    }

    /// The timeline of the run. If that has too many lines or slots, it is of the lines alone that
    /// name a slot of the difference.
    pub(super) fn timeline(&self) -> Result<Timeline, Undrawn> {
        let all: Vec<&Line> = self.lines.iter().collect();
        if let Ok(timeline) = self.timeline_of(&all) {
            return Ok(timeline);
        }
        let named = self.slots_of_difference();
        let names = |line: &&Line| slots_of(&line.call).any(|slot| named.contains(&slot));
        let some: Vec<&Line> = self.lines.iter().filter(names).collect();
        self.timeline_of(&some)
    }

    fn timeline_of(&self, lines: &[&Line]) -> Result<Timeline, Undrawn> {
        if lines.len() > MOST_EVENTS {
            return Err(Undrawn::Events(lines.len()));
        }
        let mut slots = self.slots_of_difference();
        slots.extend(lines.iter().flat_map(|line| slots_of(&line.call)));
        if slots.len() > MOST_SLOTS {
            return Err(Undrawn::Slots(self.difference.number as usize));
        }
        let mut state = self.before.clone();
        state.slots.retain(|slot, _| slots.contains(slot));
        // The lines come in no order that is known, so the cursor between them isn't known.
        state.cursor = None;
        let before = state.clone();
        let moments = lines.iter().map(|line| self.moment(line, &mut state));
        let moments = moments.collect::<Result<_, _>>()?;
        Ok(Timeline { before, moments })
    }

    fn moment(&self, line: &Line, state: &mut State) -> Result<Moment, Undrawn> {
        claim(state, &line.call);
        let Line { number, call } = line;
        let mark = match call {
            _ if *number == self.difference.number => Mark::Differs,
            Call::Flush(_) => Mark::Flush,
            _ => Mark::Plain,
        };
        let (words, note) = texts_of(call)?;
        Ok(Moment {
            event: format!("{number}: {words}"),
            note,
            mark,
            after: state.clone(),
        })
    }

    fn slots_of_difference(&self) -> BTreeSet<u32> {
        let Difference { told, expected, .. } = &self.difference;
        slots_of(told).chain(slots_of(expected)).collect()
    }
}

/// Does with the entities what lines did that agree: a run, and the line after it.
fn follow(followed: &mut Followed, lines: &[Line]) -> Result<(), OutOfMemory> {
    let run = lines.iter().filter_map(|line| match &line.call {
        Call::Reserve(reservation) => Some(reservation),
        _ => None,
    });
    // In every order in which the run agrees, those that are refused come after those that are
    // served.
    let is_served = |one: &&Reservation| matches!(one.reply, ReserveReply::Handles(_));
    let (served, refused): (Vec<_>, Vec<_>) = run.partition(is_served);
    for one in served.iter().chain(&refused) {
        followed.reserve(one.caller, one.requested);
    }
    // In the order of their numbers the requests may have given the handles of one caller to
    // another.
    for line in lines {
        if let Call::Reserve(_) = line.call {
            claim(&mut followed.state, &line.call);
        }
    }
    match lines.last().map(|line| &line.call) {
        Some(Call::Alloc(_)) => followed.alloc(),
        Some(Call::Free(handle, _)) => followed.free(*handle),
        Some(Call::Flush(_)) => followed.flush()?,
        _ => {}
    }
    Ok(())
}

/// What holds after a call, if its answer is right.
fn claim(state: &mut State, call: &Call) {
    let alive = |one: &Handle| (one.index(), Occupant::Alive(one.generation()));
    match call {
        Call::Alloc(Some(AllocReply::Handle(handle))) => state.slots.extend([alive(handle)]),
        Call::Free(handle, Some(reply)) => claim_free(state, *handle, *reply),
        Call::Flush(Some(FlushReply::Born(handles))) => {
            state.slots.extend(handles.as_slice().iter().map(alive));
        }
        Call::Reserve(reservation) => claim_reserved(state, reservation),
        _ => {}
    }
}

fn claim_free(state: &mut State, handle: Handle, reply: FreeReply) {
    let occupant = match reply {
        FreeReply::Freed => Occupant::Waiting(handle.generation().saturating_add(1)),
        FreeReply::Next(next) => Occupant::Waiting(next.generation()),
        FreeReply::Retired => Occupant::Retired,
        FreeReply::NotAlive | FreeReply::NeedsFlush => return,
    };
    state.slots.insert(handle.index(), occupant);
}

fn claim_reserved(state: &mut State, reservation: &Reservation) {
    let ReserveReply::Handles(handles) = &reservation.reply else {
        return;
    };
    let caller = reservation.caller;
    for handle in handles.as_slice() {
        let generation = handle.generation();
        let reserved = Occupant::Reserved { generation, caller };
        state.slots.insert(handle.index(), reserved);
    }
}

/// The slots that a call and its answer name.
fn slots_of(call: &Call) -> impl Iterator<Item = u32> + '_ {
    let (one, many): (_, &[Handle]) = match call {
        Call::Alloc(Some(AllocReply::Handle(handle))) => (Some(handle), &[]),
        Call::Free(handle, _) | Call::State(handle, _) => (Some(handle), &[]),
        Call::Flush(Some(FlushReply::Born(handles))) => (None, handles.as_slice()),
        Call::Reserve(reservation) => match &reservation.reply {
            ReserveReply::Handles(handles) => (None, handles.as_slice()),
            ReserveReply::Space | ReserveReply::SpaceLeft(_) => (None, &[]),
        },
        _ => (None, &[]),
    };
    one.into_iter().chain(many).map(|handle| handle.index())
}

/// The text of a call, and the answer beside it, if that gave nothing. Handles aren't in the text:
/// bars show them.
fn texts_of(call: &Call) -> Result<(String, Option<String>), OutOfMemory> {
    let mut line = Vec::new();
    write_line(&mut line, call)?;
    let line = String::from_utf8_lossy(&line);
    let (words, answer) = line.split_once(" => ").unwrap_or((&line, ""));
    Ok(match call {
        Call::State(..) | Call::Len(_) => (line.to_string(), None),
        _ if is_refused(call) => (words.to_string(), Some(answer.to_string())),
        _ => (words.to_string(), None),
    })
}

fn is_refused(call: &Call) -> bool {
    match call {
        Call::Alloc(reply) => matches!(reply, Some(AllocReply::Space | AllocReply::NeedsFlush)),
        Call::Free(_, reply) => {
            matches!(reply, Some(FreeReply::NotAlive | FreeReply::NeedsFlush))
        }
        Call::Reserve(one) => !matches!(one.reply, ReserveReply::Handles(_)),
        _ => false,
    }
}

#[cfg(test)]
#[path = "traced_tests.rs"]
mod tests;
