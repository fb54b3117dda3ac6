//! The timeline of a schedule.
//!
//! The proved `Machine` says what each event gives. Beside it the proved `Entities` follows each
//! event that was applied, since a machine shows its cursor only at a step, and lists the handles
//! of a reservation only at the answer.

use super::followed::Followed;
use super::state::OpenCall;
use super::timeline::{Mark, Moment, Timeline, Undrawn, MOST_EVENTS, MOST_SLOTS};
use crate::allocator::Limits;
use crate::traces::{write_outcome, Event, Machine, Outcome, ReplayFault};
use std::string::{String, ToString};
use std::vec::Vec;

/// The timeline of the events that this text spells, line by line, from an empty allocator of these
/// limits on.
pub(super) fn replayed(limits: Limits, text: &str, events: &[Event]) -> Result<Timeline, Undrawn> {
    if events.len() > MOST_EVENTS {
        return Err(Undrawn::Events(events.len()));
    }
    let mut player = Player::new(limits)?;
    let before = player.followed.state.clone();
    let lines = text.split('\n').zip(events);
    let moments = lines
        .enumerate()
        .map(|(at, (line, event))| player.play(at + 1, line, *event));
    let moments = moments.collect::<Result<_, _>>()?;
    Ok(Timeline { before, moments })
}

struct Player {
    machine: Machine,
    followed: Followed,
}

impl Player {
    fn new(limits: Limits) -> Result<Self, Undrawn> {
        Ok(Player {
            machine: Machine::new(limits)?,
            followed: Followed::new(limits),
        })
    }

    /// Applies the event of this number and line.
    fn play(&mut self, number: usize, line: &str, event: Event) -> Result<Moment, Undrawn> {
        if let Event::Step(caller) = event {
            self.allow_step(number, caller)?;
        }
        let outcome = self.machine.step(event);
        if outcome.is_ok() {
            self.follow(event)?;
        }
        let after = self.followed.state.clone();
        match after.slots.last_key_value() {
            Some((last, _)) if *last as usize >= MOST_SLOTS => Err(Undrawn::Slots(number)),
            _ => Ok(Moment {
                event: line.to_string(),
                note: note_of(&outcome)?,
                mark: mark_of(&outcome),
                after,
            }),
        }
    }

    /// Refuses a step that would list more handles than a picture has slots.
    fn allow_step(&self, number: usize, caller: u32) -> Result<(), Undrawn> {
        let call = self.followed.state.calls.get(&caller);
        let requested = call.map_or(0, |call| call.requested);
        if requested as usize > MOST_SLOTS && requested <= self.followed.entities.left() {
            return Err(Undrawn::Slots(number));
        }
        Ok(())
    }

    /// Does with the entities what the machine did.
    fn follow(&mut self, event: Event) -> Result<(), Undrawn> {
        match event {
            Event::Alloc => self.followed.alloc(),
            Event::Free(handle) => self.followed.free(handle),
            Event::Flush => self.followed.flush()?,
            Event::Begin { caller, n } => self.open(caller, n, None),
            Event::Step(caller) => self.step(caller),
            Event::Answer(caller) => {
                self.followed.state.calls.remove(&caller);
            }
        }
        Ok(())
    }

    fn step(&mut self, caller: u32) {
        let call = self.followed.state.calls.get(&caller);
        let requested = call.map_or(0, |call| call.requested);
        let high = self.followed.entities.cursor();
        self.followed.reserve(caller, requested);
        let low = self.followed.entities.cursor();
        self.open(caller, requested, Some((high, low)));
    }

    fn open(&mut self, caller: u32, requested: u32, span: Option<(i64, i64)>) {
        let call = OpenCall { requested, span };
        self.followed.state.calls.insert(caller, call);
    }
}

/// What an event that did nothing, or a call that was refused, printed.
fn note_of(outcome: &Result<Outcome, ReplayFault>) -> Result<Option<String>, Undrawn> {
    match outcome {
        Err(ReplayFault::Memory) => return Err(Undrawn::Memory),
        Err(_) | Ok(Outcome::NeedsFlush | Outcome::NotAlive | Outcome::Space { .. }) => {}
        Ok(_) => return Ok(None),
    }
    let mut line = Vec::new();
    write_outcome(outcome, &mut line)?;
    let text = String::from_utf8_lossy(&line);
    Ok(Some(text.trim_end().to_string()))
}

fn mark_of(outcome: &Result<Outcome, ReplayFault>) -> Mark {
    match outcome {
        Ok(Outcome::Born(_)) => Mark::Flush,
        _ => Mark::Plain,
    }
}

#[cfg(test)]
#[path = "replayed_tests.rs"]
mod tests;
