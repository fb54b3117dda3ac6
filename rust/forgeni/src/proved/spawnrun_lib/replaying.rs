// Made of crates/spawnrun_lib/src/replaying.rt by rust/erase. It isn't edited by hand.

//! The run of a schedule: bytes in, bytes out.

use alloc::vec::Vec;
use crate::kit::programs::format;
use crate::spawnrun_lib::product::{Product, Refusal};
use crate::spawnrun_lib::progress::Progress;
use crate::spawnrun_lib::schedule::schedule_found;
use crate::spawnrun_lib::text::Text;
use crate::spawnrun_lib::wants::line_wants;
use crate::allocator::Limits;
use crate::handles::OutOfMemory;
use crate::traces::{
    Cause, Event, Machine, Outcome, ReadFault, ReplayFault, read_schedule, write_outcome,
};

// The events between two reports of how far a run is.
const STEP: usize = 65_536;

/// Runs the schedule that the input spells over an empty allocator of these limits, and returns a
/// line for each event, or says why the input spells no schedule.
///
/// # Errors
///
/// [`OutOfMemory`], if there isn't enough memory for it.
#[inline]
pub(super) fn replay<P: Progress>(
    input: Vec<u8>,
    limits: Limits,
    progress: &mut P,
) -> Result<Product, OutOfMemory>
    // ensures { IfOk result (IsProductOf (Replays limits) SpellsNone input.items) }
{
    match read_schedule(&input) {
        Ok(events) => {
            let text = outcome_text(limits, &events, progress);
            progress.end();
            Ok(Product::Output(Text::one(text?)?))
        }
        Err(ReadFault::Line { line, cause }) => Ok(Product::Refusal(Refusal {
            line: refused_line(line, cause)?,
            wants: line_wants(cause),
            found: schedule_found(&input, line),
        })),
        Err(ReadFault::Memory) => Err(OutOfMemory),
    }
}

// The lines of what the events give, from an empty allocator.
#[inline]
fn outcome_text<P: Progress>(
    limits: Limits,
    events: &[Event],
    progress: &mut P,
) -> Result<Vec<u8>, OutOfMemory>
    // ensures { IfOk result (λ text.
    //     text.items ≡ outcome_lines (outcomes_of (starting limits) events.now)) }
{
    let mut machine = Machine::new(limits)?;
    let mut text = Vec::new();
    for (done, event) in events.iter().enumerate() {
        if done % STEP == 0 {
            progress.tell(done, events.len());
        }
        let outcome = apply(&mut machine, *event)?;
        write_outcome(&outcome, &mut text)?;
    }
    Ok(text)
}

// Applies one event, if there is memory for it.
#[inline]
fn apply(machine: &mut Machine, event: Event) -> Result<Result<Outcome, ReplayFault>, OutOfMemory>
    // ensures outcome { IfOk result (λ outcome. outcome ≡ outcome_of machine.old event) }
    // ensures memory { IfOk result (λ outcome. outcome ≢ Err ReplayFault.Memory) }
    // ensures state { OnOk result (machine.new ≡ after_event machine.old event) }
{
    match machine.step(event) {
        Err(ReplayFault::Memory) => Err(OutOfMemory),
        outcome => Ok(outcome),
    }
}

// The line that refuses a text, whose line of this number names no event.
#[inline]
fn refused_line(line: usize, cause: Cause) -> Result<Vec<u8>, OutOfMemory>
    // ensures { IfOk result (λ text. text.items ≡ refused_line line cause) }
{
    let cause = cause.text();
    let text = format!("refused line {line} {cause}\n")?;
    Ok(text.into_bytes())
}
