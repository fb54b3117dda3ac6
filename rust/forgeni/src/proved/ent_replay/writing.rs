// Made of crates/ent_replay/src/writing.rt by rust/erase. It isn't edited by hand.

use alloc::vec::Vec;
use crate::kit::vec::FallibleVec;
use crate::traces::fault::ReplayFault;
use crate::traces::handle_list::HandleList;
use crate::traces::outcome::Outcome;
use crate::handles::{Handle, OutOfMemory};
use crate::kit::itoa::{Buffer, Integer};

#[inline]
fn append(out: &mut Vec<u8>, text: &[u8]) -> Result<(), OutOfMemory>
    // ensures ok { OnOk result (out.new.items ≡ out.old.items ++ text.now) }
    // ensures err { OnErr result (out.new.items ≡ out.old.items) }
    // ensures full { OnErr result (vec_capacity out.old < vec_len out.old + length text.now) }
    // ensures capacity { vec_capacity out.old ≤ vec_capacity out.new }
{
    Ok(out.extend_from_slice_fallibly(text)?)
}

#[inline]
fn append_number<N: Integer>(out: &mut Vec<u8>, number: N) -> Result<(), OutOfMemory>
    // ensures ok { OnOk result (out.new.items ≡ out.old.items ++ N.text number) }
    // ensures err { OnErr result (out.new.items ≡ out.old.items) }
    // ensures full { OnErr result (vec_capacity out.old < vec_len out.old + length (N.text number)) }
    // ensures capacity { vec_capacity out.old ≤ vec_capacity out.new }
{
    append(out, Buffer::new().format(number).as_bytes())
}

/// The length of a handle's text.
#[inline]
fn text_len(handle: Handle) -> usize
    // ensures value { result ≡ length (handle_text handle) }
    // ensures short { result ≤ 81 }
{
    let mut buffer = Buffer::new();
    let index = buffer.format(handle.index()).len();
    index + 1 + buffer.format(handle.generation()).len()
}

/// The length of the handles' texts with a space before each, or the greatest `usize` if that is
/// less.
#[inline]
fn spaced_len(handles: &[Handle]) -> usize
    // ensures { result ≡ min (length (spaced handles.now)) (2 ^ 64 - 1) }
{
    let mut len: usize = 0;
    for handle in handles {
        len = len.saturating_add(1 + text_len(*handle));
    }
    len
}

/// The length of the line of an outcome that lists handles, or the greatest `usize` if that is
/// less; 0 for any other outcome.
#[inline]
fn list_len(outcome: &Outcome) -> usize
    // ensures within { result ≤ length (outcome_text outcome.now) + 1 }
    // ensures exact { lists_handles outcome.now ≡ true
    //     → result ≡ min (length (outcome_text outcome.now) + 1) (2 ^ 64 - 1) }
{
    match outcome {
        Outcome::Born(handles) => spaced_len(handles.as_slice()).saturating_add(5),
        Outcome::Handles(handles) => spaced_len(handles.as_slice()).max(1),
        _ => 0,
    }
}

/// Appends a space before each handle.
#[inline]
fn append_spaced(out: &mut Vec<u8>, handles: &[Handle]) -> Result<(), OutOfMemory>
    // ensures ok { OnOk result (out.new.items ≡ out.old.items ++ spaced handles.now) }
    // ensures kept { OnErr result (take (vec_len out.old) out.new.items ≡ out.old.items) }
    // ensures full { OnErr result (vec_capacity out.old
    //     < vec_len out.old + length (spaced handles.now)) }
    // ensures capacity { vec_capacity out.old ≤ vec_capacity out.new }
{
    for handle in handles {
        append(out, b" ")?;
        handle.write_text(out)?;
    }
    Ok(())
}

#[inline]
fn write_handles(out: &mut Vec<u8>, handles: &HandleList) -> Result<(), OutOfMemory>
    // ensures ok { OnOk result (out.new.items ≡ out.old.items ++ handles_text handles.now) }
    // ensures kept { OnErr result (take (vec_len out.old) out.new.items ≡ out.old.items) }
    // ensures full { OnErr result (vec_capacity out.old
    //     < vec_len out.old + length (handles_text handles.now)) }
    // ensures capacity { vec_capacity out.old ≤ vec_capacity out.new }
{
    let Some((first, others)) = handles.as_slice().split_first() else {
        return Ok(());
    };
    first.write_text(out)?;
    append_spaced(out, others)
}

#[inline]
fn write_born(out: &mut Vec<u8>, handles: &HandleList) -> Result<(), OutOfMemory>
    // ensures ok { OnOk result (out.new.items ≡ out.old.items ++ born_text handles.now) }
    // ensures kept { OnErr result (take (vec_len out.old) out.new.items ≡ out.old.items) }
    // ensures full { OnErr result (vec_capacity out.old
    //     < vec_len out.old + length (born_text handles.now)) }
    // ensures capacity { vec_capacity out.old ≤ vec_capacity out.new }
{
    append(out, b"born")?;
    append_spaced(out, handles.as_slice())
}

#[inline]
fn write_freed(out: &mut Vec<u8>, handle: Handle, next: Option<Handle>) -> Result<(), OutOfMemory>
    // ensures ok { OnOk result (out.new.items ≡ out.old.items ++ freed_text handle next) }
    // ensures kept { OnErr result (take (vec_len out.old) out.new.items ≡ out.old.items) }
    // ensures full { OnErr result (vec_capacity out.old
    //     < vec_len out.old + length (freed_text handle next)) }
    // ensures capacity { vec_capacity out.old ≤ vec_capacity out.new }
{
    append(out, b"freed ")?;
    handle.write_text(out)?;
    let Some(next) = next else {
        return append(out, b" retired");
    };
    append(out, b" next ")?;
    next.write_text(out)
}

#[inline]
fn write_space(out: &mut Vec<u8>, wanted: u32, left: u32) -> Result<(), OutOfMemory>
    // ensures ok { OnOk result (out.new.items ≡ out.old.items ++ space_text wanted left) }
    // ensures kept { OnErr result (take (vec_len out.old) out.new.items ≡ out.old.items) }
    // ensures full { OnErr result (vec_capacity out.old
    //     < vec_len out.old + length (space_text wanted left)) }
    // ensures capacity { vec_capacity out.old ≤ vec_capacity out.new }
{
    append(out, b"space wanted ")?;
    append_number(out, wanted)?;
    append(out, b" left ")?;
    append_number(out, left)
}

#[inline(always)]
fn write_text(outcome: &Outcome, out: &mut Vec<u8>) -> Result<(), OutOfMemory>
    // ensures ok { OnOk result (out.new.items ≡ out.old.items ++ outcome_text outcome.now) }
    // ensures kept { OnErr result (take (vec_len out.old) out.new.items ≡ out.old.items) }
    // ensures full { OnErr result (vec_capacity out.old
    //     < vec_len out.old + length (outcome_text outcome.now)) }
    // ensures capacity { vec_capacity out.old ≤ vec_capacity out.new }
{
    match outcome {
        Outcome::Handle(handle) => handle.write_text(out),
        Outcome::NeedsFlush => append(out, b"needs flush"),
        Outcome::Freed { handle, next } => write_freed(out, *handle, *next),
        Outcome::NotAlive => append(out, b"not alive"),
        Outcome::Born(handles) => write_born(out, handles),
        Outcome::Open => append(out, b"open"),
        Outcome::Cursor(cursor) => {
            append(out, b"cursor ")?;
            append_number(out, *cursor)
        }
        Outcome::Handles(handles) => write_handles(out, handles),
        Outcome::Space { wanted, left } => write_space(out, *wanted, *left),
    }
}

#[inline]
fn write_fault(fault: ReplayFault, out: &mut Vec<u8>) -> Result<(), OutOfMemory>
    // requires { fault ≢ ReplayFault.Memory }
    // ensures ok { OnOk result (out.new.items ≡ out.old.items ++ replay_fault_text fault) }
    // ensures kept { OnErr result (take (vec_len out.old) out.new.items ≡ out.old.items) }
    // ensures full { OnErr result (vec_capacity out.old
    //     < vec_len out.old + length (replay_fault_text fault)) }
    // ensures capacity { vec_capacity out.old ≤ vec_capacity out.new }
{
    match fault {
        ReplayFault::Busy => append(out, b"busy"),
        ReplayFault::NotOpen => append(out, b"not open"),
        ReplayFault::AlreadyOpen => append(out, b"already open"),
        ReplayFault::NotStepped => append(out, b"not stepped"),
        ReplayFault::AlreadyStepped => append(out, b"already stepped"),
        ReplayFault::Quota { left } => {
            append(out, b"quota left ")?;
            append_number(out, left)
        }
        ReplayFault::Caller => append(out, b"caller"),
        ReplayFault::Memory => unreachable!(),
    }
}

#[inline(always)]
fn write_line(outcome: &Result<Outcome, ReplayFault>, out: &mut Vec<u8>) -> Result<(), OutOfMemory>
    // requires { outcome.now ≢ Err ReplayFault.Memory }
    // ensures ok { OnOk result (out.new.items ≡ out.old.items ++ line_of outcome.now) }
    // ensures kept { OnErr result (take (vec_len out.old) out.new.items ≡ out.old.items) }
    // ensures full { OnErr result (vec_capacity out.old
    //     < vec_len out.old + length (line_of outcome.now)) }
    // ensures capacity { vec_capacity out.old ≤ vec_capacity out.new }
{
    match outcome {
        Ok(outcome) => {
            out.reserve_fallibly(list_len(outcome))?;
            write_text(outcome, out)?;
        }
        Err(fault) => write_fault(*fault, out)?,
    }
    append(out, b"\n")
}

/// Appends the line of an event: what it gave, or why it was not applied. The outcome may not be
/// `Memory`: an event that ran out of memory has no line.
///
/// A line that lists handles may be long. It asks for all of its room before it writes a byte.
///
/// # Errors
///
/// `Memory` if there is no room for all of the line. `out` keeps its items then.
// Not inlined, the outcome goes through memory.
#[inline(always)]
pub(crate) fn write_outcome(
    outcome: &Result<Outcome, ReplayFault>,
    out: &mut Vec<u8>,
) -> Result<(), OutOfMemory>
    // requires { outcome.now ≢ Err ReplayFault.Memory }
    // ensures ok { OnOk result (out.new.items ≡ out.old.items ++ line_of outcome.now) }
    // ensures err { OnErr result (out.new.items ≡ out.old.items) }
    // ensures full { OnErr result (vec_capacity out.old
    //     < vec_len out.old + length (line_of outcome.now)) }
    // ensures capacity { vec_capacity out.old ≤ vec_capacity out.new }
{
    let len = out.len();
    let written = write_line(outcome, out);
    if written.is_err() {
        out.truncate(len);
    }
    written
}
