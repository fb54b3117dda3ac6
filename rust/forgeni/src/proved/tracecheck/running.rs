// Made of crates/tracecheck/src/running.rt by rust/erase. It isn't edited by hand.

//! The check of a trace: bytes in, a verdict out.

use alloc::vec::Vec;
use crate::tracecheck::checking::{Checking, End};
use crate::tracecheck::command_line::Beginning;
use crate::tracecheck::image::{Unread, read_entities, refused_image_text};
use crate::tracecheck::lines::{feed, finish};
use crate::tracecheck::progress::tell;
use crate::tracecheck::status::Status;
use crate::tracecheck::verdict::Verdict;
use crate::cli::{Failed, Sink, Source};
use crate::allocator::{Entities, ImageFault};

// How many bytes one call of the source may bring.
const PIECE: usize = 16_384;

// Takes the lines of the input one after the other, and says what is to be said of the trace.
#[inline]
fn check<I: Source, T: Sink>(
    input: &mut I,
    terminal: &mut T,
    tells: bool,
    entities: Entities,
) -> Result<End, Failed>
    // ensures ends { IfOk result (λ end. IfSome (I.remaining input.old) (λ text.
    //     MayEnd entities.allocator (lines_of text) end)) }
    // ensures taken { OnOk result (I.failures input.new ≡ I.failures input.old) }
    // ensures failed { OnErr result (I.failures input.new ≡ I.failures input.old + 1) }
    // ensures untold { tells ≡ false → terminal.new ≡ terminal.old }
{
    let mut checking = Checking::new(entities);
    let mut pending = Vec::new();
    let mut piece = [0; PIECE];
    let mut told = 0;
    for _ in 0..u64::MAX {
        let count = input.take(&mut piece)?;
        if count == 0 {
            return Ok(finish(checking, &pending));
        }
        match feed(checking, &mut pending, &piece[..count]) {
            Ok(next) => checking = next,
            Err(end) => return Ok(end),
        }
        told = tell(terminal, tells, told, checking.lines());
    }
    // No program runs long enough to come here.
    Ok(End::Memory)
}

/// Checks the trace that the input gives, which begins in the state of this allocator, and writes
/// the verdict: one line, or two for a difference.
///
/// It keeps the checker, the line that has no end yet, and one piece of the input. So an input may
/// have any length. It stops at the first line that isn't one of a trace, or that differs.
///
/// After `Memory`, or a failure of the input, the output is as it was. `Device` is one failed call
/// of one of the two devices. If `tells`, it writes to the terminal after each million lines how
/// many were read. If not, it writes nothing there.
///
/// <details><summary>Contract</summary>
///
/// <code style="display: block; tab-size: 4; white-space: pre-wrap">// In the words of [contracts](crate::contracts):
/// // What was found is so, and is what was written.
/// ensures said { result ≢ Status.Memory → result ≢ Status.Device
/// &#9;→ Writes (IsSaidOf entities.allocator result)
/// &#9;(I.remaining input.old) (O.written output.old) (O.written output.new) }
/// ensures memory { result ≡ Status.Memory → output.new ≡ output.old }
/// &#32;
/// // The failures of the two devices.
/// ensures device { result ≡ Status.Device → OneFails
/// &#9;(I.failures input.old) (I.failures input.new)
/// &#9;(O.failures output.old) (O.failures output.new) }
/// ensures input_unfailed { result ≢ Status.Device → I.failures input.new ≡ I.failures input.old }
/// ensures output_unfailed { result ≢ Status.Device
/// &#9;→ O.failures output.new ≡ O.failures output.old }
/// ensures unread { I.failures input.new ≢ I.failures input.old → output.new ≡ output.old }
/// ensures untold { tells ≡ false → terminal.new ≡ terminal.old }
/// </code>
///
/// </details>
#[inline]
pub fn check_trace<I: Source, O: Sink, T: Sink>(
    input: &mut I,
    output: &mut O,
    terminal: &mut T,
    tells: bool,
    entities: Entities,
) -> Status {
    match check(input, terminal, tells, entities) {
        Ok(End::Verdict(verdict)) => say(output, &verdict),
        Ok(End::Memory) => Status::Memory,
        Err(Failed) => Status::Device,
    }
}

// Checks the trace that the input gives, which begins with the allocator whose image the other
// input gives. The image is read first. If it is none, this writes one line that names its first
// fault, and the trace isn't read.
//
// After `Memory`, or a failure of an input, the output is as it was. `Device` is one failed call of
// one of the three devices. It writes to the terminal as `check_trace`.
#[inline]
fn check_from<M: Source, I: Source, O: Sink, T: Sink>(
    image: &mut M,
    input: &mut I,
    output: &mut O,
    terminal: &mut T,
    tells: bool,
) -> Status
    // What was found is so, and is what was written.
    // ensures said { result ≢ Status.Memory → result ≢ Status.Device
    //     → IfSome (M.remaining image.old) (λ bytes. HasSaidFrom bytes result (input.new ≡ input.old)
    //     (I.remaining input.old) (O.written output.old) (O.written output.new)) }
    // ensures memory { result ≡ Status.Memory → output.new ≡ output.old }

    // The failures of the three devices.
    // ensures device { result ≡ Status.Device → M.failures image.new ≡ M.failures image.old → OneFails
    //     (I.failures input.old) (I.failures input.new)
    //     (O.failures output.old) (O.failures output.new) }
    // ensures image_unfailed { result ≢ Status.Device → M.failures image.new ≡ M.failures image.old }
    // ensures input_unfailed { result ≢ Status.Device → I.failures input.new ≡ I.failures input.old }
    // ensures output_unfailed { result ≢ Status.Device
    //     → O.failures output.new ≡ O.failures output.old }
    // ensures image_failed { M.failures image.new ≢ M.failures image.old
    //     → (M.failures image.new ≡ M.failures image.old + 1) × (input.new ≡ input.old)
    //     × (output.new ≡ output.old) }
    // ensures unread { I.failures input.new ≢ I.failures input.old → output.new ≡ output.old }
    // ensures untold { tells ≡ false → terminal.new ≡ terminal.old }
{
    match read_entities(image) {
        Ok(entities) => check_trace(input, output, terminal, tells, entities),
        Err(Unread::Fault(fault)) => refuse_image(output, fault),
        Err(Unread::Memory) => Status::Memory,
        Err(Unread::Device) => Status::Device,
    }
}

/// Checks the trace that the input gives, which begins so: as `check_trace`, with an allocator of
/// these limits that has given nothing, or as `check_from`. Without an image the image's device
/// isn't used.
///
/// <details><summary>Contract</summary>
///
/// <code style="display: block; tab-size: 4; white-space: pre-wrap">// In the words of [contracts](crate::contracts):
/// ensures said { result ≢ Status.Memory → result ≢ Status.Device
/// &#9;→ HasSaidOf begin result (input.new ≡ input.old) (M.remaining image.old)
/// &#9;(I.remaining input.old) (O.written output.old) (O.written output.new) }
/// ensures memory { result ≡ Status.Memory → output.new ≡ output.old }
/// ensures no_image { begin ≢ Beginning.Image → image.new ≡ image.old }
/// &#32;
/// // The failures of the three devices.
/// ensures device { result ≡ Status.Device → M.failures image.new ≡ M.failures image.old → OneFails
/// &#9;(I.failures input.old) (I.failures input.new)
/// &#9;(O.failures output.old) (O.failures output.new) }
/// ensures image_unfailed { result ≢ Status.Device → M.failures image.new ≡ M.failures image.old }
/// ensures input_unfailed { result ≢ Status.Device → I.failures input.new ≡ I.failures input.old }
/// ensures output_unfailed { result ≢ Status.Device
/// &#9;→ O.failures output.new ≡ O.failures output.old }
/// ensures image_failed { M.failures image.new ≢ M.failures image.old
/// &#9;→ (M.failures image.new ≡ M.failures image.old + 1) × (input.new ≡ input.old)
/// &#9;× (output.new ≡ output.old) }
/// ensures unread { I.failures input.new ≢ I.failures input.old → output.new ≡ output.old }
/// ensures untold { tells ≡ false → terminal.new ≡ terminal.old }
/// </code>
///
/// </details>
#[inline]
pub fn check_as<M: Source, I: Source, O: Sink, T: Sink>(
    begin: Beginning,
    image: &mut M,
    input: &mut I,
    output: &mut O,
    terminal: &mut T,
    tells: bool,
) -> Status {
    match begin {
        Beginning::Limits(limits) => {
            let entities = Entities::with_exact_limits(limits);
            check_trace(input, output, terminal, tells, entities)
        }
        Beginning::Image => check_from(image, input, output, terminal, tells),
    }
}

// Writes why there is no allocator to begin with.
#[inline]
fn refuse_image<O: Sink>(output: &mut O, fault: ImageFault) -> Status
    // ensures ends { (result ≡ Status.Refused) ⊎ (result ≡ Status.Memory) ⊎ (result ≡ Status.Device) }
    // ensures written { result ≡ Status.Refused
    //     → Appends (O.written output.old) (O.written output.new) (refused_image_text fault) }
    // ensures memory { result ≡ Status.Memory → output.new ≡ output.old }
    // ensures failed { result ≡ Status.Device → O.failures output.new ≡ O.failures output.old + 1 }
    // ensures unfailed { result ≢ Status.Device → O.failures output.new ≡ O.failures output.old }
{
    let Ok(text) = refused_image_text(fault) else {
        return Status::Memory;
    };
    match output.put(&text) {
        Ok(()) => Status::Refused,
        Err(Failed) => Status::Device,
    }
}

#[inline]
fn status_of(verdict: &Verdict) -> Status
    // ensures { result ≡ status_of verdict.now }
{
    match verdict {
        Verdict::Agrees { .. } => Status::Agrees,
        Verdict::Differs(_) => Status::Differs,
        Verdict::Refused { .. } => Status::Refused,
    }
}

// Writes the text that says it.
#[inline]
fn say<O: Sink>(output: &mut O, verdict: &Verdict) -> Status
    // ensures ends { (result ≡ status_of verdict.now) ⊎ (result ≡ Status.Memory)
    //     ⊎ (result ≡ Status.Device) }
    // ensures written { result ≡ status_of verdict.now
    //     → Appends (O.written output.old) (O.written output.new) (verdict_text verdict.now) }
    // ensures memory { result ≡ Status.Memory → output.new ≡ output.old }
    // ensures failed { result ≡ Status.Device → O.failures output.new ≡ O.failures output.old + 1 }
    // ensures unfailed { result ≢ Status.Device → O.failures output.new ≡ O.failures output.old }
{
    let Ok(text) = verdict.text() else {
        return Status::Memory;
    };
    match output.put(&text) {
        Ok(()) => status_of(verdict),
        Err(Failed) => Status::Device,
    }
}
