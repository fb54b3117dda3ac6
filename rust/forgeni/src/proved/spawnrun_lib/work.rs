// Made of crates/spawnrun_lib/src/work.rt by rust/erase. It isn't edited by hand.

//! The work on an input: all of it is read, something is made of it, and that is written.

use alloc::vec::Vec;
use crate::kit::vec::FallibleVec;
use crate::spawnrun_lib::output::{refuse, write_text};
use crate::spawnrun_lib::product::{INPUT_LIMIT, Product, Refusal};
use crate::spawnrun_lib::progress::Progress;
use crate::spawnrun_lib::replaying::replay;
use crate::spawnrun_lib::running::{run, run_in_blocks};
use crate::spawnrun_lib::status::Status;
use crate::spawnrun_lib::task::Task;
use crate::spawnrun_lib::wants::size_wants;
use crate::cli::{InputFault, Sink, Source, read_all};
use crate::handles::OutOfMemory;
use crate::scripts::found::Found;
use crate::kit::thread::Join;

/// Reads all of the input, does the task with it, and writes the result. A task has 1 to 64
/// workers.
///
/// Nothing is made before the whole input is read, and nothing is written before all of the output
/// is made. An input of more than 67,108,864 bytes is refused by one line, and so is one that is no
/// schedule or no script. Of a longer input it takes just one byte more than the limit.
///
/// After `Memory`, or a failure of the input, the output is as it was. `Device` is one failed call
/// of one of the two devices.
///
/// Only a refused input writes to the error stream: what the input has to be, and what was found
/// instead. If the error stream fails, nothing else changes.
#[inline]
pub(crate) fn do_task<R, I: Source, O: Sink, E: Sink, P: Progress>(
    rt: &R,
    task: Task,
    input: &mut I,
    output: &mut O,
    errors: &mut E,
    progress: &mut P,
) -> Status
where
    R: Join + Sync,
    // requires { CanDo task }
    // ensures done { result ≡ Status.Done → HasDone (Gives task)
    //     (I.remaining input.old) (O.written output.old) (O.written output.new) }
    // ensures refused { result ≡ Status.Refused → HasRefused (Fails task)
    //     (I.remaining input.old) (O.written output.old) (O.written output.new) }
    // ensures memory { result ≡ Status.Memory → output.new ≡ output.old }

    // The failures of the two devices.
    // ensures device { result ≡ Status.Device → OneFails
    //     (I.failures input.old) (I.failures input.new)
    //     (O.failures output.old) (O.failures output.new) }
    // ensures input_unfailed { result ≢ Status.Device → I.failures input.new ≡ I.failures input.old }
    // ensures output_unfailed { result ≢ Status.Device
    //     → O.failures output.new ≡ O.failures output.old }
    // ensures unread { I.failures input.new ≢ I.failures input.old → output.new ≡ output.old }

    // What the error stream tells.
    // ensures quiet { result ≢ Status.Refused → errors.new ≡ errors.old }
    // ensures advised { result ≡ Status.Refused → E.failures errors.new ≡ E.failures errors.old
    //     → HasAdvised (Fails task)
    //     (I.remaining input.old) (E.written errors.old) (E.written errors.new) }

    // What is taken of an input that didn't fail: all of it, or one byte more than the limit.
    // ensures reads { I.failures input.new ≡ I.failures input.old → result ≢ Status.Memory
    //     → IfSome (I.remaining input.old) (λ all.
    //     Takes (I.remaining input.old) (I.remaining input.new)
    //     (min (length all) (input_limit + 1))) }
    // ensures stops { I.failures input.new ≡ I.failures input.old
    //     → TakesAtMost (I.remaining input.old) (I.remaining input.new) (input_limit + 1) }
{
    match product_of(rt, task, input, progress) {
        Ok(Product::Output(text)) => write_text(output, &text, Status::Done),
        Ok(Product::Refusal(refusal)) => refuse(output, errors, &refusal),
        Err(status) => status,
    }
}

// Reads all of the input, and does the task with it. If that gives nothing, it returns the status
// with which the work ends.
#[inline]
fn product_of<R, I: Source, P: Progress>(
    rt: &R,
    task: Task,
    input: &mut I,
    progress: &mut P,
) -> Result<Product, Status>
where
    R: Join + Sync,
    // requires { CanDo task }
    // ensures gives { IfOk result (λ product. IfSome (I.remaining input.old) (λ all.
    //     IsProductOf (Accepts (Gives task)) (Refuses (Fails task)) all product)) }
    // ensures ends { IfErr result (λ status. (status ≡ Status.Memory) ⊎ (status ≡ Status.Device)) }
    // ensures failed { result ≡ Err Status.Device
    //     → I.failures input.new ≡ I.failures input.old + 1 }
    // ensures unfailed { result ≢ Err Status.Device → I.failures input.new ≡ I.failures input.old }
    // ensures reads { result ≢ Err Status.Memory → result ≢ Err Status.Device
    //     → IfSome (I.remaining input.old) (λ all.
    //     Takes (I.remaining input.old) (I.remaining input.new)
    //     (min (length all) (input_limit + 1))) }
    // ensures stops { result ≢ Err Status.Device
    //     → TakesAtMost (I.remaining input.old) (I.remaining input.new) (input_limit + 1) }
{
    match read_all(input, INPUT_LIMIT) {
        Ok(bytes) => Ok(make(rt, task, bytes, progress)?),
        Err(InputFault::TooLong) => Ok(Product::Refusal(too_long()?)),
        Err(InputFault::Memory) => Err(Status::Memory),
        Err(InputFault::Device) => Err(Status::Device),
    }
}

// What the task makes of an input, if there is memory for it.
#[inline]
fn make<R, P: Progress>(
    rt: &R,
    task: Task,
    input: Vec<u8>,
    progress: &mut P,
) -> Result<Product, OutOfMemory>
where
    R: Join + Sync,
    // requires { CanDo task }
    // ensures { IfOk result (IsProductOf (Gives task) (Fails task) input.items) }
{
    match task {
        Task::Replay(limits) => replay(input, limits, progress),
        Task::Run { workers, show } => run(rt, input, workers, show, progress),
        Task::RunInBlocks {
            size,
            workers,
            show,
        } => run_in_blocks(rt, input, size, workers, show, progress),
    }
}

// What is said of an input that is too long.
#[inline]
fn too_long() -> Result<Refusal, OutOfMemory>
    // ensures { IfOk result (λ refusal. refusal_of refusal
    //     ≡ record { line = size_line; wants = size_wants; found = [] }) }
{
    Ok(Refusal {
        line: Vec::from_slice_fallibly(b"refused size\n")?,
        wants: size_wants(),
        found: Found::new(),
    })
}
