// Made of crates/spawnrun_lib/src/running.rt by rust/erase. It isn't edited by hand.

//! The run of a script: bytes in, bytes out.

use alloc::vec::Vec;
use crate::spawnrun_lib::product::{Product, Refusal};
use crate::spawnrun_lib::progress::Progress;
use crate::spawnrun_lib::script_run::run_script;
use crate::spawnrun_lib::script_run_in_blocks::run_script_in_blocks;
use crate::spawnrun_lib::show::Show;
use crate::spawnrun_lib::wants::script_wants;
use crate::handles::OutOfMemory;
use crate::scripts::found::script_found;
use crate::scripts::{ReadFault, read_script, write_refusal};
use crate::kit::thread::Join;

/// Reads the script that the input means and runs it over an empty world, on 1 to 64 workers, and
/// gives its report, or says why the input means no script. No frame runs before the whole input is
/// read.
///
/// # Errors
///
/// [`OutOfMemory`], if there isn't enough memory for it.
#[inline]
pub(super) fn run<R, P: Progress>(
    rt: &R,
    input: Vec<u8>,
    workers: usize,
    show: Show,
    progress: &mut P,
) -> Result<Product, OutOfMemory>
where
    R: Join + Sync,
    // requires some { 0 < workers }
    // requires few { workers ≤ 64 }
    // ensures { IfOk result (IsProductOf (Runs workers show) MeansNone input.items) }
{
    match read_script(rt, &input, workers) {
        Ok(script) => {
            // The text is given back before the frames run.
            drop(input);
            let report = run_script(rt, script, workers, show, progress)?;
            Ok(Product::Output(report))
        }
        Err(fault) => Ok(Product::Refusal(no_script(&input, fault)?)),
    }
}

/// The same with a block of `size` handles for each system of a frame. The report doesn't depend on
/// the number of workers.
///
/// # Errors
///
/// [`OutOfMemory`], if there isn't enough memory for it.
#[inline]
pub(super) fn run_in_blocks<R, P: Progress>(
    rt: &R,
    input: Vec<u8>,
    size: u32,
    workers: usize,
    show: Show,
    progress: &mut P,
) -> Result<Product, OutOfMemory>
where
    R: Join + Sync,
    // requires some { 0 < workers }
    // requires few { workers ≤ 64 }
    // ensures { IfOk result (IsProductOf (RunsInBlocks size show) MeansNone input.items) }
{
    match read_script(rt, &input, workers) {
        Ok(script) => {
            // The text is given back before the frames run.
            drop(input);
            let report = run_script_in_blocks(rt, script, size, workers, show, progress)?;
            Ok(Product::Output(report))
        }
        Err(fault) => Ok(Product::Refusal(no_script(&input, fault)?)),
    }
}

// What is said of a text that is no script, for this fault that reading it has found.
// It is `Memory` also if that is the fault: want of memory is no refusal.
#[inline]
fn no_script(input: &[u8], fault: ReadFault) -> Result<Refusal, OutOfMemory>
    // requires { ReadsAs (Err fault) (script_of_text input.now) }
    // ensures { IfOk result (λ refusal. MeansNone input.now (refusal_of refusal)) }
{
    Ok(Refusal {
        line: refusal_line(fault)?,
        wants: script_wants(fault),
        found: script_found(input, fault),
    })
}

// The line that refuses a text that is no script. Want of memory is no refusal.
#[inline]
fn refusal_line(fault: ReadFault) -> Result<Vec<u8>, OutOfMemory>
    // ensures refused { OnOk result (fault ≢ ReadFault.Memory) }
    // ensures line { IfOk result (λ line. line.items ≡ refusal_line fault) }
{
    if fault == ReadFault::Memory {
        return Err(OutOfMemory);
    }
    let mut line = Vec::new();
    write_refusal(fault, &mut line)?;
    Ok(line)
}
