// Made of crates/spawnrun_lib/src/script_run.rt by rust/erase. It isn't edited by hand.

//! The run of a whole script.

use alloc::vec::Vec;
use crate::spawnrun_lib::frame;
use crate::spawnrun_lib::frame_text::write_frame;
use crate::spawnrun_lib::progress::Progress;
use crate::spawnrun_lib::show::Show;
use crate::spawnrun_lib::text::Text;
use crate::spawnrun_lib::world_parts::with_world;
use crate::handles::OutOfMemory;
use crate::scripts::{Frame, Script};
use crate::worlds::World;
use crate::kit::thread::Join;

/// Runs the frames one after the other, and appends the text of each. The memory of a frame is
/// freed before the next one runs.
#[inline]
fn run_frames<R, P: Progress>(
    rt: &R,
    world: &mut World,
    frames: Vec<Frame>,
    workers: usize,
    show: Show,
    progress: &mut P,
) -> Result<Vec<u8>, OutOfMemory>
where
    R: Join + Sync,
    // requires flushed { world.old.allocator.asked ≡ 0 }
    // requires systems { AreFew frames.items }
    // requires some { 0 < workers }
    // requires few { workers ≤ 64 }
    // ensures went { IfOk result (λ text. HaveGone frames.items workers show world.old world.new
    //     text.items) }
{
    let count = frames.len();
    let mut text = Vec::new();
    let mut number = 0;
    for current in frames {
        progress.tell(number, count);
        let report = frame::run(rt, world, current.systems(), workers)?;
        write_frame(number as u64, &report, show, &mut text)?;
        number += 1;
    }
    Ok(text)
}

/// Runs the frames over a world that begins empty, and appends the text of the world that they
/// leave.
#[inline]
fn report<R, P: Progress>(
    rt: &R,
    script: Script,
    workers: usize,
    show: Show,
    progress: &mut P,
) -> Result<Text, OutOfMemory>
where
    R: Join + Sync,
    // requires ranges { IsScript script }
    // requires some { 0 < workers }
    // requires few { workers ≤ 64 }
    // ensures { IfOk result (λ text. IsReport script workers show text) }
{
    let (limits, components, frames) = script.into_parts();
    let mut world = World::new(limits);
    let text = run_frames(rt, &mut world, frames, workers, show, progress)?;
    with_world(rt, text, &world, &components, show, workers)
}

/// Runs a script over a world that begins empty, on 1 to 64 workers, and returns the report: the
/// text of each frame and of the world that the last one leaves. The script is one that
/// `ent_script` has read. One worker runs a frame of few commands, and writes the lines of few
/// entities.
///
/// With several workers, which entity gets which handle may differ from run to run. If the script
/// names no handle and no request is refused, the text by births is the same in each run. No
/// request is refused if the script spawns no more entities in all than it has slots. What a frame
/// has done is kept as text alone, and its operations are freed after it has run, so beside the
/// script memory grows with the world, the text and the longest frame.
///
/// Before each frame `progress` gets how many are done; `()` ignores it.
///
/// # Errors
///
/// `Memory` if memory ran out at any point of the run.
#[inline]
pub(crate) fn run_script<R, P: Progress>(
    rt: &R,
    script: Script,
    workers: usize,
    show: Show,
    progress: &mut P,
) -> Result<Text, OutOfMemory>
where
    R: Join + Sync,
    // requires ranges { IsScript script }
    // requires some { 0 < workers }
    // requires few { workers ≤ 64 }
    // ensures report { IfOk result (λ text. IsReport script workers show text) }

    // The others are laws of the definitions: they follow from `report` and `ranges`, so a body
    // that meets `report` meets them. One worker has no other report.
    // ensures only { workers ≡ 1 → IfOk result (λ text. (other : List ℕ)
    //     → IsReport script workers show other → text ≡ other) }

    // However the frames went, and whatever the limits are.
    // ensures given_once { IfOk result (λ text. (executions : List Execution)
    //     → IsReportOf script workers show executions text
    //     → AreGivenOnce (handles_in_run executions)) }

    // A script that names no handle has one text by births, however many workers run it, if no line
    // of the text tells of a refused request.
    // ensures same { show ≡ Show.Births → IsWithoutHandles script → IfOk result (λ text.
    //     TellsNoRefusal text → text ≡ text_alone script) }

    // And in any case, if all its operations request no more handles than it has slots: then no
    // request is refused.
    // ensures enough { show ≡ Show.Births → IsWithoutHandles script → HasEnoughSlots script
    //     → IfOk result (λ text. text ≡ text_alone script) }
{
    let report = report(rt, script, workers, show, progress);
    progress.end();
    report
}
