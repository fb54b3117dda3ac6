// Made of crates/spawnrun_lib/src/script_run_in_blocks.rt by rust/erase. It isn't edited by hand.

//! The run of a whole script whose systems get their handles from blocks.

use alloc::vec::Vec;
use crate::spawnrun_lib::frame_in_blocks;
use crate::spawnrun_lib::frame_text::write_frame;
use crate::spawnrun_lib::frame_workers::frame_workers;
use crate::spawnrun_lib::progress::Progress;
use crate::spawnrun_lib::show::Show;
use crate::spawnrun_lib::text::Text;
use crate::spawnrun_lib::world_parts::with_world;
use crate::handles::OutOfMemory;
use crate::scripts::{Frame, Script};
use crate::worlds::World;
use crate::kit::thread::Join;

/// Runs the frames one after the other, and appends the text of each. The memory of a frame is
/// freed before the next one runs.
#[inline]
fn run_frames<R, P: Progress>(
    rt: &R,
    world: World,
    frames: Vec<Frame>,
    size: u32,
    workers: usize,
    show: Show,
    progress: &mut P,
) -> Result<(World, Vec<u8>), OutOfMemory>
where
    R: Join + Sync,
    // requires flushed { world.allocator.asked ≡ 0 }
    // requires systems { AreFew frames.items }
    // requires some { 0 < workers }
    // requires few { workers ≤ 64 }
    // ensures went { IfOk result (λ ran. (names : List (List ℕ))
    //     → HaveGoneInBlocks names size show world ran.0 frames.items ran.1.items) }
{
    let count = frames.len();
    let mut world = world;
    let mut text = Vec::new();
    let mut number = 0;
    for current in frames {
        progress.tell(number, count);
        let few = frame_workers(world.len(), current.systems(), workers);
        let went = frame_in_blocks::run(rt, world, size, current.systems(), few);
        let Ok((after, report)) = went else {
            return Err(OutOfMemory);
        };
        world = after;
        write_frame(number as u64, &report, show, &mut text)?;
        number += 1;
    }
    Ok((world, text))
}

/// Runs the frames over a world that begins empty, and appends the text of the world that they
/// leave.
#[inline]
fn report<R, P: Progress>(
    rt: &R,
    script: Script,
    size: u32,
    workers: usize,
    show: Show,
    progress: &mut P,
) -> Result<Text, OutOfMemory>
where
    R: Join + Sync,
    // requires ranges { IsScript script }
    // requires some { 0 < workers }
    // requires few { workers ≤ 64 }
    // ensures { IfOk result (λ text. IsTextInBlocks script size show text) }
{
    let (limits, components, frames) = script.into_parts();
    let world = World::new(limits);
    let (world, text) = run_frames(rt, world, frames, size, workers, show, progress)?;
    with_world(rt, text, &world, &components, show, workers)
}

/// Runs a script over a world that begins empty, on 1 to 64 workers, and returns the report: the
/// text of each frame and of the world that the last one leaves. The script is one that
/// `ent_script` has read. One worker runs a frame of few commands, and writes the lines of few
/// entities.
///
/// In each frame each system has a block of `size` handles of its own, fewer where the slots end. A
/// spawn of more than is left of the block is refused, and a later one of fewer is served. So the
/// handles of a system don't depend on the others, and the report is the same in each run, handles
/// included, for every number of workers.
///
/// Before each frame there is room for all handles of the blocks, so memory grows with the size and
/// the number of systems. Before each frame `progress` gets how many are done; `()` ignores it.
///
/// # Errors
///
/// `Memory` if memory ran out at any point of the run.
#[inline]
pub(crate) fn run_script_in_blocks<R, P: Progress>(
    rt: &R,
    script: Script,
    size: u32,
    workers: usize,
    show: Show,
    progress: &mut P,
) -> Result<Text, OutOfMemory>
where
    R: Join + Sync,
    // requires ranges { IsScript script }
    // requires some { 0 < workers }
    // requires few { workers ≤ 64 }
    // ensures text { IfOk result (λ text. IsTextInBlocks script size show text) }

    // The script and the size have one text: this one. It is a law of the definition.
    // ensures only { IfOk result (λ text. (other : List ℕ)
    //     → IsTextInBlocks script size show other → text ≡ other) }
{
    let report = report(rt, script, size, workers, show, progress);
    progress.end();
    report
}
