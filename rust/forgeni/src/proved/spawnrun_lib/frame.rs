// Made of crates/spawnrun_lib/src/frame.rt by rust/erase. It isn't edited by hand.

//! One frame of a script.

use crate::spawnrun_lib::frame_workers::frame_workers;
use crate::spawnrun_lib::script_system::runnable;
use crate::handles::OutOfMemory;
use crate::running::{NoGate, run_frame};
use crate::scripts::System;
use crate::worlds::{Report, World};
use crate::kit::thread::Join;

/// Runs a frame of these systems on that many workers, and its sync point. If the frame has few
/// commands, some of the workers have nothing to do, and no thread starts for them.
#[inline]
pub(super) fn run<R>(
    rt: &R,
    world: &mut World,
    systems: &[System],
    workers: usize,
) -> Result<Report, OutOfMemory>
where
    R: Join + Sync,
    // requires flushed { world.old.allocator.asked ≡ 0 }
    // requires systems { length systems.now ≤ most_systems }
    // requires some { 0 < workers }
    // requires few { workers ≤ 64 }
    // ensures flushed { OnOk result (world.new.allocator.asked ≡ 0) }
    // ensures went { IfOk result (λ report. (queues : List (List Command))
    //     × Ends MayIssue systems.now workers world.old queues world.new
    //     report.born.items report.faults.items) }
{
    let runnable = runnable(systems)?;
    let workers = frame_workers(world.len(), systems, workers);
    match run_frame(rt, world, &runnable, workers, &NoGate) {
        Ok(report) => Ok(report.sync),
        Err(_) => Err(OutOfMemory),
    }
}
