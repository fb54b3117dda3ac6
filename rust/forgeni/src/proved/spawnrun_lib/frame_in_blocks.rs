// Made of crates/spawnrun_lib/src/frame_in_blocks.rt by rust/erase. It isn't edited by hand.

//! One frame of a script whose systems get their handles from blocks.

use alloc::vec::Vec;
use crate::kit::vec::FallibleVec;
use crate::spawnrun_lib::script_system::{ScriptSystem, runnable};
use crate::in_blocks::Blocks;
use crate::handles::OutOfMemory;
use crate::running::{Issuers, NoGate, RunError, run_in_blocks};
use crate::scripts::System;
use crate::worlds::{Report, World};
use crate::kit::thread::Join;

/// When memory ran out in a frame in blocks, so that it didn't end.
#[derive(Clone, Copy, PartialEq, Eq)]
pub(super) enum Undone {
    /// Before any system ran, or after all had run.
    Memory,
    /// While the systems ran.
    Lost,
}

/// As many handles for each of the systems.
#[inline]
fn sizes(size: u32, systems: &[System]) -> Result<Vec<u32>, OutOfMemory>
    // ensures { IfOk result (λ sizes. sizes.items ≡ sizes_of size systems.now) }
{
    let mut sizes = Vec::with_capacity_fallibly(systems.len())?;
    for _system in systems {
        sizes.push_reserved(size);
    }
    Ok(sizes)
}

/// Why a frame didn't end whose systems were refused or broken off.
#[inline]
fn why_undone(error: RunError) -> Undone
    // ensures { result ≡ Undone.Lost → (first : Option Memory) × (error ≡ failed.Lost first) }
{
    match error {
        RunError::Lost(_) => Undone::Lost,
        _ => Undone::Memory,
    }
}

/// Runs the systems in blocks of these sizes, and the sync point.
#[inline]
fn run_dealt<R>(
    rt: &R,
    world: World,
    sizes: &[u32],
    systems: &[ScriptSystem<'_>],
    workers: usize,
) -> Result<(World, Report), Undone>
where
    R: Join + Sync,
    // requires flushed { world.allocator.asked ≡ 0 }
    // requires some { 0 < workers }
    // requires few { workers ≤ 64 }
    // requires systems { length systems.now ≤ most_systems }
    // ensures flushed { IfOk result (λ ended. ended.0.allocator.asked ≡ 0) }
    // ensures went { IfOk result (λ ended. (queues : List (List Command))
    //     × EndsInBlocks sizes.now systems.now world queues ended.0
    //     ended.1.born.items ended.1.faults.items) }
    // ensures lost { IsErrOf result Undone.Lost
    //     → StopsInBlocks sizes.now systems.now workers world }
{
    let Ok((dealt, reservers)) = world.deal_blocks::<Blocks>(sizes) else {
        return Err(Undone::Memory);
    };
    let issuers = Issuers {
        view: dealt.view(),
        systems,
        gate: &NoGate,
    };
    let filled = run_in_blocks(rt, dealt.dealer(), reservers, &issuers, workers);
    let (queues, reservers) = match filled {
        Ok(filled) => filled,
        Err(refused) => {
            let (_, error) = refused.into_parts();
            return Err(why_undone(error));
        }
    };
    let (blocks, rest) = dealt.into_parts();
    let Ok(mut world) = rest.settle(blocks.close(reservers)) else {
        return Err(Undone::Memory);
    };
    match world.apply(&queues) {
        Ok(report) => Ok((world, report)),
        Err(_) => Err(Undone::Memory),
    }
}

/// Runs a frame of these systems on that many workers, each system with a block of that many
/// handles, and its sync point.
///
/// # Errors
///
/// [`Undone`] if memory ran out. The world is dropped then.
#[inline]
pub(super) fn run<R>(
    rt: &R,
    world: World,
    size: u32,
    systems: &[System],
    workers: usize,
) -> Result<(World, Report), Undone>
where
    R: Join + Sync,
    // requires flushed { world.allocator.asked ≡ 0 }
    // requires some { 0 < workers }
    // requires few { workers ≤ 64 }
    // requires systems { length systems.now ≤ most_systems }
    // ensures flushed { IfOk result (λ ended. ended.0.allocator.asked ≡ 0) }
    // ensures went { IfOk result (λ ended. (queues : List (List Command))
    //     × EndsInBlocks (sizes_of size systems.now) systems.now world queues ended.0
    //     ended.1.born.items ended.1.faults.items) }

    // That many workers ran, so each has run a system if one is left that no worker had room for.
    // ensures lost { IsErrOf result Undone.Lost
    //     → StopsInBlocks (sizes_of size systems.now) systems.now workers world }
{
    let Ok(runnable) = runnable(systems) else {
        return Err(Undone::Memory);
    };
    let Ok(sizes) = sizes(size, systems) else {
        return Err(Undone::Memory);
    };
    run_dealt(rt, world, &sizes, &runnable, workers)
}
