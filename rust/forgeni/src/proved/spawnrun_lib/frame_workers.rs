// Made of crates/spawnrun_lib/src/frame_workers.rt by rust/erase. It isn't edited by hand.

//! How many workers a frame has.

use crate::scripts::{Operation, System, Target};

/// To start a thread takes as long as to issue so many commands, or less.
const WORTH: usize = 4096;

/// How many of the workers a frame of these systems has, in a world of so many entities. It is one,
/// and another one for each [`WORTH`] of the commands that aren't those of the largest system. So a
/// frame that would end before a thread has started has one worker.
#[inline]
pub(super) fn frame_workers(living: usize, systems: &[System], workers: usize) -> usize
    // requires { 0 < workers }
    // ensures some { 0 < result }
    // ensures few { result ≤ workers }
{
    if workers == 1 {
        return 1;
    }
    let mut all: usize = 0;
    let mut most: usize = 0;
    for system in systems {
        let weight = system_weight(living, system.operations());
        all = all.saturating_add(weight);
        most = most.max(weight);
    }
    (all.saturating_sub(most) / WORTH).min(workers - 1) + 1
}

/// About how many commands these operations issue. Spawns don't count: all of them reserve through
/// one atomic word, so workers that spawn side by side are slower than one.
#[inline]
fn system_weight(living: usize, operations: &[Operation]) -> usize {
    let mut weight: usize = 0;
    for operation in operations {
        weight = weight.saturating_add(operation_weight(living, operation));
    }
    weight
}

/// An `each` counts as a fourth of the entities, whatever component it names. A name of many
/// entities counts where it is bound.
#[inline]
fn operation_weight(living: usize, operation: &Operation) -> usize {
    match operation {
        Operation::Spawn { .. } => 0,
        Operation::SpawnMany { count, binds, .. } => match binds {
            Some(_) => *count as usize,
            None => 0,
        },
        Operation::Insert { target, .. } => target_weight(living, *target),
        Operation::Remove { target, .. } => target_weight(living, *target),
        Operation::Despawn { target } => target_weight(living, *target),
    }
}

#[inline]
fn target_weight(living: usize, target: Target) -> usize {
    match target {
        Target::Each(_) => living / 4,
        _ => 1,
    }
}
