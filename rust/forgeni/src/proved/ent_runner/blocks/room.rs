// Made of crates/ent_runner/src/blocks/room.rt by rust/erase. It isn't edited by hand.

//! What systems in blocks need before they run: a reserver each, a crew, and room for what they
//! hand back.

use alloc::vec::Vec;
use crate::kit::vec::FallibleVec;
use crate::running::crew::Crew;
use crate::running::run_error::RunError;
use crate::in_blocks::BlockReserver;
use crate::handles::OutOfMemory;

/// How many workers there may be.
pub(super) const WORKERS: usize = 64;

/// How many systems there may be.
const SYSTEMS: usize = 65_536;

/// A crew whose jobs hand back an `O` each, and a reserver, and a list for all of either.
pub(super) struct Room<O, E> {
    pub(super) crew: Crew<(O, BlockReserver), E>,
    pub(super) outputs: Vec<O>,
    pub(super) reservers: Vec<BlockReserver>,
}

/// Whether that many systems may run on that many workers, with that many reservers.
///
/// # Errors
///
/// The first of these that holds: [`RunError::Workers`], [`RunError::Systems`],
/// [`RunError::Reservers`].
///
/// <details><summary>Contract</summary>
///
/// <code style="display: block; tab-size: 4; white-space: pre-wrap">// In the words of [contracts](crate::contracts):
/// ensures some { [OnOk](crate::contracts::logic#OnOk) result (0 \< workers) }
/// ensures few { [OnOk](crate::contracts::logic#OnOk) result (workers ≤ 64) }
/// ensures within { [OnOk](crate::contracts::logic#OnOk) result (systems ≤ 2 ^ 16) }
/// ensures ready { [OnOk](crate::contracts::logic#OnOk) result (reservers ≡ systems) }
/// ensures of_workers { [IsErrOf](crate::contracts::logic#IsErrOf) result failed.Workers ↔ ((workers ≡ 0) ⊎ (64 \< workers)) }
/// ensures of_systems { [IsErrOf](crate::contracts::logic#IsErrOf) result failed.Systems
/// &#9;↔ ((0 \< workers) × (workers ≤ 64) × (2 ^ 16 \< systems)) }
/// ensures of_reservers { [IsErrOf](crate::contracts::logic#IsErrOf) result failed.Reservers
/// &#9;↔ ((0 \< workers) × (workers ≤ 64) × (systems ≤ 2 ^ 16)
/// &#9;× (reservers ≢ systems)) }
/// ensures not_other { ¬ ([IsErrOf](crate::contracts::logic#IsErrOf) result failed.OtherPhase) }
/// ensures not_memory { ¬ ([IsErrOf](crate::contracts::logic#IsErrOf) result failed.Memory) }
/// ensures not_lost { [IfErr](crate::contracts::logic#IfErr) result ([IfLost](crate::contracts::ent_runner::run_errors#IfLost) (λ \_. ⊥)) }
/// ensures of_blocks { [IfErr](crate::contracts::logic#IfErr) result [IsOfBlocks](crate::contracts::ent_runner::run_errors#IsOfBlocks) }
/// </code>
///
/// </details>
#[inline]
pub fn check_run<E>(reservers: usize, systems: usize, workers: usize) -> Result<(), RunError<E>> {
    if workers == 0 || workers > WORKERS {
        return Err(RunError::Workers);
    }
    if systems > SYSTEMS {
        return Err(RunError::Systems);
    }
    if reservers != systems {
        return Err(RunError::Reservers);
    }
    Ok(())
}

/// Room for that many systems.
///
/// # Errors
///
/// `Memory`, if there isn't enough memory for it.
#[inline]
pub(super) fn prepare<O, E>(
    systems: usize,
    workers: usize,
) -> Result<Room<O, E>, OutOfMemory>
    // requires some { 0 < workers }
    // requires few { workers ≤ 64 }
    // requires within { systems ≤ 2 ^ 16 }
    // ensures crew { IfOk result (λ room. (room.crew.jobs ≡ systems) × (room.crew.workers ≡ workers)) }
    // ensures empty { IfOk result (λ room.
    //     (room.outputs.items ≡ []) × (room.reservers.items ≡ [])) }
    // ensures outputs { IfOk result (λ room. systems ≤ vec_capacity room.outputs) }
    // ensures reservers { IfOk result (λ room. systems ≤ vec_capacity room.reservers) }
{
    Ok(Room {
        crew: Crew::new(systems, workers)?,
        outputs: Vec::with_capacity_fallibly(systems)?,
        reservers: Vec::with_capacity_fallibly(systems)?,
    })
}
