// Made of crates/ent_runner/src/logs.rt by rust/erase. It isn't edited by hand.

//! Logs that systems fill side by side, over an allocator of the caller's.

pub(super) mod beginning;
pub(super) mod system;

use alloc::vec::Vec;
use crate::running::crew::{Crew, first_error};
use crate::running::logs::system::LogSystem;
use crate::running::run_error::RunError;
use crate::running::stage::SharedStage;
use crate::running::systems::Loggers;
use crate::allocator::{Entities, Limits};
use crate::logs::Log;
use crate::reserving::{SharedSource, share};
use core::mem;
use crate::kit::thread::Join;

/// How many workers may run systems.
const WORKERS: usize = 64;

/// How many systems run together.
const SYSTEMS: usize = 65_536;

/// Runs each system once, on that many workers side by side, each with a log of its own. The logs
/// are in the order of the systems, whatever the order in which they ended, and
/// [`SyncPoint::begin`](crate::logs::SyncPoint::begin) takes them.
///
/// Each worker takes the next system that isn't taken yet, until none is left. If a thread can't be
/// started, another one does its work. One worker starts no thread.
///
/// # Errors
///
/// It is the first of these that holds.
///
/// - [`RunError::NeedsFlush`], [`RunError::Workers`], [`RunError::Systems`], [`RunError::Memory`]:
///   no system ran, and the allocator is as it was.
/// - [`RunError::Lost`]: a system returned an error, and this has the first one in the order of the
///   systems. Or some systems didn't run, since no worker has memory for the log of another one:
///   then it has none. The logs are dropped. What the systems that ran had reserved stays reserved,
///   and nothing else is: [`Entities::flush`] brings it to life.
///
/// <details><summary>Contract</summary>
///
/// <code style="display: block; tab-size: 4; white-space: pre-wrap">// In the words of [contracts](crate::contracts):
/// ensures ok { [IfOk](crate::contracts::logic#IfOk) result (λ logs. [HaveLogged](crate::contracts::ent_runner::logs#HaveLogged) S.may_log systems.now workers
/// &#9;entities.old.allocator logs.items entities.new.allocator) }
/// ensures rows { entities.new.rows ≡ entities.old.rows }
/// &#32;
/// // The handles of all spawns are reserved.
/// ensures reserved { [IfOk](crate::contracts::logic#IfOk) result (λ logs. [first_unreserved](crate::contracts::ent_log::logs#first_unreserved) entities.new.allocator
/// &#9;([spawned_in](crate::contracts::ent_log::logs#spawned_in) ([entries_of](crate::contracts::ent_log::logs#entries_of) logs.items)) ≡ [None](crate::contracts::logic#None)) }
/// &#32;
/// ensures needs_flush { [IsErrOf](crate::contracts::logic#IsErrOf) result RunError.NeedsFlush
/// &#9;↔ (0 \< entities.old.allocator.asked) }
/// ensures no_crew { [IsErrOf](crate::contracts::logic#IsErrOf) result RunError.Workers
/// &#9;↔ ((entities.old.allocator.asked ≡ 0) × ((workers ≡ 0) ⊎ (64 \< workers))) }
/// ensures too_many { [IsErrOf](crate::contracts::logic#IsErrOf) result RunError.Systems
/// &#9;↔ ((entities.old.allocator.asked ≡ 0) × (0 \< workers) × (workers ≤ 64)
/// &#9;× (2 ^ 16 \< [length](crate::contracts::logic#length) systems.now)) }
/// ensures memory_some { [IsErrOf](crate::contracts::logic#IsErrOf) result RunError.Memory → 0 \< [length](crate::contracts::logic#length) systems.now }
/// ensures nothing { [IfErr](crate::contracts::logic#IfErr) result ([IfNotLost](crate::contracts::ent_runner::run_errors#IfNotLost) (entities.new ≡ entities.old)) }
/// &#32;
/// // What is left of a run that was broken off.
/// ensures lost { [IfErr](crate::contracts::logic#IfErr) result ([IfLost](crate::contracts::ent_runner::run_errors#IfLost) ([IsBrokenOff](crate::contracts::ent_runner::logs#IsBrokenOff) S.may_log S.may_leave systems.now workers
/// &#9;entities.old.allocator entities.new.allocator)) }
/// ensures lost_some { [IfErr](crate::contracts::logic#IfErr) result ([IfLost](crate::contracts::ent_runner::run_errors#IfLost) (λ \_. 0 \< [length](crate::contracts::logic#length) systems.now)) }
/// ensures unborn { result ≢ [Err](crate::contracts::logic#Err) RunError.Unborn }
/// ensures of_allocator { [IfErr](crate::contracts::logic#IfErr) result [IsOfAllocator](crate::contracts::ent_runner::run_errors#IsOfAllocator) }
/// </code>
///
/// </details>
#[inline]
pub fn run_logs<R, C, S, E>(
    rt: &R,
    entities: &mut Entities,
    systems: &[S],
    workers: usize,
) -> Result<Vec<Log<C>>, RunError<E>>
where
    R: Join + Sync,
    C: Send,
    S: LogSystem<C, SharedSource, E> + Sync,
    E: Send,
{
    if entities.needs_flush() {
        return Err(RunError::NeedsFlush);
    }
    if workers == 0 || workers > WORKERS {
        return Err(RunError::Workers);
    }
    if systems.len() > SYSTEMS {
        return Err(RunError::Systems);
    }
    if systems.is_empty() {
        return Ok(Vec::new());
    }
    let Ok(crew) = Crew::new(systems.len(), workers) else {
        return Err(RunError::Memory);
    };
    let flushed = mem::replace(entities, Entities::with_exact_limits(Limits::default_limits()));
    let (shared, mut reservers) = match share(flushed, workers) {
        Ok(made) => made,
        Err((flushed, _)) => {
            *entities = flushed;
            return Err(RunError::Memory);
        }
    };
    let loggers = Loggers { systems };
    let stage = SharedStage {
        shared: &shared,
        systems: &loggers,
    };
    // A command may panic when it is dropped. So no log is dropped before the allocator is in its
    // place.
    let logs = crew.work(rt, &mut reservers, &stage);
    *entities = shared.close(reservers);
    match logs {
        Ok(logs) => Ok(logs),
        Err(left) => Err(RunError::Lost(first_error(left))),
    }
}
