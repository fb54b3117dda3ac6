// Made of crates/ent_runner/src/logs/beginning.rt by rust/erase. It isn't edited by hand.

//! Systems fill logs, and the sync point of these logs begins.

use alloc::vec::Vec;
use crate::running::logs::run_logs;
use crate::running::logs::system::LogSystem;
use crate::running::run_error::RunError;
use crate::allocator::Entities;
use crate::handles::{HandedBack, Handle, OutOfMemory};
use crate::logs::{Log, SyncPoint};
use crate::reserving::SharedSource;
use crate::kit::thread::Join;

/// [`run_logs`], and then the beginning of the sync point of these logs. It brings to life what the
/// systems reserved, and appends it to `out`, as [`Entities::flush`] does. The sync point has the
/// entries of all logs, in the order of the systems.
///
/// All spawns of these logs are reserved. So it doesn't look at each of them, as
/// [`SyncPoint::begin`] has to do with logs that may be of another phase.
///
/// # Errors
///
/// [`HandedBack`] has the logs that the sync point did not take, and the first of these errors that
/// applies. The list is as it was.
///
/// - Those of [`run_logs`]. There are no logs.
/// - [`RunError::Unborn`]: all systems ran, and there isn't enough memory for what is born. The
///   logs are those of all systems, for [`SyncPoint::begin`]. What the systems reserved stays
///   reserved.
///
/// <details><summary>Contract</summary>
///
/// <code style="display: block; tab-size: 4; white-space: pre-wrap">// In the words of [contracts](crate::contracts):
/// ensures ok { [IfOk](crate::contracts::logic#IfOk) result (λ point. [HaveBegun](crate::contracts::ent_runner::logs#HaveBegun) S.may_log systems.now workers
/// &#9;entities.old.allocator out.old.items point entities.new.allocator out.new.items) }
/// ensures alive { [IfOk](crate::contracts::logic#IfOk) result (λ point. [All](crate::contracts::logic#All) ([IsLive](crate::contracts::ent_alloc::sound#IsLive) entities.new.allocator) ([spawned_in](crate::contracts::ent_log::logs#spawned_in) point)) }
/// ensures rows { entities.new.rows ≡ entities.old.rows }
/// ensures needs_flush { [IsErrAnd](crate::contracts::logic#IsErrAnd) result (λ h. h.error ≡ failed.NeedsFlush)
/// &#9;↔ (0 \< entities.old.allocator.asked) }
/// ensures no_crew { [IsErrAnd](crate::contracts::logic#IsErrAnd) result (λ h. h.error ≡ failed.Workers)
/// &#9;↔ ((entities.old.allocator.asked ≡ 0) × ((workers ≡ 0) ⊎ (64 \< workers))) }
/// ensures too_many { [IsErrAnd](crate::contracts::logic#IsErrAnd) result (λ h. h.error ≡ failed.Systems)
/// &#9;↔ ((entities.old.allocator.asked ≡ 0) × (0 \< workers) × (workers ≤ 64)
/// &#9;× (2 ^ 16 \< [length](crate::contracts::logic#length) systems.now)) }
/// ensures memory_some { [IsErrAnd](crate::contracts::logic#IsErrAnd) result (λ h. h.error ≡ failed.Memory)
/// &#9;→ 0 \< [length](crate::contracts::logic#length) systems.now }
/// ensures nothing { [IfErr](crate::contracts::logic#IfErr) result (λ h. h.error ≢ failed.Unborn
/// &#9;→ [IfNotLost](crate::contracts::ent_runner::run_errors#IfNotLost) (entities.new ≡ entities.old) h.error) }
/// ensures none { [IfErr](crate::contracts::logic#IfErr) result (λ h. h.error ≢ failed.Unborn → h.value.items ≡ \[\]) }
/// ensures of_allocator { [IfErr](crate::contracts::logic#IfErr) result (λ h. [IsOfAllocator](crate::contracts::ent_runner::run_errors#IsOfAllocator) h.error) }
/// ensures unlisted { [OnErr](crate::contracts::logic#OnErr) result (out.new.items ≡ out.old.items) }
/// &#32;
/// // What is left of a run that was broken off.
/// ensures lost { [IfErr](crate::contracts::logic#IfErr) result (λ h. [IfLost](crate::contracts::ent_runner::run_errors#IfLost) ([IsBrokenOff](crate::contracts::ent_runner::logs#IsBrokenOff) S.may_log S.may_leave systems.now workers
/// &#9;entities.old.allocator entities.new.allocator) h.error) }
/// ensures lost_some { [IfErr](crate::contracts::logic#IfErr) result (λ h. [IfLost](crate::contracts::ent_runner::run_errors#IfLost) (λ \_. 0 \< [length](crate::contracts::logic#length) systems.now) h.error) }
/// &#32;
/// // What holds if only what was reserved isn\'t born.
/// ensures unborn { [IfErr](crate::contracts::logic#IfErr) result (λ h. h.error ≡ failed.Unborn → [HaveLogged](crate::contracts::ent_runner::logs#HaveLogged) S.may_log systems.now
/// &#9;workers entities.old.allocator h.value.items entities.new.allocator) }
/// ensures unborn_reserved { [IfErr](crate::contracts::logic#IfErr) result (λ h. h.error ≡ failed.Unborn → [first_unreserved](crate::contracts::ent_log::logs#first_unreserved)
/// &#9;entities.new.allocator ([spawned_in](crate::contracts::ent_log::logs#spawned_in) ([entries_of](crate::contracts::ent_log::logs#entries_of) h.value.items)) ≡ [None](crate::contracts::logic#None)) }
/// ensures unborn_memory { [IfErr](crate::contracts::logic#IfErr) result (λ h. h.error ≡ failed.Unborn
/// &#9;→ (0 \< [made_at_flush](crate::contracts::ent_alloc::sequential#made_at_flush) entities.new.allocator) ⊎ ([vec_capacity](crate::contracts::logic#vec_capacity) out.old
/// &#9;\< [vec_len](crate::contracts::logic#vec_len) out.old + [length](crate::contracts::logic#length) entities.new.allocator.taken)) }
/// </code>
///
/// </details>
#[inline]
pub fn run_to_sync_point<R, C, S, E>(
    rt: &R,
    entities: &mut Entities,
    systems: &[S],
    workers: usize,
    out: &mut Vec<Handle>,
) -> Result<SyncPoint<C>, HandedBack<Vec<Log<C>>, RunError<E>>>
where
    R: Join + Sync,
    C: Send,
    S: LogSystem<C, SharedSource, E> + Sync,
    E: Send,
{
    let mut logs = match run_logs(rt, entities, systems, workers) {
        Ok(logs) => logs,
        Err(error) => return Err(HandedBack::new(Vec::new(), error)),
    };
    match SyncPoint::begin_reserved(entities, &mut logs, out) {
        Ok(point) => Ok(point),
        Err(OutOfMemory) => Err(HandedBack::new(logs, RunError::Unborn)),
    }
}
