// Made of crates/ent_total/src/framing.rt by rust/erase. It isn't edited by hand.

//! Frames: systems run on workers over a world, and the sync point lets their queues take effect.

use crate::phases::frame_error::FrameError;
use crate::phases::queues::Queues;
use crate::phases::stop::Stop;
use crate::phases::stopped::Stopped;
use crate::phases::world::World;
use crate::running::{FrameFault, FrameReport, Gate, System};
use crate::reserving::SharedSource;
use crate::kit::thread::Join;

/// How many workers may run systems.
const WORKERS: usize = 64;

/// How many systems run together.
const SYSTEMS: usize = 65_536;

/// Runs each system once, on that many workers side by side, and then the sync point.
///
/// Each worker takes the next system that isn't taken yet, until none is left. The commands of the
/// systems take effect in the order of the systems, whatever the order in which they ended. If a
/// thread can't be started, another one does its work. One worker starts no thread.
///
/// # Errors
///
/// It is the first of these that holds.
///
/// - [`FrameError::NeedsFlush`], [`FrameError::Workers`], [`FrameError::Systems`],
///   [`FrameError::Memory`]: no system ran, and the world is as it was.
/// - [`FrameError::Lost`]: a system returned an error, and this has the first one in the order of
///   the systems. Or some systems didn't run, since no worker has memory for another one: then it
///   has none. No command took effect. What the systems that ran had reserved stays reserved, and
///   nothing else is: [`World::flush`] brings it to life, without components.
/// - [`FrameError::Unapplied`], [`FrameError::Stopped`]: all systems ran, and the sync point ran
///   out of memory. It can be repeated or continued.
///
/// <details><summary>Contract</summary>
///
/// <code style="display: block; tab-size: 4; white-space: pre-wrap">// In the words of [contracts](crate::contracts):
/// ensures ok { [IfOk](crate::contracts::logic#IfOk) result (λ report. [Ends](crate::contracts::ent_runner::frame#Ends) S.may_issue systems.now workers world.old.world
/// &#9;report.queues.items world.new.world report.sync.born.items report.sync.faults.items) }
/// ensures alone { workers ≡ 1 → [IfOk](crate::contracts::logic#IfOk) result (λ report. [EndsInOrder](crate::contracts::ent_runner::frame#EndsInOrder) world.old.world
/// &#9;report.queues.items world.new.world report.sync.born.items report.sync.faults.items) }
/// ensures flushed { [OnOk](crate::contracts::logic#OnOk) result
/// &#9;((world.new.world.allocator.asked ≡ 0) × (world.new.spawned ≡ 0)) }
/// ensures number { world.new.number ≡ world.old.number }
/// &#32;
/// // When the systems are refused, and what is left of a frame that didn\'t do all.
/// ensures refused { [IsRefused](crate::contracts::ent_runner::refusing#IsRefused) world.old.world.allocator.asked workers ([length](crate::contracts::logic#length) systems.now)
/// &#9;([IsErrOf](crate::contracts::logic#IsErrOf) result FrameError.NeedsFlush) ([IsErrOf](crate::contracts::logic#IsErrOf) result FrameError.Workers)
/// &#9;([IsErrOf](crate::contracts::logic#IsErrOf) result FrameError.Systems) }
/// ensures left { [IfErr](crate::contracts::logic#IfErr) result ([IsLeft](crate::contracts::ent_total::framing#IsLeft) S.may_issue S.may_leave systems.now workers
/// &#9;world.old world.new) }
/// </code>
///
/// </details>
#[inline]
pub fn run_frame<R, S, E, G>(
    rt: &R,
    world: &mut World,
    systems: &[S],
    workers: usize,
    gate: &G,
) -> Result<FrameReport, FrameError<E>>
where
    R: Join + Sync,
    S: System<SharedSource, E> + Sync,
    E: Send,
    G: Gate + Sync,
{
    if world.world.needs_flush() {
        return Err(FrameError::NeedsFlush);
    }
    if workers == 0 || workers > WORKERS {
        return Err(FrameError::Workers);
    }
    if systems.len() > SYSTEMS {
        return Err(FrameError::Systems);
    }
    match crate::running::run_frame(rt, &mut world.world, systems, workers, gate) {
        Ok(report) => {
            world.spawned = 0;
            Ok(report)
        }
        Err(FrameFault::Memory) => Err(FrameError::Memory),
        Err(FrameFault::Lost(error)) => Err(FrameError::Lost(error)),
        Err(FrameFault::Sync { fault, queues }) => {
            let queues = Queues::new(world.number, queues);
            match Stop::of(fault) {
                None => Err(FrameError::Unapplied(queues)),
                Some((stop, so_far)) => {
                    world.spawned = 0;
                    Err(FrameError::Stopped(Stopped::new(queues, stop, so_far)))
                }
            }
        }
    }
}
