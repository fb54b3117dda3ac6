// Made of crates/ent_total/src/filling_in_blocks.rt by rust/erase. It isn't edited by hand.

use crate::phases::in_world::InWorld;
use crate::phases::phase::Phase;
use crate::phases::queues::Queues;
use crate::phases::reserver::Reserver;
use crate::phases::running_in_blocks::run_lent;
use crate::in_blocks::Blocks;
use crate::running::{Issuers, NoGate, RunError, System};
use crate::kit::thread::Join;

/// Runs each system once, on that many workers side by side, 1 to 64, each with the reserver at its
/// position. The world isn't changed: when the phase has ended, [`World::apply`](crate::phases::World::apply)
/// takes the queues, which are in the order of the systems.
///
/// The handles of a system's spawns are the next ones of its block, in the pool's order, whatever
/// the others do, whichever worker runs it, and however many workers there are. The reservers say
/// how many handles each system wanted, which can decide the size of its block in the next frame:
///
/// ```
/// # #[cfg(feature = "std")] {
/// use forgeni::{fill_in_blocks, Blocks, BlockSize, OutOfMemory, StdThreads, View, World};
/// use forgeni::WorldCommands;
///
/// fn launch(_: &View<'_>, out: &mut WorldCommands<'_, Blocks>) -> Result<(), OutOfMemory> {
///     out.spawn_many_with(100, &[]).map_or_else(|refused| refused.or_memory(), |_| Ok(()))
/// }
///
/// let (mut world, mut sizes) = (World::new(), [BlockSize::new(1000); 3]);
/// for _frame in 0..2 {
///     let (phase, mut reservers) = world.open_in::<Blocks>(&sizes.map(|it| it.size()))?;
///     let queues = fill_in_blocks(&StdThreads, &phase, &mut reservers, &[launch; 3], 2)?;
///     for (size, reserver) in sizes.iter_mut().zip(&reservers) {
///         size.adapt(reserver.wanted());
///     }
///     world = phase.close(reservers)?.into_world()?;
///     world.apply(queues)?;
/// }
/// // The first blocks, of 64, were too small for it.
/// assert_eq!((world.len(), sizes[0].size()), (300, 200));
/// # }
/// # Ok::<(), Box<dyn std::error::Error + Send + Sync>>(())
/// ```
///
/// Each worker takes the next system that isn't taken yet, until none is left. If a thread can't be
/// started, another one does its work. One worker starts no thread.
///
/// # Errors
///
/// Those of [`run_in_blocks`](crate::phases::run_in_blocks). After [`RunError::Lost`] the queues are
/// dropped, and the blocks are used up.
///
/// # Panics
///
/// The same as `run_in_blocks`.
///
/// <details><summary>Contract</summary>
///
/// <code style="display: block; tab-size: 4; white-space: pre-wrap">// In the words of [contracts](crate::contracts):
/// ensures ok { [IfOk](crate::contracts::logic#IfOk) result (λ ran. [HaveFilled](crate::contracts::ent_runner::blocks#HaveFilled) [Issues](crate::contracts::ent_queue::issuing#Issues) \[\] phase.now.source.source
/// &#9;([SystemMayIssue](crate::contracts::ent_runner::frame#SystemMayIssue) T.may_issue systems.now ([view_in](crate::contracts::ent_total::in_world#view_in) phase.now.source)) ([length](crate::contracts::logic#length) systems.now)
/// &#9;([reservers_of](crate::contracts::ent_total::phases#reservers_of) reservers.old) ran.queues ([reservers_of](crate::contracts::ent_total::phases#reservers_of) reservers.new)) }
/// ensures world { [IfOk](crate::contracts::logic#IfOk) result (λ ran. ran.world ≡ phase.now.source.of_world) }
/// ensures lent { [AreLent](crate::contracts::ent_total::lending#AreLent) reservers.old reservers.new result }
/// ensures refused { [IsRefused](crate::contracts::ent_runner::blocks_refusing#IsRefused) workers ([length](crate::contracts::logic#length) systems.now) ([length](crate::contracts::logic#length) reservers.old)
/// &#9;([AreOf](crate::contracts::ent_total::phases#AreOf) phase.now.number reservers.old) (λ why. [IsErrOf](crate::contracts::logic#IsErrOf) result why) }
/// &#32;
/// // What is left if the systems were broken off.
/// ensures lost { [IfErr](crate::contracts::logic#IfErr) result ([IfLost](crate::contracts::ent_runner::run_errors#IfLost) ([IsBrokenOff](crate::contracts::ent_runner::blocks#IsBrokenOff) [Issues](crate::contracts::ent_queue::issuing#Issues) \[\] phase.now.source.source
/// &#9;([SystemMayIssue](crate::contracts::ent_runner::frame#SystemMayIssue) T.may_issue systems.now ([view_in](crate::contracts::ent_total::in_world#view_in) phase.now.source))
/// &#9;([SystemMayLeave](crate::contracts::ent_runner::frame#SystemMayLeave) T.may_leave systems.now ([view_in](crate::contracts::ent_total::in_world#view_in) phase.now.source)) ([length](crate::contracts::logic#length) systems.now)
/// &#9;workers ([reservers_of](crate::contracts::ent_total::phases#reservers_of) reservers.old))) }
/// </code>
///
/// </details>
#[inline]
pub fn fill_in_blocks<R, T, E>(
    rt: &R,
    phase: &Phase<InWorld<Blocks>>,
    reservers: &mut [Reserver<InWorld<Blocks>>],
    systems: &[T],
    workers: usize,
) -> Result<Queues, RunError<E>>
where
    R: Join + Sync,
    T: System<Blocks, E> + Sync,
    E: Send,
{
    let world = phase.server();
    let issuers = Issuers {
        view: world.view(),
        systems,
        gate: &NoGate,
    };
    let queues = run_lent(rt, phase, reservers, &issuers, workers)?;
    Ok(Queues::new(world.of_world, queues))
}
