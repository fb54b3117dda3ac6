//! Frames: systems run on workers over one world or one allocator, and a sync point applies what
//! they issued.

use crate::guarding::{caught, guarded, of_frame, of_logs};
use crate::running::NoGate;
use crate::{phases, running};
use crate::{Entities, HandedBack, Handle, Log, Report, SyncPoint, World};
use alloc::vec::Vec;

pub use crate::kit::thread::{Join, StdThreads};
#[cfg(feature = "rayon")]
pub use crate::on_rayon::Rayon;
pub use crate::phases::{fill_in_blocks, run_in_blocks, FrameError};
pub use crate::running::RunError;
pub use crate::system::*;

/// Runs each system once, on that many workers side by side, and then the sync point. It returns
/// the report of the sync point.
///
/// The workers run on the threads of a [`Join`]: those that the call starts ([`StdThreads`]), or
/// those of a task pool. With the feature `rayon`, `Rayon` and `rayon::ThreadPool` are `Join`s.
///
/// Each worker takes the next system that isn't taken yet, until none is left. The commands take
/// effect in the order of the systems, whichever system ended first. If a thread can't be started,
/// another one does its work. One worker starts no thread.
///
/// # What depends on the workers
///
/// Which handles a system gets depends on the workers. The births, the components and the faults
/// don't, as long as
///
/// - no spawn is refused: if slots or a quota run out, late requests are refused, and which
///   requests are late depends on the workers;
/// - no allocation fails;
/// - nothing depends on handles: no system compares them or keeps them as values, and no two
///   entities have the same birth. [`View::by_birth`](crate::View::by_birth) and
///   [`View::with`](crate::View::with) list entities of one birth by handle. [`World::spawn`] gives
///   each entity a birth of its own. [`World::spawn_with_birth`] may not, and a [`World::flush`]
///   after a lost frame begins with the births that `World::spawn` gave in that phase.
///
/// ```
/// use forgeni::{run_frame, ComponentId, OutOfMemory, StdThreads, SystemCommands, View, World};
///
/// const AGE: ComponentId = ComponentId(0);
///
/// fn launch(_: &View<'_>, commands: &mut SystemCommands<'_>) -> Result<(), OutOfMemory> {
///     commands.spawn_with(&[(AGE, 0)]).map_or_else(|refused| refused.or_memory(), |_| Ok(()))
/// }
///
/// fn age(view: &View<'_>, commands: &mut SystemCommands<'_>) -> Result<(), OutOfMemory> {
///     for one in view.with(AGE)? {
///         let age = view.get(one, AGE).unwrap_or(0);
///         commands.insert_with(one, &[(AGE, age + 1)])?;
///     }
///     Ok(())
/// }
///
/// let mut world = World::new();
/// let systems: [fn(&View<'_>, &mut SystemCommands<'_>) -> _; 2] = [launch, age];
/// for _ in 0..3 {
///     run_frame(&StdThreads, &mut world, &systems, 4)?;
/// }
/// let ages: Vec<_> = world.by_birth()?.into_iter().map(|one| world.get(one, AGE)).collect();
/// assert_eq!(ages, [Some(2), Some(1), Some(0)]);
/// # Ok::<(), Box<dyn std::error::Error>>(())
/// ```
///
/// On a task pool of your own, each call of [`Join::join`] gets one worker and all others, or two
/// halves if there are more than eight:
///
/// ```
/// use forgeni::{run_frame, Join, OutOfMemory, SystemCommands, View, World};
///
/// /// A task pool without threads.
/// struct OneAfterTheOther;
///
/// impl Join for OneAfterTheOther {
///     fn join(&self, first: &mut (dyn FnMut() + Send), second: &mut (dyn FnMut() + Send)) {
///         first();
///         second();
///     }
/// }
///
/// fn spawn(_: &View<'_>, commands: &mut SystemCommands<'_>) -> Result<(), OutOfMemory> {
///     commands.spawn_with(&[]).map_or_else(|refused| refused.or_memory(), |_| Ok(()))
/// }
///
/// let mut world = World::new();
/// run_frame(&OneAfterTheOther, &mut world, &[spawn; 3], 2)?;
/// assert_eq!(world.len(), 3);
/// # Ok::<(), Box<dyn std::error::Error>>(())
/// ```
///
/// # Errors
///
/// - [`NeedsFlush`](FrameError::NeedsFlush), [`Workers`](FrameError::Workers),
///   [`Systems`](FrameError::Systems) and [`Memory`](FrameError::Memory): no system ran, and the
///   world is as it was.
/// - [`Lost`](FrameError::Lost): a system returned an error, and this has the first one in the
///   order of the systems. Or some systems didn't run, since no worker has memory for another one:
///   then it has none. No command was applied. What the systems that ran had reserved stays
///   reserved, and nothing else is: [`World::flush`] brings it to life, without components.
/// - [`Unapplied`](FrameError::Unapplied) and [`Stopped`](FrameError::Stopped): all systems ran,
///   and the sync point ran out of memory. It can be repeated or continued.
///
/// # Panics
///
/// If a system panics, its panic is propagated when all workers have ended, and the world is as it
/// is after [`Lost`](FrameError::Lost). If several systems panic, the panic of the first one in the
/// order of the systems is propagated. Without the feature `std`, a panic can't be caught: the
/// world is dropped, and an empty one takes its place.
///
/// If no system panics but the `Join` does, its panic is propagated when all workers have ended.
/// The frame is complete then: only its report is lost.
///
/// # Aborts
///
/// With more than one worker, `StdThreads` starts threads as [`std::thread::scope`] does. If memory
/// for that runs out, the process ends. Without the feature `std`, and where no thread can be
/// started, as on `wasm32-unknown-unknown`, the caller's thread does all the work.
pub fn run_frame<J: Join + Sync, S: System<SharedSource, E> + Sync, E: Send>(
    join: &J,
    world: &mut World,
    systems: &[S],
    workers: usize,
) -> Result<Report, FrameError<E>> {
    guarded(join, systems, FrameError::Memory, |join, systems| {
        let ran = phases::run_frame(join, world, systems, workers, &NoGate);
        Ok(ran.map(|frame| frame.sync).map_err(of_frame))
    })
}

/// Runs each system once, on that many workers side by side, 1 to 64, each with a [`Log`] of its
/// own. The logs are in the order of the systems, whichever ended first, for a [`SyncPoint`] of the
/// allocator. There can be up to 65,536 systems. If there are none, the call doesn't allocate.
///
/// The workers run on the threads of a [`Join`], as for [`run_frame`]. Each takes the next system
/// that isn't taken yet, until none is left. A spawn reserves at once, so which handle it returns
/// depends on the workers. If a thread can't be started, another one does its work. One worker
/// starts no thread.
///
/// Closures are systems, and so are those in a `Mutex` that change what they borrow:
///
/// ```
/// # #[cfg(feature = "std")] {
/// use forgeni::{run_logs, Entities, Handle, HandleMap, LogCommands, OutOfMemory};
/// use forgeni::{StdThreads, SyncPoint};
/// use forgeni::Entry::{Command, Refused, Spawn};
/// use std::sync::Mutex;
///
/// type Names<'a> = LogCommands<'a, (Handle, &'static str)>;
/// type Run<'a> = dyn FnMut(&mut Names<'_>) -> Result<(), OutOfMemory> + Send + 'a;
/// type Systems<'a> = [Mutex<Box<Run<'a>>>; 2];
///
/// let (mut entities, mut names, mut calls) = (Entities::new(), HandleMap::new(), 0);
/// let systems: Systems<'_> = [
///     Mutex::new(Box::new(|commands| match commands.spawn() {
///         Ok(cart) => commands.push((cart, "cart")),
///         // There may be none left. The log has that, and the system goes on.
///         Err(refused) => refused.or_memory(),
///     })),
///     Mutex::new(Box::new(|_| Ok(calls += 1))),
/// ];
/// let mut logs = run_logs(&StdThreads, &mut entities, &systems, 2)?;
/// drop(systems);
///
/// let (mut born, mut refused) = (Vec::new(), 0);
/// SyncPoint::begin(&mut entities, &mut logs, &mut born)?.apply(&mut entities, |_, entry| {
///     match entry {
///         Spawn(_) => {}
///         Refused(_) => refused += 1,
///         Command((one, name)) => {
///             names.insert(one, name).map_err(|error| (entry, error))?;
///         }
///     }
///     Ok(())
/// })?;
/// assert_eq!((names[born[0]], calls, refused), ("cart", 1, 0));
/// # }
/// # Ok::<(), Box<dyn std::error::Error>>(())
/// ```
///
/// # Errors
///
/// - [`NeedsFlush`](RunError::NeedsFlush), [`Workers`](RunError::Workers),
///   [`Systems`](RunError::Systems) and [`Memory`](RunError::Memory): no system ran, and the
///   allocator is as it was.
/// - [`Lost`](RunError::Lost): a system returned an error, and this has the first one in the order
///   of the systems. Or some systems didn't run, since no worker has memory for the log of another
///   one: then it has none. The logs are dropped. What the systems that ran had reserved stays
///   reserved, and nothing else is: [`Entities::flush`] brings it to life.
///
/// # Panics
///
/// If a system panics, its panic is propagated when all workers have ended, and the allocator is as
/// it is after [`Lost`](RunError::Lost). If several systems panic, the panic of the first one in
/// the order of the systems is propagated. Without the feature `std`, a panic can't be caught: the
/// allocator is dropped, and an empty one takes its place.
///
/// If a command panics when the logs are dropped, and no system did, that panic is propagated. The
/// allocator is back in its place before the first command is dropped.
///
/// If no system panics but the `Join` does, its panic is propagated when all workers have ended.
/// What they reserved stays reserved, and the logs are dropped. If a command panics then, that
/// panic is lost.
///
/// # Aborts
///
/// The same as for [`run_frame`].
pub fn run_logs<J: Join + Sync, C: Send, S: LogSystem<C, SharedSource, E> + Sync, E: Send>(
    join: &J,
    entities: &mut Entities,
    systems: &[S],
    workers: usize,
) -> Result<Vec<Log<C>>, RunError<E>> {
    guarded(join, systems, RunError::Memory, |join, systems| {
        caught(|| running::run_logs(join, entities, systems, workers).map_err(of_logs))
    })
}

/// [`run_logs`], followed by the start of the sync point of these logs. It brings to life what
/// the systems reserved, and appends it to `born`, as [`Entities::flush`] does. The sync point has
/// the entries of all logs, in the order of the systems.
///
/// [`SyncPoint::begin`] has to look at each spawn of a log, since the log may belong to another
/// phase. These logs belong to this one, so this call looks at none.
///
/// ```
/// use forgeni::{run_to_sync_point, Entities, Entry, LogCommands, OutOfMemory, StdThreads};
///
/// fn launch(commands: &mut LogCommands<'_, &str>) -> Result<(), OutOfMemory> {
///     commands.spawn().map_or_else(|refused| refused.or_memory(), |_| commands.push("ready"))
/// }
///
/// let (mut entities, mut born, mut said) = (Entities::new(), Vec::new(), Vec::new());
/// let mut refused = 0;
/// let systems: [fn(&mut LogCommands<'_, &'static str>) -> _; 3] = [launch; 3];
/// let mut sync = run_to_sync_point(&StdThreads, &mut entities, &systems, 2, &mut born)?;
/// sync.apply(&mut entities, |entities, entry| {
///     match entry {
///         Entry::Spawn(one) => assert!(entities.is_alive(one)),
///         Entry::Refused(_) => refused += 1,
///         Entry::Command(word) => said.push(word),
///     }
///     Ok::<(), (Entry<&str>, OutOfMemory)>(())
/// })?;
/// assert_eq!((born.len(), refused, said), (3, 0, vec!["ready"; 3]));
/// # Ok::<(), Box<dyn std::error::Error>>(())
/// ```
///
/// # Errors
///
/// [`HandedBack`] has the logs that the sync point didn't take, and the error. `born` is unchanged.
///
/// - Those of [`run_logs`]. There are no logs.
/// - [`Unborn`](RunError::Unborn): all systems ran, and there isn't enough memory for what is born.
///   What they reserved stays reserved, and the logs are those of all systems, for
///   [`SyncPoint::begin`].
///
/// # Panics
///
/// If a system panics, or a command panics when it is dropped: the same as [`run_logs`]. If no
/// system panics but the `Join` does, its panic is propagated when all workers have ended. What
/// they reserved is alive, and their logs are dropped.
pub fn run_to_sync_point<J: Join + Sync, C: Send, S, E: Send>(
    join: &J,
    entities: &mut Entities,
    systems: &[S],
    workers: usize,
    born: &mut Vec<Handle>,
) -> Result<SyncPoint<C>, HandedBack<Vec<Log<C>>, RunError<E>>>
where
    S: LogSystem<C, SharedSource, E> + Sync,
{
    let memory = HandedBack::new(Vec::new(), RunError::Memory);
    guarded(join, systems, memory, |join, systems| {
        caught(|| {
            let begun = running::run_to_sync_point(join, entities, systems, workers, born);
            begun.map_err(|unbegun| {
                let (logs, error) = unbegun.into_parts();
                HandedBack::new(logs, of_logs(error))
            })
        })
    })
}
