//! Systems whose panics are caught.

use crate::frames::Join;
use crate::{FrameError, LogCommands, LogSystem, RunError, Source, System, View, WorldCommands};
use alloc::boxed::Box;
use alloc::vec::Vec;
use core::any::Any;
use core::mem;
use std::panic::{catch_unwind, resume_unwind, AssertUnwindSafe};
use std::sync::{Mutex, PoisonError};

/// Calls `run` with a `Join` and systems whose panics are caught, and propagates the first panic.
/// If there is no memory to guard the systems, it returns that error. `run` may itself return a
/// panic: that of a command that was dropped. By then the world or the allocator is back in its
/// place.
pub(crate) fn guarded<J, S, T, E>(
    join: &J,
    systems: &[S],
    memory: E,
    run: impl FnOnce(&Guarded<'_, J>, &[Guarded<'_, S>]) -> Result<Result<T, E>, Panic>,
) -> Result<T, E> {
    let panics = Panics::default();
    let mut guarded = Vec::new();
    if guarded.try_reserve_exact(systems.len()).is_err() {
        return Err(memory);
    }
    let numbered = systems.iter().enumerate();
    guarded.extend(numbered.map(|(number, system)| Guarded(system, number, &panics)));
    let ran = run(&Guarded(join, usize::MAX, &panics), &guarded);
    if let Some(panic) = first(panics) {
        drop_quietly(ran);
        resume_unwind(panic);
    }
    ran.unwrap_or_else(|panic| resume_unwind(panic))
}

/// What a panic was raised with.
pub(crate) type Panic = Box<dyn Any + Send>;

/// The panics of a frame, each with the number of its system. A panic can itself panic when it is
/// dropped, so all are kept until the world is back.
type Panics = Mutex<Vec<(usize, Panic)>>;

/// The panic of the first system that panicked, if any.
fn first(panics: Panics) -> Option<Panic> {
    let mut panics = panics.into_inner().unwrap_or_else(PoisonError::into_inner);
    let first = (0..panics.len()).min_by_key(|at| panics[*at].0)?;
    let (_, first) = panics.swap_remove(first);
    panics.into_iter().for_each(drop_quietly);
    Some(first)
}

/// What the closure returns, or its panic. Nothing that a panic left half done is looked at.
pub(crate) fn caught<T>(run: impl FnOnce() -> T) -> Result<T, Panic> {
    catch_unwind(AssertUnwindSafe(run))
}

/// Drops the value. If that panics, the panic is leaked, since dropping it can panic too.
fn drop_quietly<T>(value: T) {
    caught(|| drop(value)).unwrap_or_else(mem::forget);
}

/// A system or a `Join` whose panics are caught: the proved code that calls it never sees one. It
/// comes with the number of the system (that of a `Join` comes after all of them), and the place
/// where the panics are kept.
pub(crate) struct Guarded<'a, T>(&'a T, usize, &'a Panics);

impl<T> Guarded<'_, T> {
    /// Calls the closure. If it panics, the panic is kept, and this is returned.
    fn run<R>(&self, run: impl FnOnce() -> R, panicked: R) -> R {
        caught(run).unwrap_or_else(|panic| {
            let mut panics = self.2.lock().unwrap_or_else(PoisonError::into_inner);
            panics.push((self.1, panic));
            panicked
        })
    }
}

impl<S: Source, E, T: System<S, E>> System<S, Option<E>> for Guarded<'_, T> {
    /// A system that panics has stopped, like one that returned an error, but has none: the frame
    /// is lost, and the world is closed with what was reserved.
    fn run(&self, view: &View<'_>, commands: &mut WorldCommands<'_, S>) -> Result<(), Option<E>> {
        self.run(|| self.0.run(view, commands).map_err(Some), Err(None))
    }
}

/// The same for a system that fills a log.
impl<C, S: Source, E, T: LogSystem<C, S, E>> LogSystem<C, S, Option<E>> for Guarded<'_, T> {
    fn run(&self, commands: &mut LogCommands<'_, C, S>) -> Result<(), Option<E>> {
        self.run(|| self.0.run(commands).map_err(Some), Err(None))
    }
}

/// The error of a run, from that of its guarded systems: one that panicked has none.
macro_rules! unguarded {
    ($of:ident, $error:ident: $($same:ident)*; $($with:ident)*) => {
        pub(crate) fn $of<E>(error: $error<Option<E>>) -> $error<E> {
            match error {
                $error::Lost(error) => $error::Lost(error.flatten()),
                $($error::$same => $error::$same,)*
                $($error::$with(it) => $error::$with(it),)*
            }
        }
    };
}

unguarded!(of_frame, FrameError: NeedsFlush Workers Systems Memory; Unapplied Stopped);
unguarded!(of_logs, RunError: NeedsFlush Workers Systems Reservers OtherPhase Memory Unborn;);

impl<J: Join> Join for Guarded<'_, J> {
    fn join(&self, first: &mut (dyn FnMut() + Send), second: &mut (dyn FnMut() + Send)) {
        self.run(|| self.0.join(first, second), ());
    }
}
