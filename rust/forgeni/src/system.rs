//! Systems, and what they fill.

use crate::shown::shows;
use crate::{Blocks, Log, OutOfMemory, View};
use alloc::boxed::Box;
use alloc::sync::Arc;
#[cfg(feature = "std")]
use std::sync::{Mutex, PoisonError};

/// Where the handles of a system come from: [`SharedSource`] or [`Blocks`]. As a bound, it lets one
/// function or system serve both: see [`LogCommands`].
///
pub use crate::allocator::Source;
pub use crate::commands::{IssuedCommands, SystemCommands};
/// The source for systems of [`run_frame`](crate::run_frame) and [`run_logs`](crate::run_logs).
///
pub use crate::reserving::SharedSource;
pub use crate::running::{LogSystem, System};

pub use crate::allocator::Reserved;
pub use crate::in_blocks::OverflowReserver;
pub use crate::reserving::SharedReserver;

/// Issues the commands of one system of a world, with handles from the source `S`.
///
/// ```
/// use forgeni::{run_frame, OutOfMemory, Source, StdThreads, View, World, WorldCommands};
///
/// /// A system of any frame: of shared handles, or in blocks.
/// fn rain<S: Source>(_: &View<'_>, out: &mut WorldCommands<'_, S>) -> Result<(), OutOfMemory> {
///     out.spawn_many_with(100, &[]).map_or_else(|refused| refused.or_memory(), |_| Ok(()))
/// }
///
/// let mut world = World::new();
/// run_frame(&StdThreads, &mut world, &[rain; 2], 2)?;
/// assert_eq!(world.len(), 200);
/// # Ok::<(), Box<dyn std::error::Error>>(())
/// ```
pub type WorldCommands<'a, S = SharedSource> = SystemCommands<'a, IssuedCommands, S>;

/// Fills the log of one system, with handles from the source `S`. `C` is the caller's type of
/// commands.
///
/// One function can do what several systems share, for every source:
///
/// ```
/// # #[cfg(feature = "std")] {
/// use forgeni::{run_in_blocks, run_logs, Blocks, StdThreads};
/// use forgeni::{Entities, LogCommands, OutOfMemory, Source};
///
/// fn burst<S: Source>(commands: &mut LogCommands<'_, u8, S>) -> Result<(), OutOfMemory> {
///     for heat in 1..=3 {
///         commands.push(heat)?;
///         if let Err(refused) = commands.spawn() {
///             refused.or_memory()?;
///         }
///     }
///     Ok(())
/// }
///
/// let mut entities = Entities::new();
/// let shared = run_logs(&StdThreads, &mut entities, &[burst; 2], 2)?;
/// entities.flush(&mut Vec::new())?;
/// let (phase, mut reservers) = entities.share_in::<Blocks>(&[3, 3])?;
/// let in_blocks = run_in_blocks(&StdThreads, &phase, &mut reservers, &[burst; 2], 2)?;
/// assert!(shared.iter().chain(&in_blocks).all(|log| log.len() == 6));
/// # }
/// # Ok::<(), Box<dyn std::error::Error>>(())
/// ```
pub type LogCommands<'a, C, S = SharedSource> = SystemCommands<'a, Log<C>, S>;

/// Returns the closure, as a [`System`]. The call lets Rust infer the types of its parameters, and
/// its error is [`OutOfMemory`]:
///
/// ```
/// use forgeni::{run_frame, system, StdThreads, World};
///
/// let launch = system(|_view, commands| match commands.spawn_with(&[]) {
///     Ok(_) => Ok(()),
///     Err(refused) => refused.or_memory(),
/// });
/// let mut world = World::new();
/// run_frame(&StdThreads, &mut world, &[launch], 1)?;
/// assert_eq!(world.len(), 1);
/// # Ok::<(), forgeni::FrameError>(())
/// ```
pub fn system<F: Fn(&View<'_>, &mut SystemCommands<'_>) -> Result<(), OutOfMemory>>(run: F) -> F {
    run
}

/// Several kinds of systems: closures, those in a `Mutex`, which change what they borrow, and
/// systems behind pointers, so that several types go into one list.
macro_rules! systems {
    ([$($of:tt)*] $kind:path, $($with:ident: $type:ty),*) => {
        impl<$($of)*, F: Fn($($type),*) -> Result<(), E>> $kind for F {
            fn run(&self, $($with: $type),*) -> Result<(), E> {
                self($($with),*)
            }
        }

        #[cfg(feature = "std")]
        impl<$($of)*, F: FnMut($($type),*) -> Result<(), E>> $kind for Mutex<F> {
            fn run(&self, $($with: $type),*) -> Result<(), E> {
                self.lock().unwrap_or_else(PoisonError::into_inner)($($with),*)
            }
        }

        systems! {
            $kind, (&self, $($with: $type),*) { (**self).run($($with),*) }
            [$($of)*] &(dyn $kind + '_);
            [$($of)*] &(dyn $kind + Sync + '_);
            [$($of)*] &(dyn $kind + Send + Sync + '_);
            [$($of)*] Box<dyn $kind + '_>;
            [$($of)*] Box<dyn $kind + Sync + '_>;
            [$($of)*] Box<dyn $kind + Send + Sync + '_>;
            [$($of)*, T: $kind + ?Sized] Arc<T>;
        }
    };
    ($kind:path, $with:tt $run:tt $([$($of:tt)*] $pointer:ty;)*) => {$(
        impl<$($of)*> $kind for $pointer {
            fn run $with -> Result<(), E> $run
        }
    )*};
}

systems!([S: Source, E] System<S, E>, view: &View<'_>, commands: &mut WorldCommands<'_, S>);
systems!([C, S: Source, E] LogSystem<C, S, E>, commands: &mut LogCommands<'_, C, S>);

shows! {
    SystemCommands<'_>:;
    SystemCommands<'_>(IssuedCommands, Blocks): left;
}
