// Made of crates/ent_total/src/frame_error.rt by rust/erase. It isn't edited by hand.

use crate::phases::queues::Queues;
use crate::phases::stopped::Stopped;
use crate::handles::OutOfMemory;
use core::error::Error;
use core::fmt;

/// Why a frame wasn't completed.
///
/// ```
/// use forgeni::{run_frame, FrameError, StdThreads, SystemCommands, View, World};
///
/// fn breaks(_: &View<'_>, commands: &mut SystemCommands<'_>) -> Result<(), &'static str> {
///     let _reserved = commands.spawn_with(&[]);
///     Err("no road")
/// }
///
/// let mut world = World::new();
/// let lost = run_frame(&StdThreads, &mut world, &[breaks], 1);
/// assert!(matches!(lost, Err(FrameError::Lost(Some("no road")))));
/// // What it reserved has to be born before the next frame.
/// assert!(matches!(run_frame(&StdThreads, &mut world, &[breaks], 1), Err(FrameError::NeedsFlush)));
/// world.flush()?;
/// assert_eq!(world.len(), 1);
/// # Ok::<(), Box<dyn std::error::Error>>(())
/// ```
#[non_exhaustive]
#[derive(Debug)]
pub enum FrameError<E = OutOfMemory> {
    /// Handles were requested since the last flush. No system ran, and the world is as it was.
    NeedsFlush,
    /// The number of workers isn't one from 1 to 64. No system ran, and the world is as it was.
    Workers,
    /// There are more than 65,536 systems. None of them ran, and the world is as it was.
    Systems,
    /// Memory ran out before any system ran. The world is as it was.
    Memory,
    /// A system returned an error, and this is the first one in the order of the systems. Without
    /// one, some systems didn't run, since no worker has memory for another one. No command took
    /// effect. The handles that the systems reserved stay reserved, and no others: the next flush
    /// brings them to life, without components.
    Lost(Option<E>),
    /// All systems ran, and there wasn't enough memory to begin the sync point. No command took
    /// effect. [`World::apply`](crate::phases::World::apply) does the sync point.
    Unapplied(Queues),
    /// All systems ran, and the sync point stopped because memory ran out at a command.
    /// [`Stopped::go_on`] does the rest.
    Stopped(Stopped),
}

impl<E: fmt::Display> fmt::Display for FrameError<E> {
    #[inline]
    fn fmt(&self, f: &mut fmt::Formatter<'_>) -> fmt::Result {
        match self {
            FrameError::NeedsFlush => f.write_str("a flush is needed first"),
            FrameError::Workers => f.write_str("a frame has 1 to 64 workers"),
            FrameError::Systems => f.write_str("a frame has at most 65,536 systems"),
            FrameError::Memory => f.write_str("out of memory before any system ran"),
            FrameError::Lost(None) => f.write_str("out of memory while the systems ran"),
            FrameError::Lost(Some(error)) => write!(f, "a system stopped: {error}"),
            FrameError::Unapplied(_) => f.write_str("the sync point stopped: out of memory"),
            FrameError::Stopped(stopped) => write!(f, "the sync point stopped: {stopped}"),
        }
    }
}

impl<E: fmt::Debug + fmt::Display> Error for FrameError<E> {}
