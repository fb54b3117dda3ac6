// Made of crates/ent_total/src/sync_error.rt by rust/erase. It isn't edited by hand.

use crate::phases::queues::Queues;
use crate::phases::stopped::Stopped;
use core::error::Error;
use core::fmt;

/// Why a sync point wasn't completed.
///
/// ```
/// use forgeni::{SyncError, World};
///
/// let mut world = World::new();
/// let ((), queues) = world.phase(1, |_open, _systems| ())?;
/// let mut save = world.try_clone()?;
/// // The queues of a phase are for the world that had it.
/// assert!(matches!(save.apply(queues), Err(SyncError::OtherWorld(_))));
/// # Ok::<(), Box<dyn std::error::Error>>(())
/// ```
#[non_exhaustive]
#[derive(Debug)]
pub enum SyncError {
    /// The queues are of a phase of another world. Nothing was done, and these are the queues.
    OtherWorld(Queues),
    /// There wasn't enough memory to begin. Nothing was done, and these are the queues.
    Memory(Queues),
    /// Memory ran out at a command. [`Stopped::go_on`] does the rest.
    Stopped(Stopped),
}

impl SyncError {
    /// Returns what it hands back: the queues if nothing was done, and otherwise the sync point
    /// that stopped.
    ///
    /// ```
    /// use forgeni::{Queues, Report, World};
    ///
    /// fn apply(world: &mut World, queues: Queues) -> Option<Report> {
    ///     let error = match world.apply(queues) {
    ///         Ok(report) => return Some(report),
    ///         Err(error) => error,
    ///     };
    ///     match error.into_parts() {
    ///         Ok(queues) => world.apply(queues).ok(),
    ///         Err(stopped) => stopped.go_on(world).ok(),
    ///     }
    /// }
    ///
    /// let mut world = World::new();
    /// let ((), queues) = world.phase(1, |_open, _systems| ())?;
    /// assert!(apply(&mut world, queues).is_some());
    /// # Ok::<(), Box<dyn std::error::Error>>(())
    /// ```
    ///
    /// <details><summary>Contract</summary>
    ///
    /// <code style="display: block; tab-size: 4; white-space: pre-wrap">// In the words of [contracts](crate::contracts):
    /// ensures { result ≡ [parts_of](crate::contracts::ent_total::applying#parts_of) self }
    /// </code>
    ///
    /// </details>
    #[inline]
    pub fn into_parts(self) -> Result<Queues, Stopped> {
        match self {
            SyncError::OtherWorld(queues) | SyncError::Memory(queues) => Ok(queues),
            SyncError::Stopped(stopped) => Err(stopped),
        }
    }
}

impl fmt::Display for SyncError {
    #[inline]
    fn fmt(&self, f: &mut fmt::Formatter<'_>) -> fmt::Result {
        match self {
            SyncError::OtherWorld(_) => f.write_str("the queues are of another world"),
            SyncError::Memory(_) => f.write_str("out of memory"),
            SyncError::Stopped(stopped) => write!(f, "{stopped}"),
        }
    }
}

impl Error for SyncError {}
