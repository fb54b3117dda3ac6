// Made of crates/ent_log/src/begin_error.rt by rust/erase. It isn't edited by hand.

use crate::handles::Handle;

/// Why a sync point of logs didn't begin. Nothing has changed.
///
/// ```
/// use forgeni::{BeginError, Entities, Log, SyncPoint};
///
/// let (mut entities, mut others) = (Entities::new(), Entities::new());
/// let mut log: Log<()> = Log::new();
/// let one = others.phase(1, |_, reservers| log.spawn(&mut reservers[0]))??;
/// // The log is of another allocator, which would give the same handle again.
/// let begun = SyncPoint::begin(&mut entities, &mut vec![log], &mut Vec::new());
/// assert_eq!(begun.err(), Some(BeginError::NotReserved { handle: one }));
/// # Ok::<(), Box<dyn std::error::Error>>(())
/// ```
#[derive(Clone, Copy, Debug, PartialEq, Eq, Hash)]
#[non_exhaustive]
pub enum BeginError {
    /// The allocator has not reserved this handle, which a spawn returned. It is the first such
    /// handle of the logs. The log is of another allocator, or of an earlier phase, or the phase
    /// isn't closed yet.
    NotReserved {
        /// That handle.
        handle: Handle,
    },
    /// Out of memory.
    Memory,
}

impl core::fmt::Display for BeginError {
    fn fmt(&self, f: &mut core::fmt::Formatter<'_>) -> core::fmt::Result {
        match self {
            BeginError::NotReserved { handle } => write!(f, "{handle} is not reserved"),
            BeginError::Memory => write!(f, "out of memory"),
        }
    }
}

impl core::error::Error for BeginError {}
