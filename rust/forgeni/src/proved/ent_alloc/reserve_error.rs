// Made of crates/ent_alloc/src/reserve_error.rt by rust/erase. It isn't edited by hand.

use crate::allocator::refused::Refused;
use crate::allocator::space::Space;
use crate::handles::OutOfMemory;
use crate::kit::alloc::AllocError;

/// Why a call that reserves handles, and keeps them in a list or a queue, gave none.
///
/// ```
/// use forgeni::{Entities, Limits, ReserveError};
///
/// let mut entities = Entities::with_limits(Limits::new(100, 1).unwrap());
/// let sparks = match entities.request_many(150) {
///     // A smaller burst, after the flush.
///     Err(ReserveError::Space { left, .. }) => {
///         entities.flush(&mut Vec::new())?;
///         entities.request_many(left)?
///     }
///     other => other?,
/// };
/// assert_eq!(sparks.len(), 100);
/// # Ok::<(), Box<dyn std::error::Error>>(())
/// ```
#[derive(Clone, Copy, Debug, PartialEq, Eq, Hash)]
pub enum ReserveError {
    /// Fewer handles were left than were requested. The request counts all the same, and no handle
    /// is given until the next flush. A queue or a log of commands keeps the refusal.
    Space {
        /// How many handles were requested.
        wanted: u32,
        /// How many were left.
        left: u32,
    },
    /// More handles were requested than the quota still allows: that of a reserver, or that of an
    /// allocator, which is 2^50 between two flushes. No handle was requested. A queue or a log of
    /// commands keeps the refusal.
    Quota {
        /// How many the quota still allows.
        left: u64,
    },
    /// Out of memory. Nothing has changed.
    Memory,
}

impl core::fmt::Display for ReserveError {
    fn fmt(&self, f: &mut core::fmt::Formatter<'_>) -> core::fmt::Result {
        match self {
            ReserveError::Space { wanted, left } => write!(f, "{wanted} wanted and {left} left"),
            ReserveError::Quota { left } => write!(f, "the quota left is {left}"),
            ReserveError::Memory => write!(f, "out of memory"),
        }
    }
}

impl core::error::Error for ReserveError {}

impl ReserveError {
    /// Returns the error as a system should return it. A refusal doesn't end the system: its queue
    /// or its log keeps it, and the sync point reports it or passes it on. Only running out of
    /// memory ends the system:
    ///
    /// ```
    /// use forgeni::{OutOfMemory, ReserveError};
    ///
    /// let refused = ReserveError::Space { wanted: 2, left: 1 };
    /// assert_eq!(refused.or_memory(), Ok(()));
    /// assert_eq!(ReserveError::Memory.or_memory(), Err(OutOfMemory));
    /// ```
    ///
    /// # Errors
    ///
    /// `Memory`, if that is the error.
    ///
    /// <details><summary>Contract</summary>
    ///
    /// <code style="display: block; tab-size: 4; white-space: pre-wrap">// In the words of [contracts](crate::contracts):
    /// ensures ok { [OnOk](crate::contracts::logic#OnOk) result (self ≢ ReserveError.Memory) }
    /// ensures err { [OnErr](crate::contracts::logic#OnErr) result (self ≡ ReserveError.Memory) }
    /// </code>
    ///
    /// </details>
    #[inline]
    pub fn or_memory(self) -> Result<(), OutOfMemory> {
        match self {
            ReserveError::Space { .. } | ReserveError::Quota { .. } => Ok(()),
            ReserveError::Memory => Err(OutOfMemory),
        }
    }
}

impl From<AllocError> for ReserveError {
    #[inline]
    fn from(_refused: AllocError) -> Self {
        ReserveError::Memory
    }
}

impl From<OutOfMemory> for ReserveError {
    #[inline]
    fn from(_refused: OutOfMemory) -> Self {
        ReserveError::Memory
    }
}

impl From<Refused> for ReserveError {
    #[inline]
    fn from(why: Refused) -> Self {
        match why {
            Refused::Space { wanted, left } => ReserveError::Space { wanted, left },
            Refused::Quota { left } => ReserveError::Quota { left },
        }
    }
}

impl From<Space> for ReserveError {
    #[inline]
    fn from(space: Space) -> Self {
        let Space { wanted, left } = space;
        ReserveError::Space { wanted, left }
    }
}
