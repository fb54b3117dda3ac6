// Made of crates/ent_alloc/src/refused.rt by rust/erase. It isn't edited by hand.

use crate::allocator::space::Space;

/// Why a request or a reservation gave no handle.
///
/// ```
/// use forgeni::{Entities, Limits, Refused};
///
/// let entities = Entities::with_limits(Limits::new(1, 1).unwrap());
/// let (shared, mut reservers) = entities.share(1)?;
/// reservers[0].reserve()?;
/// // The pool is empty until the next flush.
/// assert_eq!(reservers[0].reserve(), Err(Refused::Space { wanted: 1, left: 0 }));
/// assert_eq!(shared.close(reservers)?.reserved(), 1);
/// # Ok::<(), Box<dyn std::error::Error>>(())
/// ```
#[derive(Clone, Copy, Debug, PartialEq, Eq, Hash)]
pub enum Refused {
    /// Fewer handles were left than were requested. The request counts all the same, and no handle
    /// is given until the next flush.
    Space {
        /// How many handles were requested.
        wanted: u32,
        /// How many were left.
        left: u32,
    },
    /// More handles were requested than the quota still allows: that of a reserver, or that of an
    /// allocator, which is 2^50 between two flushes. Nothing has changed.
    Quota {
        /// How many the quota still allows.
        left: u64,
    },
}

impl core::fmt::Display for Refused {
    fn fmt(&self, f: &mut core::fmt::Formatter<'_>) -> core::fmt::Result {
        match self {
            Refused::Space { wanted, left } => write!(f, "{wanted} wanted and {left} left"),
            Refused::Quota { left } => write!(f, "the quota left is {left}"),
        }
    }
}

impl core::error::Error for Refused {}

impl From<Space> for Refused {
    #[inline]
    fn from(space: Space) -> Self {
        let Space { wanted, left } = space;
        Refused::Space { wanted, left }
    }
}
