//! Worlds: entities with numbered 64-bit components, the birth of each, and the commands that
//! systems issue.
//!
//! A [`World`] has all of these. Its systems run in [`frames`](crate::frames), or on threads of the
//! caller's own, with [`World::phase`] or [`World::open`]. A [`Storage`] keeps such components
//! beside an allocator of the caller's.

use crate::numbers::next_number;
use crate::phases::new_world;
use crate::shown::shows;
use crate::Limits;

pub use crate::component::{Birth, ComponentId};
pub use crate::components::StorageImageFault;
pub use crate::phases::{EndedWorld, InWorld, OpenWorld, World};
pub use crate::phases::{GoOnError, Queues, Stop, Stopped, SyncError};
pub use crate::storage::{Bundle, InlineBundle, Items, Storage, StorageError};
pub use crate::worlds::{Fault, FaultKind, Report, View, WorldImageFault};

/// # Making one
impl World {
    /// Creates a world without entities, with the greatest limits. It doesn't allocate.
    ///
    /// ```
    /// use forgeni::World;
    ///
    /// let world = World::new();
    /// assert!(world.is_empty() && !world.needs_flush());
    /// ```
    #[must_use]
    pub fn new() -> Self {
        Self::with_limits(Limits::GREATEST)
    }

    /// Creates a world without entities, with these limits. It doesn't allocate.
    ///
    /// ```
    /// use forgeni::{AllocError, Limits, World};
    ///
    /// let mut world = World::with_limits(Limits::new(2, 10).unwrap());
    /// world.spawn(&[])?;
    /// world.spawn(&[])?;
    /// assert_eq!(world.spawn(&[]), Err(AllocError::Space));
    /// # Ok::<(), Box<dyn std::error::Error>>(())
    /// ```
    #[must_use]
    pub fn with_limits(limits: Limits) -> Self {
        new_world(limits, next_number())
    }
}

impl Clone for View<'_> {
    fn clone(&self) -> Self {
        *self
    }
}

impl Copy for View<'_> {}

shows! {
    World: len frame;
    EndedWorld: requested_past;
    View<'_>: phase;
}
