//! Logs: spawns and commands of the caller's own type, which systems record, and which a sync point
//! hands to a closure in the order of the systems.
//!
//! A system is a closure over [`LogCommands`](crate::LogCommands), or a type with `run`
//! ([`LogSystem`](crate::LogSystem)). [`run_to_sync_point`](crate::run_to_sync_point) runs systems
//! on workers and begins the sync point of their logs. [`run_logs`](crate::run_logs) returns the
//! logs, and [`run_in_blocks`](crate::run_in_blocks) runs systems that reserve from blocks.
//!
//! ```
//! # #[cfg(feature = "std")] {
//! use forgeni::{run_to_sync_point, Entities, Entry, HandleMap, LogCommands, StdThreads};
//!
//! let mut entities = Entities::new();
//! let mut names = HandleMap::new();
//! let launch = |commands: &mut LogCommands<'_, _>| match commands.spawn() {
//!     Ok(ship) => commands.push((ship, "Argo")),
//!     Err(refused) => refused.or_memory(),
//! };
//! let mut born = Vec::new();
//! let mut sync = run_to_sync_point(&StdThreads, &mut entities, &[launch; 3], 2, &mut born)?;
//! sync.apply(&mut entities, |_, entry| {
//!     if let Entry::Command((ship, name)) = entry {
//!         names.insert(ship, name).map_err(|refused| (entry, refused.into_parts().1))?;
//!     }
//!     Ok(())
//! })?;
//! assert_eq!((born.len(), names.len()), (3, 3));
//! # }
//! # Ok::<(), Box<dyn std::error::Error>>(())
//! ```

use crate::lent::Lent;
use crate::{Handle, Phased, Refused};
use core::fmt;

pub use crate::logs::{BeginError, Entry, Log, Reserves, SyncPoint};

impl<S: Phased> Reserves for Lent<'_, S> {
    #[inline]
    fn reserve_one(&mut self) -> Result<Handle, Refused> {
        self.reserve()
    }
}

impl<C> Default for Log<C> {
    fn default() -> Self {
        Self::new()
    }
}

impl<C> fmt::Debug for SyncPoint<C> {
    fn fmt(&self, out: &mut fmt::Formatter<'_>) -> fmt::Result {
        out.debug_struct("SyncPoint").finish_non_exhaustive()
    }
}
