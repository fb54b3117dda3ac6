//! Threads that reserve at the same time: an allocator is [shared](crate::Entities::share) among
//! [`Reserver`]s, each of which can go to a thread of its own, and [`Phase::close`] gives the
//! allocator back. [`Entities::phase`](crate::Entities::phase) lends them to a closure, and a pool
//! of [`Reservers`] serves threads that come and go.
//!
//! A phase can also be opened [in blocks](crate::blocks), where the handles of a caller don't
//! depend on the other threads: [`Entities::share_in`](crate::Entities::share_in) opens a
//! `Phase<Blocks>`, which has the same calls.
//!
//! ```
//! use forgeni::Entities;
//!
//! let mut entities = Entities::new();
//! let (phase, mut reservers) = entities.share(3)?;
//! std::thread::scope(|scope| {
//!     for mine in &mut reservers {
//!         scope.spawn(|| mine.reserve_many(10));
//!     }
//! });
//! entities = phase.close(reservers)?;
//!
//! // What was reserved comes to life.
//! entities.flush(&mut Vec::new())?;
//! assert_eq!(entities.len(), 30);
//! # Ok::<(), Box<dyn std::error::Error + Send + Sync>>(())
//! ```

use crate::phase::opened;
use crate::phases::share;
use crate::shown::shows;
use crate::{Entities, HandedBack, InBlocks, OpenWorld, SharedSource};
use alloc::vec::Vec;

pub use crate::allocator::Phased;
pub use crate::lent::Lent;
pub use crate::phases::{CloseError, OtherPhase, Phase, Reserver, ShareError};
#[cfg(feature = "std")]
pub use crate::reservers::{Lends, Reservers};

/// # Threads
impl Entities {
    /// Shares the allocator among `callers` reservers, 1 to 1,024, each of which can go to a thread
    /// of its own. [`Phase::close`] gives the allocator back, with all that they reserved.
    ///
    /// While it is shared, the allocator is inside the [`Phase`], and nothing else can use it.
    ///
    /// ```
    /// use forgeni::Entities;
    ///
    /// let (shared, mut reservers) = Entities::new().share(2)?;
    /// std::thread::scope(|scope| {
    ///     for reserver in &mut reservers {
    ///         scope.spawn(|| reserver.reserve_many(10).expect("ten handles"));
    ///     }
    /// });
    /// let mut entities = shared.close(reservers)?;
    /// let mut born = Vec::new();
    /// entities.flush(&mut born)?;
    /// assert_eq!(born.len(), 20);
    /// # Ok::<(), Box<dyn std::error::Error + Send + Sync>>(())
    /// ```
    ///
    /// ```compile_fail
    /// let mut entities = forgeni::Entities::new();
    /// let (shared, reservers) = entities.share(2).unwrap();
    /// entities.alloc(); // it was moved
    /// ```
    ///
    /// # Errors
    ///
    /// [`HandedBack`] has the allocator as it was, and the first of these errors that applies:
    /// [`ShareError::NeedsFlush`], [`ShareError::Count`], [`ShareError::Memory`].
    ///
    /// # Aborts
    ///
    /// Rust's `Arc` ends the process if memory runs out. So the call first allocates and frees as
    /// much memory, and the process ends only if another thread takes it in between.
    pub fn share(
        self,
        callers: usize,
    ) -> Result<(Phase, Vec<Reserver>), HandedBack<Entities, ShareError>> {
        opened(share(self, callers), |entities| entities)
    }
}

shows! {
    Phase[S: Phased]: count returned;
    SharedSource: count len;
    Reserver(SharedSource): number quota_left;
    Reserver(OpenWorld): number;
    Reserver[S: InBlocks]: size used;
}
