//! Blocks: the handles that come next are dealt to callers in advance, so which handle a caller
//! gets doesn't depend on which thread is first.
//!
//! [`Entities::share_in`](crate::Entities::share_in) and [`World::open_in`](crate::World::open_in)
//! open a [`Phase`] in blocks, of one of two kinds:
//! - [`Blocks`] refuse a request for more than they have left. So no handle ever depends on a
//!   thread.
//! - [`Overflow`] shares the handles behind the blocks. A reserver whose block is used up goes on
//!   to them, so none is refused as long as the allocator has handles. If
//!   [`Ended::requested_past`] is 0 at the end, no handle depends on a thread. Use it if no spawn
//!   may be lost.
//!
//! [`run_in_blocks`](crate::run_in_blocks) runs systems that fill logs in [`Blocks`], and
//! [`fill_in_blocks`](crate::fill_in_blocks) runs the systems of a world. A [`BlockSize`] for each
//! system [adapts](BlockSize::adapt) to what it wanted, frame by frame:
//!
//! ```
//! # #[cfg(feature = "std")] {
//! use forgeni::{run_in_blocks, Blocks, BlockSize, Entities, LogCommands, StdThreads, SyncPoint};
//!
//! let (mut entities, mut refused) = (Entities::new(), 0);
//! let mut sizes = [BlockSize::new(1_000); 3];
//! for wave in [40, 60, 90, 140] {
//!     // Each system launches a wave, which is larger in each frame.
//!     let launch = |commands: &mut LogCommands<'_, u32, Blocks>| {
//!         (0..wave).try_for_each(|_| match commands.spawn() {
//!             Ok(drone) => commands.push(drone.index()),
//!             Err(why) => why.or_memory(),
//!         })
//!     };
//!     let (phase, mut reservers) = entities.share_in::<Blocks>(&sizes.map(|it| it.size()))?;
//!     let mut logs = run_in_blocks(&StdThreads, &phase, &mut reservers, &[launch; 3], 2)?;
//!     for (size, reserver) in sizes.iter_mut().zip(&reservers) {
//!         size.adapt(reserver.wanted());
//!     }
//!     entities = phase.close(reservers)?.into_entities()?;
//!     refused += logs.iter().map(|log| log.refused()).sum::<usize>();
//!     let _sync = SyncPoint::begin(&mut entities, &mut logs, &mut Vec::new())?;
//! }
//! // A block had 64 handles at first, and then twice as many as the system had wanted.
//! assert_eq!((entities.len(), refused, sizes[0].size()), (990, 0, 280));
//! # }
//! # Ok::<(), Box<dyn std::error::Error + Send + Sync>>(())
//! ```
//!
//! With threads of your own, and blocks that never refuse:
//!
//! ```
//! use forgeni::{BlockSize, Entities, Overflow};
//!
//! let (mut entities, mut sizes) = (Entities::new(), [BlockSize::new(1_000); 3]);
//! for wave in [40, 60, 900] {
//!     let (phase, mut reservers) = entities.share_in::<Overflow>(&sizes.map(|it| it.size()))?;
//!     std::thread::scope(|scope| {
//!         for mine in &mut reservers {
//!             scope.spawn(move || (0..wave).for_each(|_| drop(mine.reserve())));
//!         }
//!     });
//!     for (size, reserver) in sizes.iter_mut().zip(&reservers) {
//!         size.adapt(reserver.wanted());
//!     }
//!     let ended = phase.close(reservers)?;
//!     // In the last frame the blocks have 120 handles, and the rest comes from past them.
//!     assert_eq!(ended.requested_past() > 0, wave == 900);
//!     entities = ended.into_entities()?;
//!     entities.flush(&mut Vec::new())?;
//! }
//! assert_eq!(entities.len(), 3_000);
//! # Ok::<(), Box<dyn std::error::Error + Send + Sync>>(())
//! ```

use crate::phase::opened;
use crate::phases::share_in;
use crate::shown::shows;
use crate::{Entities, HandedBack, Phase, Reserver, ShareError};
use alloc::vec::Vec;

pub use crate::in_blocks::{BlockReserver, BlockSize, Blocks, Deals, Ended, InBlocks, Overflow};
pub use crate::phases::OfBlocks;

/// # Blocks
impl Entities {
    /// Deals out the handles that come next, in blocks of these sizes: each caller gets a reserver
    /// of its own block. A block is smaller if the allocator has no more handles.
    ///
    /// [`share`](Self::share) gives each request the next handle, so which thread gets which handle
    /// depends on the order in which they ask. In blocks it doesn't: the handles of a caller depend
    /// on the allocator, on the sizes, and on what this caller reserved before. So a simulation
    /// whose callers are its systems is the same with any number of threads. A reservation from a
    /// block takes no atomic step.
    ///
    /// In [`Blocks`] a request for more than is left of a block is refused. [`Overflow`] shares the
    /// handles behind the blocks: a reserver whose block is used up goes on to them, so it is
    /// refused only if the allocator has no more. [`Ended::requested_past`] counts the handles that
    /// were requested there: if it is 0, no handle depends on a thread.
    ///
    /// Opening takes time and memory for each block, however large it is. [`Phase::close`] ends the
    /// phase with [`Ended`], which gives the allocator back, and a [`flush`](Self::flush) brings to
    /// life what was used.
    ///
    /// ```
    /// use forgeni::{Blocks, Entities};
    ///
    /// let (phase, mut reservers) = Entities::new().share_in::<Blocks>(&[64, 64])?;
    /// std::thread::scope(|scope| {
    ///     for (number, mine) in reservers.iter_mut().enumerate() {
    ///         scope.spawn(move || {
    ///             let one = mine.reserve().expect("a handle");
    ///             assert_eq!(one.index() as usize, 64 * number);
    ///         });
    ///     }
    /// });
    /// let mut entities = phase.close(reservers)?.into_entities()?;
    /// let mut born = Vec::new();
    /// entities.flush(&mut born)?;
    /// assert_eq!(born.len(), 2);
    ///
    /// // What was left of the blocks is given next, in the same order.
    /// assert_eq!(entities.alloc()?.index(), 1);
    /// # Ok::<(), Box<dyn std::error::Error + Send + Sync>>(())
    /// ```
    ///
    /// With callers that go on past their blocks:
    ///
    /// ```
    /// use forgeni::{Entities, Overflow};
    ///
    /// let (phase, mut reservers) = Entities::new().share_in::<Overflow>(&[2, 2])?;
    /// let second = reservers[1].reserve()?;
    /// let first = reservers[0].reserve_many(2)?;
    /// let past = reservers[0].reserve()?;
    /// assert_eq!((first[0].index(), second.index(), past.index()), (0, 2, 4));
    /// let ended = phase.close(reservers)?;
    /// assert_eq!(ended.requested_past(), 1);
    /// let mut entities = ended.into_entities()?;
    /// let mut born = Vec::new();
    /// entities.flush(&mut born)?;
    /// assert_eq!(born.len(), 4);
    ///
    /// // What was left of the blocks is given next.
    /// assert_eq!(entities.alloc()?.index(), 3);
    /// # Ok::<(), Box<dyn std::error::Error + Send + Sync>>(())
    /// ```
    ///
    /// # Errors
    ///
    /// [`HandedBack`] has the allocator as it was, and the first of these errors that applies:
    /// [`ShareError::NeedsFlush`], [`ShareError::Count`] for more than 1,023 blocks of an
    /// [`Overflow`], [`ShareError::Memory`].
    ///
    /// # Aborts
    ///
    /// The same as for `share`.
    pub fn share_in<S: Deals>(
        self,
        sizes: &[u32],
    ) -> Result<(Phase<S>, Vec<Reserver<S>>), HandedBack<Entities, ShareError>> {
        opened(share_in(self, sizes), Ended::cancel)
    }
}

shows! {
    Blocks: count;
    BlockReserver: size used;
    Ended: requested_past;
}
