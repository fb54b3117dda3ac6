// Made of crates/ent_blocks/src/ended.rt by rust/erase. It isn't edited by hand.

use alloc::vec::Vec;
use crate::in_blocks::closing::take_used;
use crate::in_blocks::part::{Part, dealt};
use crate::allocator::Entities;
use crate::handles::{HandedBack, OutOfMemory};

/// A phase that has ended: the allocator, in which what was used is not yet reserved.
///
/// ```
/// use forgeni::{Entities, Overflow};
///
/// let (phase, mut reservers) = Entities::new().share_in::<Overflow>(&[10])?;
/// reservers[0].reserve_many(10)?;
/// let ended = phase.close(reservers)?;
/// // Nothing was requested past the block, so no handle depends on a thread.
/// assert_eq!(ended.requested_past(), 0);
/// let entities = ended.into_entities()?;
/// assert_eq!(entities.reserved(), 10);
/// # Ok::<(), Box<dyn std::error::Error + Send + Sync>>(())
/// ```
pub struct Ended {
    entities: Entities,
    parts: Vec<Part>,
    requested: u64,
}

/// # Getting the allocator
impl Ended {
    /// Returns the allocator, in which what was used is reserved: a flush brings it to life. What
    /// is left of the blocks can be given again, and comes before the rest of the pool.
    ///
    /// It takes time and memory as the gaps among the handles that were used ask for.
    ///
    /// ```
    /// use forgeni::{Entities, Overflow};
    ///
    /// let (phase, mut reservers) = Entities::new().share_in::<Overflow>(&[2, 2])?;
    /// let one = reservers[1].reserve()?;
    /// let mut entities = phase.close(reservers)?.into_entities()?;
    /// entities.flush(&mut Vec::new())?;
    /// assert!(entities.is_alive(one));
    /// // What is left of the blocks is given next.
    /// assert_eq!(entities.alloc()?.index(), 0);
    /// # Ok::<(), Box<dyn std::error::Error + Send + Sync>>(())
    /// ```
    ///
    /// # Errors
    ///
    /// [`HandedBack`] has this value, if an allocation fails, and for no other reason. The call can
    /// be tried again. It doesn't allocate for a phase without blocks in which nothing came from
    /// the shared cursor.
    ///
    /// <details><summary>Contract</summary>
    ///
    /// <code style="display: block; tab-size: 4; white-space: pre-wrap">// In the words of [contracts](crate::contracts):
    /// ensures after { [IfOk](crate::contracts::logic#IfOk) result (λ entities. entities.allocator
    /// &#9;≡ [after_blocks](crate::contracts::ent_blocks::blocks#after_blocks) self.phase.start self.phase.blocks) }
    /// ensures rows { [IfOk](crate::contracts::logic#IfOk) result (λ entities. entities.rows ≡ self.phase.rows) }
    /// ensures rows_of_living { [IfOk](crate::contracts::logic#IfOk) result [HasRowsOfLiving](crate::contracts::ent_alloc::entities#HasRowsOfLiving) }
    /// ensures waiting { [IfOk](crate::contracts::logic#IfOk) result (λ entities.
    /// &#9;[top](crate::contracts::ent_alloc::sequential#top) entities.allocator ≤ [max](crate::contracts::logic#max) ([top](crate::contracts::ent_alloc::sequential#top) self.phase.start) ([dealt](crate::contracts::ent_blocks::blocks#dealt) self.phase.blocks)) }
    /// &#32;
    /// // No handle was given twice, and none was alive.
    /// ensures distinct { [IfOk](crate::contracts::logic#IfOk) result (λ entities.
    /// &#9;[AllPairs](crate::contracts::logic#AllPairs) (λ g h. g ≢ h) entities.allocator.taken) }
    /// ensures not_live { [IfOk](crate::contracts::logic#IfOk) result (λ entities.
    /// &#9;[All](crate::contracts::logic#All) (λ h. ¬ ([IsLive](crate::contracts::ent_alloc::sound#IsLive) self.phase.start h)) entities.allocator.taken) }
    /// &#32;
    /// // A flush brings to life exactly what was used.
    /// ensures brings_to_life { [IfOk](crate::contracts::logic#IfOk) result (λ entities. (h : [HandleValue](crate::contracts::ent_handle::handle#Handle)) →
    /// &#9;[IsLive](crate::contracts::ent_alloc::sound#IsLive) ([after_flush](crate::contracts::ent_alloc::sequential#after_flush) entities.allocator) h
    /// &#9;↔ ([IsLive](crate::contracts::ent_alloc::sound#IsLive) self.phase.start h ⊎ [Contains](crate::contracts::logic#Contains) entities.allocator.taken h)) }
    /// ensures handed_back { [IfErr](crate::contracts::logic#IfErr) result (λ h. h.value ≡ self) }
    /// &#32;
    /// // Without a block there is nothing to allocate. If there is one, only a test shows that
    /// // ending succeeds.
    /// ensures memory { [OnErr](crate::contracts::logic#OnErr) result (0 \< [length](crate::contracts::logic#length) self.phase.blocks) }
    /// </code>
    ///
    /// </details>
    #[inline]
    pub fn into_entities(self) -> Result<Entities, HandedBack<Self, OutOfMemory>> {
        let Ended {
            mut entities,
            parts,
            requested,
        } = self;
        let Ok(()) = take_used(&mut entities, &parts) else {
            let ended = Ended::new(entities, parts, requested);
            return Err(HandedBack::new(ended, OutOfMemory));
        };
        Ok(entities)
    }

    /// Returns the allocator as it was when the phase was opened: nothing is reserved.
    ///
    /// ```
    /// use forgeni::{Entities, Overflow};
    ///
    /// let (phase, mut reservers) = Entities::new().share_in::<Overflow>(&[2])?;
    /// let first = reservers[0].reserve()?;
    /// // The frame is done again, without what it reserved.
    /// let mut entities = phase.close(reservers)?.cancel();
    /// assert_eq!(entities.alloc()?, first);
    /// # Ok::<(), Box<dyn std::error::Error + Send + Sync>>(())
    /// ```
    ///
    /// <details><summary>Contract</summary>
    ///
    /// <code style="display: block; tab-size: 4; white-space: pre-wrap">// In the words of [contracts](crate::contracts):
    /// ensures allocator { result.allocator ≡ self.phase.start }
    /// ensures rows { result.rows ≡ self.phase.rows }
    /// </code>
    ///
    /// </details>
    #[inline]
    pub fn cancel(self) -> Entities {
        self.entities
    }
}

/// # What went past the blocks
impl Ended {
    /// Returns the number of handles that were requested past a block, whether served or refused.
    /// If it is 0, the handles that each caller got don't depend on the threads.
    ///
    /// ```
    /// use forgeni::{Entities, Overflow};
    ///
    /// let (phase, mut reservers) = Entities::new().share_in::<Overflow>(&[2, 2])?;
    /// reservers[1].reserve_many(2)?;
    /// reservers[1].reserve_many(3)?;
    /// // The block was used up, so three came from the shared handles.
    /// assert_eq!(phase.close(reservers)?.requested_past(), 3);
    /// # Ok::<(), Box<dyn std::error::Error + Send + Sync>>(())
    /// ```
    ///
    /// <details><summary>Contract</summary>
    ///
    /// <code style="display: block; tab-size: 4; white-space: pre-wrap">// In the words of [contracts](crate::contracts):
    /// ensures { result ≡ self.now.requested }
    /// </code>
    ///
    /// </details>
    #[inline]
    pub fn requested_past(&self) -> u64 {
        self.requested
    }
}

impl Ended {
    #[inline]
    pub(super) fn new(entities: Entities, parts: Vec<Part>, requested: u64) -> Self
        // requires { AreUsedOf (record {
        //   start = entities.allocator;
        //   rows = entities.rows;
        //   blocks = parts.items;
        // }) }
        // ensures { result ≡ record {
        //   phase = record {
        //     start = entities.allocator;
        //     rows = entities.rows;
        //     blocks = parts.items;
        //   };
        //   requested = requested;
        // } }
    {
        Ended {
            entities,
            parts,
            requested,
        }
    }

    /// Returns the number of handles in all blocks: no handle behind them was used.
    #[inline]
    pub(crate) fn dealt(&self) -> u32
        // ensures { result ≡ dealt self.now.phase.blocks }
    {
        // Its contract says that the state is sound, and has at most so many handles.
        let _left = self.entities.left();
        dealt(&self.parts)
    }
}
