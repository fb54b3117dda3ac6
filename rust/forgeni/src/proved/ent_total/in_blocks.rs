// Made of crates/ent_total/src/in_blocks.rt by rust/erase. It isn't edited by hand.

//! An allocator is dealt in blocks, one for each reserver.
use alloc::vec::Vec;
use crate::kit::vec::FallibleVec;
use crate::phases::opening::{Opening, begin};
use crate::phases::reserver::Reserver;
use crate::phases::share_error::ShareError;
use crate::allocator::{Entities, Phased};
use crate::in_blocks::{Deals, InBlocks, OverflowReserver};
use crate::handles::HandedBack;

/// Deals the pool's front in blocks of these sizes, one after the other: a block is smaller where
/// the pool ends. The reservers are in the order of the sizes.
///
/// No slot is made, and no list of handles. It takes time and memory for each block, however large
/// they are.
///
/// # Errors
///
/// [`HandedBack`] has the allocator as it was, and the first of these errors that applies:
/// [`ShareError::NeedsFlush`], [`ShareError::Count`] if the source has no form for so many blocks,
/// [`ShareError::Memory`].
///
/// <details><summary>Contract</summary>
///
/// <code style="display: block; tab-size: 4; white-space: pre-wrap">// In the words of [contracts](crate::contracts):
/// ensures start { [IfOk](crate::contracts::logic#IfOk) result (λ o. S.start o.source ≡ entities.allocator) }
/// ensures rows { [IfOk](crate::contracts::logic#IfOk) result (λ o. S.rows o.source ≡ entities.rows) }
/// ensures dealt { [IfOk](crate::contracts::logic#IfOk) result (λ o. [HasDealt](crate::contracts::ent_total::in_blocks#HasDealt) S.blocks S.block S.takes S.fresh
/// &#9;([length](crate::contracts::logic#length) entities.allocator.pool) sizes.now o.source o.returned) }
/// ensures refused { [IsUnopened](crate::contracts::ent_total::opening#IsUnopened) entities.allocator.asked (¬ (S.may_have ([length](crate::contracts::logic#length) sizes.now)))
/// &#9;(λ why. [IsErrAnd](crate::contracts::logic#IsErrAnd) result (λ h. h.error ≡ why)) }
/// ensures handed_back { [IfErr](crate::contracts::logic#IfErr) result (λ h. h.value ≡ entities) }
/// </code>
///
/// </details>
#[inline]
pub fn share_in<S: Deals>(
    entities: Entities,
    sizes: &[u32],
) -> Result<Opening<S>, HandedBack<Entities, ShareError>> {
    if entities.needs_flush() {
        return Err(HandedBack::new(entities, ShareError::NeedsFlush));
    }
    if !S::fits(sizes.len()) {
        return Err(HandedBack::new(entities, ShareError::Count));
    }
    let Ok(reservers) = Vec::with_capacity_fallibly(sizes.len()) else {
        return Err(HandedBack::new(entities, ShareError::Memory));
    };
    let (source, callers) = match S::deal(entities, sizes) {
        Ok(made) => made,
        Err((entities, _)) => return Err(HandedBack::new(entities, ShareError::Memory)),
    };
    match begin(source, callers, reservers) {
        Ok(opening) => Ok(opening),
        Err((source, callers)) => {
            let entities = source.end_with_all(callers).cancel();
            Err(HandedBack::new(entities, ShareError::Memory))
        }
    }
}

/// # Its block
impl<S: InBlocks> Reserver<S> {
    /// Returns the number of handles in its block. It is less than the requested size if the pool
    /// had no more.
    ///
    /// ```
    /// use forgeni::{Entities, Limits, Overflow};
    ///
    /// let entities = Entities::with_limits(Limits::new(100, 1).unwrap());
    /// let (_phase, reservers) = entities.share_in::<Overflow>(&[64, 64])?;
    /// // The pool ends within the second block.
    /// assert_eq!((reservers[0].size(), reservers[1].size()), (64, 36));
    /// # Ok::<(), Box<dyn std::error::Error + Send + Sync>>(())
    /// ```
    ///
    /// <details><summary>Contract</summary>
    ///
    /// <code style="display: block; tab-size: 4; white-space: pre-wrap">// In the words of [contracts](crate::contracts):
    /// ensures { result ≡ (S.block self.now.reserver).size }
    /// </code>
    ///
    /// </details>
    #[must_use]
    #[inline]
    pub fn size(&self) -> u32 {
        S::size_of(&self.reserver)
    }

    /// Returns the number of handles of the block that are used.
    ///
    /// ```
    /// use forgeni::{Entities, Overflow};
    ///
    /// let (_phase, mut reservers) = Entities::new().share_in::<Overflow>(&[10])?;
    /// reservers[0].reserve_many(7)?;
    /// // Three are left of the block, so these five come from past it.
    /// reservers[0].reserve_many(5)?;
    /// assert_eq!(reservers[0].used(), 7);
    /// # Ok::<(), Box<dyn std::error::Error + Send + Sync>>(())
    /// ```
    ///
    /// <details><summary>Contract</summary>
    ///
    /// <code style="display: block; tab-size: 4; white-space: pre-wrap">// In the words of [contracts](crate::contracts):
    /// ensures value { result ≡ (S.block self.now.reserver).used }
    /// ensures within { result ≤ (S.block self.now.reserver).size }
    /// </code>
    ///
    /// </details>
    #[must_use]
    #[inline]
    pub fn used(&self) -> u32 {
        S::used_of(&self.reserver)
    }

    /// Returns the number of handles that are left of the block.
    ///
    /// ```
    /// use forgeni::{Entities, Overflow};
    ///
    /// let (phase, mut reservers) = Entities::new().share_in::<Overflow>(&[10])?;
    /// let mine = &mut reservers[0];
    /// mine.reserve_many(7)?;
    /// // As many sparks as the block still has, so that none depends on another thread.
    /// mine.reserve_many(mine.left())?;
    /// assert_eq!(phase.close(reservers)?.requested_past(), 0);
    /// # Ok::<(), Box<dyn std::error::Error + Send + Sync>>(())
    /// ```
    ///
    /// <details><summary>Contract</summary>
    ///
    /// <code style="display: block; tab-size: 4; white-space: pre-wrap">// In the words of [contracts](crate::contracts):
    /// ensures { result ≡ (S.block self.now.reserver).size - (S.block self.now.reserver).used }
    /// </code>
    ///
    /// </details>
    #[must_use]
    #[inline]
    pub fn left(&self) -> u32 {
        S::size_of(&self.reserver) - S::used_of(&self.reserver)
    }

    /// Returns how large its block should have been: the handles that it used, and those that it
    /// requested past the block. At most 4,294,967,295.
    /// [`BlockSize::adapt`](crate::BlockSize::adapt) takes it.
    ///
    /// ```
    /// use forgeni::{BlockSize, Entities, Overflow};
    ///
    /// let mut size = BlockSize::new(1 << 16);
    /// let (_phase, mut reservers) = Entities::new().share_in::<Overflow>(&[size.size()])?;
    /// reservers[0].reserve_many(1_000)?;
    /// // In the next frame the block is large enough.
    /// size.adapt(reservers[0].wanted());
    /// assert!(size.size() >= 1_000);
    /// # Ok::<(), Box<dyn std::error::Error>>(())
    /// ```
    ///
    /// <details><summary>Contract</summary>
    ///
    /// <code style="display: block; tab-size: 4; white-space: pre-wrap">// In the words of [contracts](crate::contracts):
    /// ensures { result ≡ S.wants self.now.reserver }
    /// </code>
    ///
    /// </details>
    #[must_use]
    #[inline]
    pub fn wanted(&self) -> u32 {
        S::wanted_of(&self.reserver)
    }
}

/// # Its block
impl<S: Phased<Reserver = OverflowReserver>> Reserver<S> {
    /// Returns the number of handles that it has requested past its block, served or refused.
    ///
    /// ```
    /// use forgeni::{Entities, Overflow};
    ///
    /// let (_phase, mut reservers) = Entities::new().share_in::<Overflow>(&[10, 10])?;
    /// reservers[0].reserve_many(8)?;
    /// // The block has only two left, so all three come from the shared handles.
    /// reservers[0].reserve_many(3)?;
    /// assert_eq!((reservers[0].used(), reservers[0].requested_past()), (8, 3));
    /// # Ok::<(), Box<dyn std::error::Error>>(())
    /// ```
    ///
    /// <details><summary>Contract</summary>
    ///
    /// <code style="display: block; tab-size: 4; white-space: pre-wrap">// In the words of [contracts](crate::contracts):
    /// ensures { result ≡ [requested_by](crate::contracts::ent_shared::record#requested_by) self.now.reserver.past.own }
    /// </code>
    ///
    /// </details>
    #[must_use]
    #[inline]
    pub fn requested_past(&self) -> u64 {
        self.reserver.requested_past()
    }
}
