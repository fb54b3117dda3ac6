// Made of crates/ent_total/src/sharing.rt by rust/erase. It isn't edited by hand.

//! An allocator is shared: its reservers reserve from one cursor, each by one atomic step.
use alloc::vec::Vec;
use crate::kit::vec::FallibleVec;
use crate::phases::opening::{Opening, begin};
use crate::phases::other_phase::OtherPhase;
use crate::phases::reserver::Reserver;
use crate::phases::share_error::ShareError;
use crate::allocator::Entities;
use crate::handles::HandedBack;
use crate::reserving::SharedSource;

/// How many callers a phase may have.
pub(super) const CALLERS: usize = 1024;

/// Shares an allocator among `count` callers, 1 to 1,024.
///
/// # Errors
///
/// [`HandedBack`] has the allocator as it was, and the first of these errors that applies:
/// [`ShareError::NeedsFlush`], [`ShareError::Count`], [`ShareError::Memory`].
///
/// <details><summary>Contract</summary>
///
/// <code style="display: block; tab-size: 4; white-space: pre-wrap">// In the words of [contracts](crate::contracts):
/// ensures start { [IfOk](crate::contracts::logic#IfOk) result (λ o. o.source.start ≡ entities.allocator) }
/// ensures rows { [IfOk](crate::contracts::logic#IfOk) result (λ o. o.source.rows ≡ entities.rows) }
/// ensures count { [IfOk](crate::contracts::logic#IfOk) result (λ o. o.source.count ≡ count) }
/// ensures may_return { [IfOk](crate::contracts::logic#IfOk) result (λ o.
/// &#9;[records_of](crate::contracts::ent_shared::phase#records_of) o.returned ≡ [opened_records](crate::contracts::ent_shared::record#opened_records) entities.allocator 0 count) }
/// ensures refused { [IsUnopened](crate::contracts::ent_total::opening#IsUnopened) entities.allocator.asked ((count ≡ 0) ⊎ (1024 \< count))
/// &#9;(λ why. [IsErrAnd](crate::contracts::logic#IsErrAnd) result (λ h. h.error ≡ why)) }
/// ensures handed_back { [IfErr](crate::contracts::logic#IfErr) result (λ h. h.value ≡ entities) }
/// </code>
///
/// </details>
#[inline]
pub fn share(
    entities: Entities,
    count: usize,
) -> Result<Opening<SharedSource>, HandedBack<Entities, ShareError>> {
    if entities.needs_flush() {
        return Err(HandedBack::new(entities, ShareError::NeedsFlush));
    }
    if count == 0 || count > CALLERS {
        return Err(HandedBack::new(entities, ShareError::Count));
    }
    let Ok(reservers) = Vec::with_capacity_fallibly(count) else {
        return Err(HandedBack::new(entities, ShareError::Memory));
    };
    let (shared, returned) = match crate::reserving::share(entities, count) {
        Ok(made) => made,
        Err((entities, _)) => return Err(HandedBack::new(entities, ShareError::Memory)),
    };
    match begin(shared, returned, reservers) {
        Ok(opening) => Ok(opening),
        Err((shared, returned)) => {
            let entities = shared.close(returned);
            Err(HandedBack::new(entities, ShareError::Memory))
        }
    }
}

/// # Order and quota
impl Reserver<SharedSource> {
    /// Each later reservation of this one comes after everything that the other one has reserved or
    /// learned of so far. Without a meeting nothing is promised on the order of two reservers. It
    /// neither allocates nor waits.
    ///
    /// ```
    /// use forgeni::Entities;
    ///
    /// let (shared, mut reservers) = Entities::new().share(2)?;
    /// let [one, other] = &mut reservers[..] else { unreachable!() };
    /// let first = other.reserve()?;
    /// one.meet(other)?;
    /// let second = one.reserve()?;
    /// assert_eq!((first.index(), second.index()), (0, 1));
    /// let _entities = shared.close(reservers)?;
    /// # Ok::<(), Box<dyn std::error::Error + Send + Sync>>(())
    /// ```
    ///
    /// # Errors
    ///
    /// [`OtherPhase`] if they are not of one phase. Nothing has changed then.
    ///
    /// <details><summary>Contract</summary>
    ///
    /// <code style="display: block; tab-size: 4; white-space: pre-wrap">// In the words of [contracts](crate::contracts):
    /// ensures same_phase { [OnOk](crate::contracts::logic#OnOk) result (self.old.number ≡ other.old.number) }
    /// ensures other_phase { [OnErr](crate::contracts::logic#OnErr) result (self.old.number ≢ other.old.number) }
    /// ensures meets { [OnOk](crate::contracts::logic#OnOk) result (self.new ≡ record self.old {
    /// &#32;&#32;reserver = record self.old.reserver {
    /// &#9;own = [after_meeting](crate::contracts::ent_shared::moves#after_meeting) self.old.reserver.own other.old.reserver.own;
    /// &#32;&#32;};
    /// }) }
    /// ensures met { other.new ≡ other.old }
    /// ensures unchanged { [OnErr](crate::contracts::logic#OnErr) result (self.new ≡ self.old) }
    /// &#32;
    /// // Every reservation that the other one has made or learned of ends above where the next
    /// // one of this one may begin.
    /// ensures mark { [OnOk](crate::contracts::logic#OnOk) result
    /// &#9;([IsBelow](crate::contracts::ent_shared::phase#IsBelow) self.new.reserver.own.mark other.old.reserver.own.entries) }
    /// </code>
    ///
    /// </details>
    #[inline]
    pub fn meet(&mut self, other: &mut Reserver<SharedSource>) -> Result<(), OtherPhase> {
        if self.number != other.number {
            return Err(OtherPhase);
        }
        self.source.meet(&mut self.reserver, &mut other.reserver);
        Ok(())
    }

    /// Returns its number: its position in the list in which the reservers were given out, counted
    /// from 0.
    ///
    /// ```
    /// use forgeni::Entities;
    ///
    /// let (_shared, reservers) = Entities::new().share(3)?;
    /// // Each thread writes into a list of its own.
    /// let mut lists = vec![Vec::new(); 3];
    /// for mut reserver in reservers.into_iter().rev() {
    ///     lists[reserver.number()] = reserver.reserve_many(2)?;
    /// }
    /// assert_eq!(lists[2][0].index(), 0);
    /// # Ok::<(), Box<dyn std::error::Error>>(())
    /// ```
    ///
    /// <details><summary>Contract</summary>
    ///
    /// <code style="display: block; tab-size: 4; white-space: pre-wrap">// In the words of [contracts](crate::contracts):
    /// ensures { result ≡ self.now.reserver.own.number }
    /// </code>
    ///
    /// </details>
    #[must_use]
    #[inline]
    pub fn number(&self) -> usize {
        self.reserver.number()
    }

    /// Returns the number of handles that it can still request in this phase: 2^40 minus those that
    /// it has requested, served or not.
    ///
    /// ```
    /// use forgeni::Entities;
    ///
    /// let (_shared, mut reservers) = Entities::new().share(1)?;
    /// reservers[0].reserve_many(1_000)?;
    /// assert_eq!(reservers[0].quota_left(), (1 << 40) - 1_000);
    /// # Ok::<(), Box<dyn std::error::Error>>(())
    /// ```
    ///
    /// <details><summary>Contract</summary>
    ///
    /// <code style="display: block; tab-size: 4; white-space: pre-wrap">// In the words of [contracts](crate::contracts):
    /// ensures { result ≡ self.now.reserver.own.left }
    /// </code>
    ///
    /// </details>
    #[must_use]
    #[inline]
    pub fn quota_left(&self) -> u64 {
        self.reserver.left()
    }
}
