// Made of crates/ent_total/src/reserver.rt by rust/erase. It isn't edited by hand.

use crate::phases::phase::Phase;
use crate::allocator::{Entities, Phased};
use crate::reserving::SharedSource;
use crate::kit::sync::Arc;

/// One caller's right to reserve in a phase of an allocator or of a world. `S` is the source of its
/// handles. In an [`OpenWorld`](crate::phases::OpenWorld) it issues commands too.
///
/// It can go to a thread of its own. A reservation never waits, and in a shared allocator it is one
/// atomic step: the handle is what the allocator would have given to one caller at that moment. No
/// two callers are given the same one. It comes to life after the phase, by the next flush.
///
/// ```
/// use forgeni::Entities;
///
/// let (shared, mut reservers) = Entities::new().share(4)?;
/// std::thread::scope(|scope| {
///     for mine in &mut reservers {
///         scope.spawn(|| mine.reserve_many(10));
///     }
/// });
/// assert_eq!(shared.close(reservers)?.reserved(), 40);
/// # Ok::<(), Box<dyn std::error::Error>>(())
/// ```
///
/// Two threads can't use one reserver at the same time:
///
/// ```compile_fail
/// let (shared, mut reservers) = forgeni::Entities::new().share(1).unwrap();
/// let only = &mut reservers[0];
/// std::thread::scope(|scope| {
///     scope.spawn(|| only.reserve());
///     scope.spawn(|| only.reserve());
/// });
/// ```
#[must_use]
#[repr(align(128))]
pub struct Reserver<S: Phased = SharedSource> {
    pub(super) source: Arc<S>,
    pub(super) reserver: S::Reserver,
    pub(super) number: u64,
}

/// # Looking at entities
impl<S: Phased> Reserver<S> {
    /// Returns the allocator as it was when the phase was opened, like [`Phase::entities`].
    ///
    /// ```
    /// use forgeni::Entities;
    ///
    /// let mut entities = Entities::new();
    /// let old = entities.alloc()?;
    /// let (_shared, mut reservers) = entities.share(1)?;
    /// let new = reservers[0].reserve()?;
    /// let before = reservers[0].entities();
    /// assert!(before.is_alive(old) && !before.is_alive(new));
    /// # Ok::<(), Box<dyn std::error::Error>>(())
    /// ```
    ///
    /// <details><summary>Contract</summary>
    ///
    /// <code style="display: block; tab-size: 4; white-space: pre-wrap">// In the words of [contracts](crate::contracts):
    /// ensures { result.now ≡ record {
    /// &#32;&#32;allocator = S.start self.now.source;
    /// &#32;&#32;rows = S.rows self.now.source;
    /// } }
    /// </code>
    ///
    /// </details>
    #[must_use]
    #[inline]
    pub fn entities(&self) -> &Entities {
        self.source.as_opened()
    }
}

/// # Its phase
impl<S: Phased> Reserver<S> {
    /// Returns the number of reservers of the phase.
    ///
    /// ```
    /// use forgeni::Entities;
    ///
    /// let (_shared, reservers) = Entities::new().share(4)?;
    /// // A quarter of the work for each.
    /// let shares = reservers.iter().map(|one| 1_000 / one.count());
    /// assert_eq!(shares.sum::<usize>(), 1_000);
    /// # Ok::<(), Box<dyn std::error::Error>>(())
    /// ```
    ///
    /// <details><summary>Contract</summary>
    ///
    /// <code style="display: block; tab-size: 4; white-space: pre-wrap">// In the words of [contracts](crate::contracts):
    /// ensures { result ≡ S.count self.now.source }
    /// </code>
    ///
    /// </details>
    #[must_use]
    #[inline]
    pub fn count(&self) -> usize {
        self.source.callers()
    }

    /// Returns `true` if it belongs to this phase.
    ///
    /// ```
    /// use forgeni::Entities;
    ///
    /// let (one, reservers) = Entities::new().share(1)?;
    /// let (other, _) = Entities::new().share(1)?;
    /// assert!(reservers[0].is_of(&one) && !reservers[0].is_of(&other));
    /// # Ok::<(), Box<dyn std::error::Error>>(())
    /// ```
    ///
    /// <details><summary>Contract</summary>
    ///
    /// <code style="display: block; tab-size: 4; white-space: pre-wrap">// In the words of [contracts](crate::contracts):
    /// ensures number { [IsTrue](crate::contracts::logic#IsTrue) result ↔ (self.now.number ≡ phase.now.number) }
    /// ensures source { [IsTrue](crate::contracts::logic#IsTrue) result → self.now.source ≡ phase.now.source }
    /// </code>
    ///
    /// </details>
    #[must_use]
    #[inline]
    pub fn is_of(&self, phase: &Phase<S>) -> bool {
        self.number == phase.number()
    }
}
