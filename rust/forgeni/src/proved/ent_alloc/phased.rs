// Made of crates/ent_alloc/src/phased.rt by rust/erase. It isn't edited by hand.

use alloc::vec::Vec;
use crate::allocator::entities::Entities;
use crate::allocator::source::Source;

/// A source whose phase ends when its reservers come back.
///
/// Phases, and how they end, depend only on this trait, whatever their source is.
///
/// ```
/// use forgeni::{Entities, Overflow, Phase, Phased, Reserver};
///
/// /// Ends a phase of either kind, if all of its reservers are there.
/// fn end<S: Phased>(phase: Phase<S>, all: Vec<Reserver<S>>) -> Option<S::Closed> {
///     phase.close(all).ok()
/// }
///
/// let (shared, reservers) = Entities::new().share(2)?;
/// assert!(end(shared, reservers).is_some());
/// let (in_blocks, reservers) = Entities::new().share_in::<Overflow>(&[10])?;
/// assert!(end(in_blocks, reservers).is_some());
/// # Ok::<(), Box<dyn std::error::Error + Send + Sync>>(())
/// ```
pub trait Phased: Source {
    /// What the phase ends with.
    type Closed;

    /// Returns the number of reservers.
    ///
    /// <details><summary>Contract</summary>
    ///
    /// <code style="display: block; tab-size: 4; white-space: pre-wrap">// In the words of [contracts](crate::contracts):
    /// ensures { result ≡ count self.now }
    /// </code>
    ///
    /// </details>
    fn callers(&self) -> usize;

    /// Returns the allocator as it was when the phase was opened.
    ///
    /// <details><summary>Contract</summary>
    ///
    /// <code style="display: block; tab-size: 4; white-space: pre-wrap">// In the words of [contracts](crate::contracts):
    /// ensures { result.now ≡ record {
    /// &#32;&#32;allocator = Self.start self.now;
    /// &#32;&#32;rows = Self.rows self.now;
    /// } }
    /// </code>
    ///
    /// </details>
    fn as_opened(&self) -> &Entities;

    /// Returns `true` if these reservers, which are of this phase, are in an order in which the
    /// source takes them back.
    ///
    /// <details><summary>Contract</summary>
    ///
    /// <code style="display: block; tab-size: 4; white-space: pre-wrap">// In the words of [contracts](crate::contracts):
    /// ensures { [IsTrue](crate::contracts::logic#IsTrue) result ↔ takes self.now reservers.now }
    /// </code>
    ///
    /// </details>
    fn may_take(&self, reservers: &[Self::Reserver]) -> bool;

    /// Ends the phase with all its reservers. It doesn't allocate.
    ///
    /// <details><summary>Contract</summary>
    ///
    /// <code style="display: block; tab-size: 4; white-space: pre-wrap">// In the words of [contracts](crate::contracts):
    /// requires own { [All](crate::contracts::logic#All) (Self.serves self) reservers.items }
    /// requires takes { takes self reservers.items }
    /// requires all { [length](crate::contracts::logic#length) reservers.items ≡ count self }
    /// ensures { closes self reservers.items result }
    /// </code>
    ///
    /// </details>
    fn end_with_all(self, reservers: Vec<Self::Reserver>) -> Self::Closed;

    /// Ends the phase although some reservers may be lost. It doesn't allocate.
    ///
    /// <details><summary>Contract</summary>
    ///
    /// <code style="display: block; tab-size: 4; white-space: pre-wrap">// In the words of [contracts](crate::contracts):
    /// requires own { [All](crate::contracts::logic#All) (Self.serves self) reservers.items }
    /// requires takes { takes self reservers.items }
    /// requires few { [length](crate::contracts::logic#length) reservers.items ≤ count self }
    /// ensures { closes_lost self reservers.items result }
    /// </code>
    ///
    /// </details>
    fn end_with_some(self, reservers: Vec<Self::Reserver>) -> Self::Closed;
}
