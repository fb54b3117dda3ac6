// Made of crates/ent_blocks/src/deals.rt by rust/erase. It isn't edited by hand.

use alloc::vec::Vec;
use crate::in_blocks::ended::Ended;
use crate::in_blocks::in_blocks::InBlocks;
use crate::allocator::Entities;
use crate::handles::OutOfMemory;

/// A source that deals the front of an allocator's pool in blocks, one to each of its reservers.
///
/// There are two: [`Blocks`](crate::Blocks), which refuses a request for more than is left of a
/// block, and [`Overflow`](crate::Overflow), whose reservers go on to handles that all share.
///
/// ```
/// use forgeni::{Blocks, Deals, Entities, Phase, Reserver};
///
/// /// Ends a phase in blocks of either kind, if all of its reservers are there.
/// fn end<S: Deals>(phase: Phase<S>, all: Vec<Reserver<S>>) -> Option<Entities> {
///     phase.close(all).ok()?.into_entities().ok()
/// }
///
/// let (phase, reservers) = Entities::new().share_in::<Blocks>(&[10])?;
/// assert!(end(phase, reservers).is_some());
/// # Ok::<(), Box<dyn std::error::Error + Send + Sync>>(())
/// ```
pub trait Deals: InBlocks<Closed = Ended> {
    /// Returns `true` if there may be so many blocks.
    ///
    /// <details><summary>Contract</summary>
    ///
    /// <code style="display: block; tab-size: 4; white-space: pre-wrap">// In the words of [contracts](crate::contracts):
    /// ensures { [IsTrue](crate::contracts::logic#IsTrue) result ↔ may_have count }
    /// </code>
    ///
    /// </details>
    fn fits(count: usize) -> bool;

    /// Deals the pool's front in blocks of these sizes, one after the other: a block is smaller
    /// where the pool ends. The reservers are in the order of the sizes.
    ///
    /// # Errors
    ///
    /// [`OutOfMemory`], with the allocator as it was, if an allocation fails, and for no other reason.
    ///
    /// <details><summary>Contract</summary>
    ///
    /// <code style="display: block; tab-size: 4; white-space: pre-wrap">// In the words of [contracts](crate::contracts):
    /// requires flushed { entities.allocator.asked ≡ 0 }
    /// requires few { may_have ([length](crate::contracts::logic#length) sizes.now) }
    /// ensures start { [IfOk](crate::contracts::logic#IfOk) result (λ made. Self.start made.0 ≡ entities.allocator) }
    /// ensures rows { [IfOk](crate::contracts::logic#IfOk) result (λ made. Self.rows made.0 ≡ entities.rows) }
    /// ensures blocks { [IfOk](crate::contracts::logic#IfOk) result (λ made. Self.blocks made.0
    /// &#9;≡ [blocks_from](crate::contracts::ent_blocks::blocks#blocks_from) 0 ([length](crate::contracts::logic#length) entities.allocator.pool) sizes.now) }
    /// ensures reservers { [IfOk](crate::contracts::logic#IfOk) result (λ made. [map](crate::contracts::logic#map) Self.block made.1.items ≡ Self.blocks made.0) }
    /// ensures own { [IfOk](crate::contracts::logic#IfOk) result (λ made. [All](crate::contracts::logic#All) (Self.serves made.0) made.1.items) }
    /// ensures takes { [IfOk](crate::contracts::logic#IfOk) result (λ made. Self.takes made.0 made.1.items) }
    /// ensures count { [IfOk](crate::contracts::logic#IfOk) result (λ made. [length](crate::contracts::logic#length) made.1.items ≡ Self.count made.0) }
    /// ensures many { [IfOk](crate::contracts::logic#IfOk) result (λ made. [length](crate::contracts::logic#length) made.1.items ≡ [length](crate::contracts::logic#length) sizes.now) }
    /// ensures fresh { [IfOk](crate::contracts::logic#IfOk) result (λ made. [All](crate::contracts::logic#All) Self.fresh made.1.items) }
    /// ensures err { [IfErr](crate::contracts::logic#IfErr) result (λ refused. refused.0 ≡ entities) }
    /// </code>
    ///
    /// </details>
    fn deal(
        entities: Entities,
        sizes: &[u32],
    ) -> Result<(Self, Vec<Self::Reserver>), (Entities, OutOfMemory)>
    where
        Self: Sized,;
}
