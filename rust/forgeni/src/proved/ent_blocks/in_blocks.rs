// Made of crates/ent_blocks/src/in_blocks.rt by rust/erase. It isn't edited by hand.

use crate::allocator::Phased;

/// A source whose reservers have a block each.
///
/// ```
/// use forgeni::{BlockSize, InBlocks, Reserver};
///
/// /// The sizes of the blocks of the next frame.
/// fn adapt<S: InBlocks>(sizes: &mut [BlockSize], reservers: &[Reserver<S>]) {
///     for (size, reserver) in sizes.iter_mut().zip(reservers) {
///         size.adapt(reserver.wanted());
///     }
/// }
/// ```
pub trait InBlocks: Phased {
    /// Returns the number of handles in the reserver's block.
    ///
    /// <details><summary>Contract</summary>
    ///
    /// <code style="display: block; tab-size: 4; white-space: pre-wrap">// In the words of [contracts](crate::contracts):
    /// ensures { result ≡ (block reserver.now).size }
    /// </code>
    ///
    /// </details>
    fn size_of(reserver: &Self::Reserver) -> u32;

    /// Returns the number of handles of the reserver's block that are used.
    ///
    /// <details><summary>Contract</summary>
    ///
    /// <code style="display: block; tab-size: 4; white-space: pre-wrap">// In the words of [contracts](crate::contracts):
    /// ensures value { result ≡ (block reserver.now).used }
    /// ensures within { result ≤ (block reserver.now).size }
    /// </code>
    ///
    /// </details>
    fn used_of(reserver: &Self::Reserver) -> u32;

    /// Returns how large the reserver's block should have been.
    ///
    /// <details><summary>Contract</summary>
    ///
    /// <code style="display: block; tab-size: 4; white-space: pre-wrap">// In the words of [contracts](crate::contracts):
    /// ensures { result ≡ wants reserver.now }
    /// </code>
    ///
    /// </details>
    fn wanted_of(reserver: &Self::Reserver) -> u32;
}
