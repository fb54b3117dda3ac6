// Made of crates/ent_total/src/of_blocks.rt by rust/erase. It isn't edited by hand.

use crate::phases::in_world::InWorld;
use crate::allocator::Phased;
use crate::in_blocks::{BlockReserver, Blocks, InBlocks};

/// A source whose reservers are those of blocks that refuse: an allocator's, or a world's.
///
/// ```
/// # #[cfg(feature = "std")] {
/// use forgeni::{run_in_blocks, Blocks, Log, LogCommands, OfBlocks, OutOfMemory, Phase};
/// use forgeni::{Reserver, RunError, StdThreads};
///
/// fn launch(commands: &mut LogCommands<'_, u8, Blocks>) -> Result<(), OutOfMemory> {
///     commands.spawn().map_or_else(|refused| refused.or_memory(), |_| commands.push(1))
/// }
///
/// /// Ten systems, in the blocks of an allocator or of a world.
/// fn launch_all<S: OfBlocks>(
///     phase: &Phase<S>,
///     reservers: &mut [Reserver<S>],
/// ) -> Result<Vec<Log<u8>>, RunError> {
///     run_in_blocks(&StdThreads, phase, reservers, &[launch; 10], 4)
/// }
/// # }
/// ```
pub trait OfBlocks: InBlocks<Reserver = BlockReserver> {
    /// Returns the blocks.
    ///
    /// <details><summary>Contract</summary>
    ///
    /// <code style="display: block; tab-size: 4; white-space: pre-wrap">// In the words of [contracts](crate::contracts):
    /// ensures { result.now ≡ of self.now }
    /// </code>
    ///
    /// </details>
    fn blocks(&self) -> &Blocks;
}

impl OfBlocks for Blocks {
    #[inline]
    fn blocks(&self) -> &Blocks {
        self
    }
}

impl OfBlocks for InWorld<Blocks> {
    #[inline]
    fn blocks(&self) -> &Blocks {
        self.dealt.dealer()
    }
}
