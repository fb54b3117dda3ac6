// Made of crates/ent_queue/src/leaving.rt by rust/erase. It isn't edited by hand.

//! What a system whose handles come from a block may ask.

use crate::commands::commands::SystemCommands;
use crate::in_blocks::Blocks;

/// # In blocks
impl<O> SystemCommands<'_, O, Blocks> {
    /// Returns the number of handles that are left of the block.
    ///
    /// ```
    /// # #[cfg(feature = "std")] {
    /// use forgeni::{fill_in_blocks, Blocks, OutOfMemory, StdThreads, View, World, WorldCommands};
    ///
    /// /// A burst of what the block still has.
    /// fn burst(_: &View<'_>, out: &mut WorldCommands<'_, Blocks>) -> Result<(), OutOfMemory> {
    ///     let n = out.left();
    ///     out.spawn_many_with(n, &[]).map_or_else(|refused| refused.or_memory(), |_| Ok(()))
    /// }
    ///
    /// let (phase, mut reservers) = World::new().open_in::<Blocks>(&[10, 30])?;
    /// let queues = fill_in_blocks(&StdThreads, &phase, &mut reservers, &[burst; 2], 2)?;
    /// let mut world = phase.close(reservers)?.into_world()?;
    /// world.apply(queues)?;
    /// assert_eq!(world.len(), 40);
    /// # }
    /// # Ok::<(), Box<dyn std::error::Error>>(())
    /// ```
    ///
    /// <details><summary>Contract</summary>
    ///
    /// <code style="display: block; tab-size: 4; white-space: pre-wrap">// In the words of [contracts](crate::contracts):
    /// ensures { result ≡ [left_of](crate::contracts::ent_blocks::drawing#left_of) ([reserver_of](crate::contracts::ent_queue::commands#reserver_of) self.now).block }
    /// </code>
    ///
    /// </details>
    #[must_use]
    #[inline]
    pub fn left(&self) -> u32 {
        self.reserver.left()
    }
}
