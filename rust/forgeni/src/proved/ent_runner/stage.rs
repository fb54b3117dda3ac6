// Made of crates/ent_runner/src/stage.rt by rust/erase. It isn't edited by hand.

//! The systems of a run are the jobs of a crew.

use crate::running::crew::Jobs;
use crate::running::systems::Systems;
use crate::in_blocks::{BlockReserver, Blocks, again};
use crate::commands::{SystemCommands, Output};
use crate::reserving::{SharedReserver, SharedSource};

/// Systems over a shared allocator. A worker lends each of its systems its one reserver.
pub(super) struct SharedStage<'a, 's, T> {
    pub(super) shared: &'a SharedSource,
    pub(super) systems: &'s T,
}

impl<O: Output, E, T: Systems<O, SharedSource, E>> Jobs<O, SharedReserver, E> for SharedStage<'_, '_, T> {
    /// Runs the system of this number. Its output has what it added, also if it stopped.
    #[inline]
    fn run(&self, number: usize, reserver: &mut SharedReserver) -> (O, Result<(), E>) {
        let mut commands = SystemCommands::new(self.shared, reserver);
        let ran = self.systems.run_at(number, &mut commands);
        (commands.finish(), ran)
    }
}

/// Systems in blocks, each with the reserver at its number.
pub(super) struct BlockStage<'b, 'r, 's, T> {
    pub(super) blocks: &'b Blocks,
    pub(super) reservers: &'r [BlockReserver],
    pub(super) systems: &'s T,
}

/// Nothing is lent to them: each has its own reserver. So there is nothing that workers share but
/// the claims.
impl<O: Output, E, T: Systems<O, Blocks, E>> Jobs<(O, BlockReserver), (), E>
    for BlockStage<'_, '_, '_, T> {
    /// Runs the system of this number, which is run once. Its output has what it added, also if it
    /// stopped.
    #[inline]
    fn run(&self, number: usize, lent: &mut ()) -> ((O, BlockReserver), Result<(), E>) {
        let mut reserver = again(&self.reservers[number]);
        let mut commands = SystemCommands::new(self.blocks, &mut reserver);
        let ran = self.systems.run_at(number, &mut commands);
        let output = commands.finish();
        ((output, reserver), ran)
    }
}
