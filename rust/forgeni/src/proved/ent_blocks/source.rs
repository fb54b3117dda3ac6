// Made of crates/ent_blocks/src/source.rt by rust/erase. It isn't edited by hand.

use alloc::vec::Vec;
use crate::in_blocks::block_reserver::BlockReserver;
use crate::in_blocks::blocks::Blocks;
use crate::in_blocks::deals::Deals;
use crate::in_blocks::ended::Ended;
use crate::in_blocks::in_blocks::InBlocks;
use crate::in_blocks::opening::open_in_blocks;
use crate::allocator::{Entities, Phased, Refused, Reserved, Source};
use crate::handles::{Handle, OutOfMemory};

/// A reservation takes the next handles of the reserver's own block.
impl Source for Blocks {
    type Reserver = BlockReserver;

    #[inline]
    fn was_alive(&self, handle: Handle) -> bool {
        self.opened().is_alive(handle)
    }

    #[inline]
    fn had_row(&self, handle: Handle) -> Option<u32> {
        self.opened().row(handle)
    }

    #[inline]
    fn may_serve(&self, reserver: &BlockReserver, n: u32) -> bool {
        n <= reserver.left()
    }

    #[inline(always)]
    fn serve_one(&self, reserver: &mut BlockReserver) -> Result<Handle, Refused> {
        self.reserve(reserver)
    }

    #[inline(always)]
    fn serve_many(&self, reserver: &mut BlockReserver, n: u32) -> Result<Reserved<'_>, Refused> {
        self.reserve_many(reserver, n)
    }
}

/// Phases in which no handle depends on a thread.
impl Phased for Blocks {
    type Closed = Ended;

    #[inline]
    fn callers(&self) -> usize {
        self.count()
    }

    #[inline]
    fn as_opened(&self) -> &Entities {
        self.opened()
    }

    #[inline]
    fn may_take(&self, reservers: &[BlockReserver]) -> bool {
        self.has_in_order(reservers)
    }

    #[inline]
    fn end_with_all(self, reservers: Vec<BlockReserver>) -> Ended
        // requires own { All (λ r. IsOf self r.block) reservers.items }
        // requires among { IsTrue (are_among self.blocks (blocks_of reservers.items)) }
        // requires all { length reservers.items ≡ length self.blocks }
        // ensures { EndsWithAll self reservers.items result }
    {
        self.close(reservers)
    }

    #[inline]
    fn end_with_some(self, reservers: Vec<BlockReserver>) -> Ended
        // requires own { All (λ r. IsOf self r.block) reservers.items }
        // requires among { IsTrue (are_among self.blocks (blocks_of reservers.items)) }
        // ensures { EndsWithSome self reservers.items result }
    {
        self.close_lost(reservers)
    }
}

impl InBlocks for Blocks {
    #[inline]
    fn size_of(reserver: &BlockReserver) -> u32 {
        reserver.size()
    }

    #[inline]
    fn used_of(reserver: &BlockReserver) -> u32 {
        reserver.used()
    }

    #[inline]
    fn wanted_of(reserver: &BlockReserver) -> u32 {
        reserver.wanted()
    }
}

/// Blocks that refuse a request for more than they have left: any number of them.
impl Deals for Blocks {
    #[inline]
    fn fits(_count: usize) -> bool {
        true
    }

    #[inline]
    fn deal(
        entities: Entities,
        sizes: &[u32],
    ) -> Result<(Self, Vec<BlockReserver>), (Entities, OutOfMemory)> {
        open_in_blocks(entities, sizes)
    }
}
