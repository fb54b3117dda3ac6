// Made of crates/ent_blocks/src/overflow/source.rt by rust/erase. It isn't edited by hand.

use alloc::vec::Vec;
use crate::in_blocks::deals::Deals;
use crate::in_blocks::ended::Ended;
use crate::in_blocks::in_blocks::InBlocks;
use crate::in_blocks::overflow::opening::open_with_overflow;
use crate::in_blocks::overflow::phase::Overflow;
use crate::in_blocks::overflow::reserver::OverflowReserver;
use crate::allocator::{Entities, Phased, Refused, Reserved, Source};
use crate::handles::{Handle, OutOfMemory};

/// A reservation takes the next handles of the reserver's own block as long as it lasts. Past it,
/// it is one atomic step of the cursor that all reservers share.
impl Source for Overflow {
    type Reserver = OverflowReserver;

    #[inline]
    fn was_alive(&self, handle: Handle) -> bool {
        self.is_alive(handle)
    }

    #[inline]
    fn had_row(&self, handle: Handle) -> Option<u32> {
        self.row(handle)
    }

    #[inline]
    fn may_serve(&self, caller: &OverflowReserver, n: u32) -> bool {
        n <= caller.left() || self.may_be_served_past(caller, n)
    }

    #[inline(always)]
    fn serve_one(&self, caller: &mut OverflowReserver) -> Result<Handle, Refused> {
        self.reserve(caller)
    }

    #[inline(always)]
    fn serve_many(&self, caller: &mut OverflowReserver, n: u32) -> Result<Reserved<'_>, Refused> {
        self.reserve_many(caller, n)
    }
}

/// It [ends](Ended) without memory, and takes its callers back in the order in which they were made.
impl Phased for Overflow {
    type Closed = Ended;

    #[inline]
    fn callers(&self) -> usize {
        self.count()
    }

    #[inline]
    fn as_opened(&self) -> &Entities {
        self.opened()
    }

    #[inline]
    fn may_take(&self, callers: &[OverflowReserver]) -> bool {
        self.has_in_order(callers)
    }

    #[inline]
    fn end_with_all(self, callers: Vec<OverflowReserver>) -> Ended
        // requires own { All (IsCallerOf self) callers.items }
        // requires among { IsTrue (are_among self.blocks (own_blocks callers.items)) }
        // requires all { length callers.items ≡ length self.blocks }
        // ensures { EndsWithAll self callers.items result }
    {
        self.close(callers)
    }

    #[inline]
    fn end_with_some(self, callers: Vec<OverflowReserver>) -> Ended
        // requires own { All (IsCallerOf self) callers.items }
        // requires among { IsTrue (are_among self.blocks (own_blocks callers.items)) }
        // ensures { EndsWithSome self callers.items result }
    {
        self.close_lost(callers)
    }
}

impl InBlocks for Overflow {
    #[inline]
    fn size_of(caller: &OverflowReserver) -> u32 {
        caller.size()
    }

    #[inline]
    fn used_of(caller: &OverflowReserver) -> u32 {
        caller.used()
    }

    #[inline]
    fn wanted_of(caller: &OverflowReserver) -> u32 {
        caller.wanted()
    }
}

/// Blocks whose reservers go on to one cursor that all share: at most 1,023 of them.
impl Deals for Overflow {
    #[inline]
    fn fits(count: usize) -> bool {
        count < 1024
    }

    #[inline]
    fn deal(
        entities: Entities,
        sizes: &[u32],
    ) -> Result<(Self, Vec<OverflowReserver>), (Entities, OutOfMemory)> {
        open_with_overflow(entities, sizes)
    }
}
