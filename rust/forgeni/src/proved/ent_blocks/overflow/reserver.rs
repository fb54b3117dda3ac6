// Made of crates/ent_blocks/src/overflow/reserver.rt by rust/erase. It isn't edited by hand.

use crate::in_blocks::held::Held;
use crate::in_blocks::part::Part;
use crate::allocator::QUOTA;
use crate::reserving::SharedReserver;

/// One caller's right to the handles of its block, and past it to those that all callers share.
///
/// ```
/// use forgeni::{Overflow, OverflowReserver, Source};
///
/// /// Code for the reservers of blocks that go on.
/// fn goes_on<S: Source<Reserver = OverflowReserver>>() {}
///
/// goes_on::<Overflow>();
/// ```
pub struct OverflowReserver {
    pub(super) part: Part,
    pub(super) past: SharedReserver,
}

impl Held for OverflowReserver {
    #[inline]
    fn part(&self) -> &Part {
        &self.part
    }
}

impl OverflowReserver {
    /// Returns the number of handles in its block.
    #[inline]
    pub(crate) fn size(&self) -> u32
        // ensures { result ≡ self.now.block.size }
    {
        self.part.size()
    }

    /// Returns the number of handles of the block that are used.
    #[inline]
    pub(crate) fn used(&self) -> u32
        // ensures value { result ≡ self.now.block.used }
        // ensures within { result ≤ self.now.block.size }
    {
        self.part.used()
    }

    /// Returns the number of handles that are left of the block.
    #[inline]
    pub(crate) fn left(&self) -> u32
        // ensures value { result ≡ self.now.block.size - self.now.block.used }
        // ensures within { self.now.block.used ≤ self.now.block.size }
    {
        self.part.left()
    }

    /// How many handles it requested past its block, served or refused.
    #[inline]
    pub(crate) fn requested_past(&self) -> u64
        // ensures value { result ≡ requested_by self.now.past.own }
        // ensures within { result ≤ 2 ^ 40 }
    {
        QUOTA - self.past.left()
    }

    /// How many handles of its block would have been enough: those that are used, and those that it
    /// requested past it. At most 4,294,967,295.
    #[inline]
    pub(crate) fn wanted(&self) -> u32
        // ensures { result
        //     ≡ min (self.now.block.used + requested_by self.now.past.own) (2 ^ 32 - 1) }
    {
        let wanted = u64::from(self.part.used()) + self.requested_past();
        if wanted <= u64::from(u32::MAX) {
            wanted as u32
        } else {
            u32::MAX
        }
    }
}
