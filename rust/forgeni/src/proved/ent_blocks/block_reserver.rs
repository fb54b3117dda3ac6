// Made of crates/ent_blocks/src/block_reserver.rt by rust/erase. It isn't edited by hand.

use crate::in_blocks::held::Held;
use crate::in_blocks::part::Part;
use crate::allocator::Refused;

/// One caller's right to the handles of its block. It is a few numbers: it has no list of handles,
/// and may go to any thread.
///
/// ```
/// use forgeni::{BlockReserver, Blocks, Source};
///
/// /// Code for the reservers of blocks that refuse.
/// fn refuses<S: Source<Reserver = BlockReserver>>() {}
///
/// refuses::<Blocks>();
/// ```
#[repr(align(128))]
pub struct BlockReserver {
    pub(super) part: Part,
    /// How many handles the largest of the refused requests was for.
    pub(super) refused: u32,
}

/// # Its block
impl BlockReserver {
    /// Returns the number of handles in the block. It is less than the requested size if the pool
    /// had no more.
    #[must_use]
    #[inline]
    pub(crate) fn size(&self) -> u32
        // ensures { result ≡ self.now.block.size }
    {
        self.part.size()
    }

    /// Returns the number of handles of the block that are used.
    #[must_use]
    #[inline]
    pub(crate) fn used(&self) -> u32
        // ensures value { result ≡ self.now.block.used }
        // ensures within { result ≤ self.now.block.size }
    {
        self.part.used()
    }

    /// Returns the number of handles that are left of the block.
    #[must_use]
    #[inline]
    pub(crate) fn left(&self) -> u32
        // ensures value { result ≡ self.now.block.size - self.now.block.used }
        // ensures within { self.now.block.used ≤ self.now.block.size }
    {
        self.part.left()
    }

    /// Returns how many handles would have been enough: those that are used, plus the largest of
    /// the requests that were refused because too few were left. It is at most 4,294,967,295.
    /// [`BlockSize::adapt`](crate::in_blocks::BlockSize::adapt) takes it.
    #[must_use]
    #[inline]
    pub(crate) fn wanted(&self) -> u32
        // ensures { result ≡ wanted_by self.now }
    {
        self.part.used().saturating_add(self.refused)
    }
}

impl BlockReserver {
    /// Takes the reserver out, and leaves one of the same block that is used up.
    #[inline]
    pub(crate) fn take(&mut self) -> Self
        // ensures taken { result ≡ self.old }
        // ensures used_up { self.new ≡ used_up self.old }
    {
        let taken = again(self);
        self.part = self.part.with_used(self.part.size());
        taken
    }

    /// Remembers a request for `wanted` handles, of which only `left` are left.
    #[inline]
    pub(super) fn refuse(&mut self, wanted: u32, left: u32) -> Refused
        // ensures remembers { self.new ≡ after_refusal self.old wanted }
        // ensures error { result ≡ why.Space wanted left }
    {
        self.refused = self.refused.max(wanted);
        Refused::Space { wanted, left }
    }
}

impl Held for BlockReserver {
    #[inline]
    fn part(&self) -> &Part {
        &self.part
    }
}

/// A reserver of the same block, which remembers as much. The two give the same handles, so one of
/// them has to be dropped unused, and no contract sees to that. It is for `ent_runner` alone: a
/// frame owns the reservers of its systems, makes another one for a job, which is done once, and
/// drops its own.
///
/// <details><summary>Contract</summary>
///
/// <code style="display: block; tab-size: 4; white-space: pre-wrap">// In the words of [contracts](crate::contracts):
/// ensures { result ≡ reserver.now }
/// </code>
///
/// </details>
#[inline]
pub fn again(reserver: &BlockReserver) -> BlockReserver {
    BlockReserver {
        part: reserver.part.with_used(reserver.part.used()),
        refused: reserver.refused,
    }
}
