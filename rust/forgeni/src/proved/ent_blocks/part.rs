// Made of crates/ent_blocks/src/part.rt by rust/erase. It isn't edited by hand.

use crate::allocator::Portion;

/// The block of one caller, and how many of its handles are used.
pub struct Part {
    before: u32,
    size: u32,
    used: u32,
}

impl Part {
    /// A block of `size` handles, of which none is used, after the first `before` of the pool.
    ///
    /// <details><summary>Contract</summary>
    ///
    /// <code style="display: block; tab-size: 4; white-space: pre-wrap">// In the words of [contracts](crate::contracts):
    /// ensures { result ≡ record { before = before; size = size; used = 0 } }
    /// </code>
    ///
    /// </details>
    #[inline]
    pub fn new(before: u32, size: u32) -> Self {
        Part {
            before,
            size,
            used: 0,
        }
    }

    /// How many handles of the pool stand before the block.
    ///
    /// <details><summary>Contract</summary>
    ///
    /// <code style="display: block; tab-size: 4; white-space: pre-wrap">// In the words of [contracts](crate::contracts):
    /// ensures { result ≡ self.now.before }
    /// </code>
    ///
    /// </details>
    #[inline]
    pub fn before(&self) -> u32 {
        self.before
    }

    /// Returns the number of handles in the block.
    ///
    /// <details><summary>Contract</summary>
    ///
    /// <code style="display: block; tab-size: 4; white-space: pre-wrap">// In the words of [contracts](crate::contracts):
    /// ensures { result ≡ self.now.size }
    /// </code>
    ///
    /// </details>
    #[inline]
    pub fn size(&self) -> u32 {
        self.size
    }

    /// Returns the number of handles of the block that are used.
    ///
    /// <details><summary>Contract</summary>
    ///
    /// <code style="display: block; tab-size: 4; white-space: pre-wrap">// In the words of [contracts](crate::contracts):
    /// ensures value { result ≡ self.now.used }
    /// ensures within { result ≤ self.now.size }
    /// </code>
    ///
    /// </details>
    #[inline]
    pub fn used(&self) -> u32 {
        self.used
    }

    /// Returns the number of handles that are left of the block.
    ///
    /// <details><summary>Contract</summary>
    ///
    /// <code style="display: block; tab-size: 4; white-space: pre-wrap">// In the words of [contracts](crate::contracts):
    /// ensures value { result ≡ self.now.size - self.now.used }
    /// ensures within { self.now.used ≤ self.now.size }
    /// </code>
    ///
    /// </details>
    #[inline]
    pub fn left(&self) -> u32 {
        self.size - self.used
    }

    /// Uses the next `n` handles of the block.
    #[inline]
    pub(crate) fn advance(&mut self, n: u32)
        // requires { self.old.used + n ≤ self.old.size }
        // ensures { self.new ≡ after_use self.old n }
    {
        self.used += n;
    }

    /// The block as a portion of what there is to give.
    ///
    /// <details><summary>Contract</summary>
    ///
    /// <code style="display: block; tab-size: 4; white-space: pre-wrap">// In the words of [contracts](crate::contracts):
    /// ensures value { result ≡ [portion_of](crate::contracts::ent_blocks::blocks#portion_of) self.now }
    /// ensures used { self.now.used ≤ self.now.size }
    /// </code>
    ///
    /// </details>
    #[inline]
    pub fn portion(&self) -> Portion {
        Portion {
            size: self.size,
            used: self.used,
        }
    }

    /// Returns `true` if it is the same block, however many of its handles are used.
    ///
    /// <details><summary>Contract</summary>
    ///
    /// <code style="display: block; tab-size: 4; white-space: pre-wrap">// In the words of [contracts](crate::contracts):
    /// ensures { result ≡ [is_same](crate::contracts::ent_blocks::blocks#is_same) self.now other.now }
    /// </code>
    ///
    /// </details>
    #[inline]
    pub fn is_same(&self, other: &Part) -> bool {
        self.before == other.before && self.size == other.size
    }

    /// The same block, with this many handles used.
    #[inline]
    pub(crate) fn with_used(&self, used: u32) -> Self
        // requires { used ≤ self.now.size }
        // ensures { result ≡ record self.now { used = used } }
    {
        Part {
            before: self.before,
            size: self.size,
            used,
        }
    }
}

/// How many handles the blocks have in all.
#[inline]
pub(super) fn dealt(parts: &[Part]) -> u32
    // requires { dealt parts.now < 2 ^ 32 }
    // ensures { result ≡ dealt parts.now }
{
    let mut count = 0;
    for part in parts {
        count += part.size();
    }
    count
}
