// Made of crates/ent_storage/src/key.rt by rust/erase. It isn't edited by hand.

use crate::handles::Handle;

/// A handle as the index keeps it: two numbers, which are aligned as such. A handle of the package
/// in plain Rust is aligned to 8 bytes, and a pair with it would have 16 bytes instead of 12.
#[derive(Clone, Copy)]
pub struct Key {
    index: u32,
    generation: u32,
}

impl Key {
    /// The key of a handle.
    ///
    /// <details><summary>Contract</summary>
    ///
    /// <code style="display: block; tab-size: 4; white-space: pre-wrap">// In the words of [contracts](crate::contracts):
    /// ensures { result ≡ handle }
    /// </code>
    ///
    /// </details>
    #[inline]
    pub fn of(handle: Handle) -> Self {
        Key {
            index: handle.index(),
            generation: handle.generation(),
        }
    }

    /// The handle of a key.
    ///
    /// <details><summary>Contract</summary>
    ///
    /// <code style="display: block; tab-size: 4; white-space: pre-wrap">// In the words of [contracts](crate::contracts):
    /// ensures { result ≡ self }
    /// </code>
    ///
    /// </details>
    #[inline]
    pub fn handle(self) -> Handle {
        Handle::from_parts(self.index, self.generation)
    }

    /// The index of the handle's slot.
    ///
    /// <details><summary>Contract</summary>
    ///
    /// <code style="display: block; tab-size: 4; white-space: pre-wrap">// In the words of [contracts](crate::contracts):
    /// ensures { result ≡ self.index }
    /// </code>
    ///
    /// </details>
    #[inline]
    pub fn index(self) -> u32 {
        self.index
    }

    /// Both numbers in one, as `Handle::to_bits` has them: one comparison of these compares both.
    #[inline]
    fn bits(self) -> u64
        // ensures bits { result ≡ bits self }
        // ensures in_range { IsHandle self }
    {
        (u64::from(self.generation) << 32) + u64::from(self.index)
    }

    /// Returns `true` if it is the key of the handle.
    ///
    /// <details><summary>Contract</summary>
    ///
    /// <code style="display: block; tab-size: 4; white-space: pre-wrap">// In the words of [contracts](crate::contracts):
    /// ensures { [IsTrue](crate::contracts::logic#IsTrue) result ↔ ([handle_cmp](crate::contracts::ent_handle::handle#handle_cmp) self handle ≡ Equal) }
    /// </code>
    ///
    /// </details>
    #[inline]
    pub fn is_of(self, handle: Handle) -> bool {
        self.bits() == handle.to_bits()
    }

    /// Returns `true` if it comes before the handle. The indices are compared first, since most
    /// differ.
    ///
    /// <details><summary>Contract</summary>
    ///
    /// <code style="display: block; tab-size: 4; white-space: pre-wrap">// In the words of [contracts](crate::contracts):
    /// ensures { [IsTrue](crate::contracts::logic#IsTrue) result ↔ ([handle_cmp](crate::contracts::ent_handle::handle#handle_cmp) self handle ≡ Less) }
    /// </code>
    ///
    /// </details>
    #[inline]
    pub fn is_before(self, handle: Handle) -> bool {
        self.index < handle.index()
            || self.index == handle.index() && self.generation < handle.generation()
    }

    /// Returns `true` if it comes after the handle.
    ///
    /// <details><summary>Contract</summary>
    ///
    /// <code style="display: block; tab-size: 4; white-space: pre-wrap">// In the words of [contracts](crate::contracts):
    /// ensures { [IsTrue](crate::contracts::logic#IsTrue) result ↔ ([handle_cmp](crate::contracts::ent_handle::handle#handle_cmp) self handle ≡ Greater) }
    /// </code>
    ///
    /// </details>
    #[inline]
    pub fn is_after(self, handle: Handle) -> bool {
        handle.index() < self.index
            || self.index == handle.index() && handle.generation() < self.generation
    }
}
