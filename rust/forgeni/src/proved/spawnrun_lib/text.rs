// Made of crates/spawnrun_lib/src/text.rt by rust/erase. It isn't edited by hand.

//! A text in parts.

use alloc::vec::Vec;
use crate::kit::vec::FallibleVec;
use crate::handles::OutOfMemory;

/// A text in parts, each behind the one before. Contracts see its bytes.
pub struct Text {
    parts: Vec<Vec<u8>>,
}

impl Text {
    /// The text of these parts. It doesn't allocate.
    #[inline]
    pub(super) fn of(parts: Vec<Vec<u8>>) -> Self
        // ensures { result ≡ joined parts.items }
    {
        Text { parts }
    }

    /// A text of one part.
    ///
    /// # Errors
    ///
    /// `Memory` if there isn't enough memory for the list of parts.
    #[inline]
    pub(super) fn one(part: Vec<u8>) -> Result<Self, OutOfMemory>
        // ensures { IfOk result (λ text. text ≡ part.items) }
    {
        let mut parts = Vec::with_capacity_fallibly(1)?;
        parts.push_reserved(part);
        Ok(Text::of(parts))
    }

    /// The parts, in their order.
    ///
    /// <details><summary>Contract</summary>
    ///
    /// <code style="display: block; tab-size: 4; white-space: pre-wrap">// In the words of [contracts](crate::contracts):
    /// ensures { joined result.now ≡ self.now }
    /// </code>
    ///
    /// </details>
    #[inline]
    pub fn parts(&self) -> &[Vec<u8>] {
        &self.parts
    }
}
