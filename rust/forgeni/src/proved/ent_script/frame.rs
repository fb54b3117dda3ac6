// Made of crates/ent_script/src/frame.rt by rust/erase. It isn't edited by hand.

use alloc::vec::Vec;
use crate::scripts::system::System;

/// The systems of a frame, in order. Contracts see the list of them.
pub struct Frame {
    systems: Vec<System>,
}

impl Frame {
    /// The frame of these systems. It doesn't allocate.
    #[inline]
    pub(super) fn new(systems: Vec<System>) -> Self
        // ensures { result ≡ systems.items }
    {
        Frame { systems }
    }

    /// The systems.
    ///
    /// <details><summary>Contract</summary>
    ///
    /// <code style="display: block; tab-size: 4; white-space: pre-wrap">// In the words of [contracts](crate::contracts):
    /// ensures { result.now ≡ self.now }
    /// </code>
    ///
    /// </details>
    #[inline]
    pub fn systems(&self) -> &[System] {
        &self.systems
    }

    /// The systems. It doesn't allocate.
    #[inline]
    pub(super) fn into_systems(self) -> Vec<System>
        // ensures { result.items ≡ self }
    {
        self.systems
    }
}
