// Made of crates/ent_script/src/system.rt by rust/erase. It isn't edited by hand.

use alloc::vec::Vec;
use crate::scripts::operation::Operation;

/// The operations of a system, in order. Contracts see the list of them.
pub struct System {
    operations: Vec<Operation>,
}

impl System {
    /// The system of these operations. It doesn't allocate.
    #[inline]
    pub(super) fn new(operations: Vec<Operation>) -> Self
        // ensures { result ≡ operations.items }
    {
        System { operations }
    }

    /// The operations.
    ///
    /// <details><summary>Contract</summary>
    ///
    /// <code style="display: block; tab-size: 4; white-space: pre-wrap">// In the words of [contracts](crate::contracts):
    /// ensures { result.now ≡ self.now }
    /// </code>
    ///
    /// </details>
    #[inline]
    pub fn operations(&self) -> &[Operation] {
        &self.operations
    }
}
