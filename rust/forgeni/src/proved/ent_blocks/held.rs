// Made of crates/ent_blocks/src/held.rt by rust/erase. It isn't edited by hand.

use crate::in_blocks::part::Part;

/// Whatever holds a block.
pub(super) trait Held {
    /// The block.
    fn part(&self) -> &Part;
        // ensures { result.now ≡ block self.now }
}
