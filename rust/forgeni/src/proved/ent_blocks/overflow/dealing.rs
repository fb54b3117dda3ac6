// Made of crates/ent_blocks/src/overflow/dealing.rt by rust/erase. It isn't edited by hand.

//! The dealer reserves all blocks, and every other reserver comes after it.

use crate::reserving::{SharedReserver, SharedSource};

/// Reserves that many handles, as the first reservation of the phase if no other reserver has
/// begun.
#[inline]
pub(super) fn deal(shared: &SharedSource, dealer: &mut SharedReserver, count: u32)
    // requires { IsFresh shared.now dealer.old }
    // ensures of { IsReserverOf shared.now dealer.new }
    // ensures dealt { IsDealer count dealer.new.own }
    // ensures mark { dealer.new.own.mark ≤ℤ (cursor shared.now.start -ℤ pos count) }
{
    if count > 0 {
        let _blocks = shared.reserve_many(dealer, count);
    }
}
