// Made of crates/ent_alloc/src/space.rt by rust/erase. It isn't edited by hand.

use core::error::Error;
use core::fmt;

/// The refusal of a request for which too few handles were left.
#[derive(Clone, Copy, Debug, PartialEq, Eq, Hash)]
pub struct Space {
    /// How many handles were requested.
    pub wanted: u32,
    /// How many were left.
    pub left: u32,
}

impl fmt::Display for Space {
    #[inline]
    fn fmt(&self, f: &mut fmt::Formatter<'_>) -> fmt::Result {
        let wanted = self.wanted;
        let left = self.left;
        write!(f, "{wanted} wanted and {left} left")
    }
}

impl Error for Space {}
