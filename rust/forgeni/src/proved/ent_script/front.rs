// Made of crates/ent_script/src/front.rt by rust/erase. It isn't edited by hand.

use alloc::vec::Vec;
use crate::scripts::heading::Heading;
use crate::kit::programs::serde_json::Value;

/// What a script says before its frames.
pub(super) struct Front {
    pub(super) heading: Heading,
    /// The elements of `components`, each cut, if they are an array of at most 256.
    pub(super) components: Option<Vec<Value>>,
}
