// Made of crates/ent_script/src/heading.rt by rust/erase. It isn't edited by hand.

use crate::scripts::format::Format;
use crate::allocator::Limits;

/// What a script says before its components.
#[derive(Clone, Copy)]
pub(super) struct Heading {
    pub(super) format: Format,
    pub(super) limits: Limits,
}
