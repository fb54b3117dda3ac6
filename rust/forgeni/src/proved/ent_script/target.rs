// Made of crates/ent_script/src/target.rt by rust/erase. It isn't edited by hand.

use crate::handles::{Birth, ComponentId, Handle};

/// Which entities an operation is for.
#[derive(Clone, Copy, Debug, PartialEq, Eq, Hash)]
pub enum Target {
    /// What is bound to the name with this number. The names of a system are numbered from 0, in
    /// the order of their first `as`.
    Name(usize),
    /// This handle.
    Handle(Handle),
    /// Each entity that has the component.
    Each(ComponentId),
    /// The entity of this birth, if there is one as the frame begins.
    Birth(Birth),
}
