// Made of crates/ent_queue/src/kind.rt by rust/erase. It isn't edited by hand.

//! The byte that each kind of command begins with.

pub(super) const SPAWN: u8 = 0;

pub(super) const SPAWN_MANY: u8 = 1;

pub(super) const INSERT: u8 = 2;

pub(super) const REMOVE: u8 = 3;

pub(super) const DESPAWN: u8 = 4;

pub(super) const REFUSED: u8 = 5;
