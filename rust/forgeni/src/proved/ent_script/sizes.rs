// Made of crates/ent_script/src/sizes.rt by rust/erase. It isn't edited by hand.

//! How much a script may have.

/// How many components a script may list.
pub const COMPONENTS: usize = 256;

/// How many frames a script may have.
pub(super) const FRAMES: usize = 1_000;

/// How many systems a frame may have.
pub(super) const SYSTEMS: usize = 256;

/// How many operations a system may have.
pub(super) const OPERATIONS: usize = 10_000;

/// How many entities one operation may spawn.
pub(super) const SPAWNED: u32 = 65_536;
