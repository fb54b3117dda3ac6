// Made of crates/ent_script/src/at.rt by rust/erase. It isn't edited by hand.

/// The place of an operation in a script. All three are numbered from 0.
#[derive(Clone, Copy)]
pub(super) struct At {
    pub(super) frame: usize,
    pub(super) system: usize,
    pub(super) operation: usize,
}
