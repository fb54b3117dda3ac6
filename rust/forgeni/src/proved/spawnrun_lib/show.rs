// Made of crates/spawnrun_lib/src/show.rt by rust/erase. It isn't edited by hand.

/// What names an entity in the text of a run.
#[derive(Clone, Copy, Debug, PartialEq, Eq)]
pub enum Show {
    /// Its birth alone.
    Births,
    /// Its birth and its handle.
    Handles,
}
