// Made of crates/ent_replay/src/outcome.rt by rust/erase. It isn't edited by hand.

use crate::traces::handle_list::HandleList;
use crate::handles::Handle;

/// What an event that was applied gave.
#[derive(Debug, PartialEq, Eq)]
pub enum Outcome {
    /// The handle that `Alloc` took.
    Handle(Handle),
    /// `Alloc` or `Free` while something was asked since the last flush. Nothing changed.
    NeedsFlush,
    /// `Free` gave a handle back.
    Freed {
        /// The handle that was freed.
        handle: Handle,
        /// The handle that its slot gives next. `None` if the slot is retired.
        next: Option<Handle>,
    },
    /// `Free` of a handle that was not alive. Nothing changed.
    NotAlive,
    /// What `Flush` brought to life, in order.
    Born(HandleList),
    /// `Begin` opened a call.
    Open,
    /// The cursor after a `Step`.
    Cursor(i64),
    /// What a served call was given, in order.
    Handles(HandleList),
    /// There were too few handles.
    Space {
        /// How many were requested.
        wanted: u32,
        /// How many were left.
        left: u32,
    },
}
