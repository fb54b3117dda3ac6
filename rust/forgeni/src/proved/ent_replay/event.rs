// Made of crates/ent_replay/src/event.rt by rust/erase. It isn't edited by hand.

use crate::handles::Handle;

/// One event of a schedule.
///
/// `Alloc`, `Free` and `Flush` are exclusive. A reservation of a caller is three events: `Begin`
/// opens the call with its request, `Step` is its atomic step, and `Answer` gives the reply.
#[derive(Clone, Copy, Debug, PartialEq, Eq, Hash)]
pub enum Event {
    /// Takes one handle.
    Alloc,
    /// Gives one handle back.
    Free(Handle),
    /// Brings to life what is reserved, and renews the quota of every caller.
    Flush,
    /// Opens a call of this caller for `n` handles.
    Begin {
        /// The caller.
        caller: u32,
        /// How many handles it requests.
        n: u32,
    },
    /// The atomic step of this caller's open call.
    Step(u32),
    /// The reply to this caller's open call.
    Answer(u32),
}
