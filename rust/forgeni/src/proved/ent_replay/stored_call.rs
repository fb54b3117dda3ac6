// Made of crates/ent_replay/src/stored_call.rt by rust/erase. It isn't edited by hand.

use crate::allocator::Span;

/// What the machine stores of an open call.
///
/// It stores no reply. The positions that the call's step passed determine the reply, however much
/// is reserved after them, so `Answer` reads it from the allocator.
#[derive(Clone, Copy)]
pub(super) struct StoredCall {
    /// How many handles the call requests.
    pub(super) requested: u32,
    /// The positions that its step passed, or `None` before the step.
    pub(super) span: Option<Span>,
}
