// Made of crates/ent_replay/src/trace/read_fault.rt by rust/erase. It isn't edited by hand.

//! Why a line of a trace isn't read.

use crate::handles::OutOfMemory;
use crate::kit::alloc::AllocFailed;

/// What is wrong with a line. The tests are made in the order of this list, and the first one that
/// fails is the cause.
#[derive(Clone, Copy, Debug, PartialEq, Eq, Hash)]
pub enum Cause {
    /// The first word names no call.
    Word,
    /// There are not as many words before `=>` as that call has.
    Count,
    /// A word for a number is no decimal below 2^32.
    Number,
    /// The word for a handle is not the text of one.
    Handle,
    /// What follows `=>` isn't an answer to that call, or the answer is missing.
    Reply,
}

impl Cause {
    /// The word that names it: `word`, `count`, `number`, `handle` or `reply`.
    ///
    /// <details><summary>Contract</summary>
    ///
    /// <code style="display: block; tab-size: 4; white-space: pre-wrap">// In the words of [contracts](crate::contracts):
    /// ensures { result.now ≡ [cause_text](crate::contracts::ent_replay::text#cause_text) self }
    /// </code>
    ///
    /// </details>
    #[inline]
    pub fn text(self) -> &'static str {
        match self {
            Cause::Word => "word",
            Cause::Count => "count",
            Cause::Number => "number",
            Cause::Handle => "handle",
            Cause::Reply => "reply",
        }
    }
}

/// Why a line isn't read.
#[derive(Clone, Copy, Debug, PartialEq, Eq, Hash)]
pub enum ReadFault {
    /// It is no call with its answer.
    Cause(Cause),
    /// Memory ran out.
    Memory,
}

impl core::fmt::Display for ReadFault {
    fn fmt(&self, f: &mut core::fmt::Formatter<'_>) -> core::fmt::Result {
        match self {
            ReadFault::Cause(..) => write!(f, "no call with its answer"),
            ReadFault::Memory => write!(f, "out of memory"),
        }
    }
}

impl core::error::Error for ReadFault {}

impl From<Cause> for ReadFault {
    #[inline]
    fn from(cause: Cause) -> Self {
        ReadFault::Cause(cause)
    }
}

impl From<OutOfMemory> for ReadFault {
    #[inline]
    fn from(_refused: OutOfMemory) -> Self {
        ReadFault::Memory
    }
}

impl<T> From<AllocFailed<T>> for ReadFault {
    #[inline]
    fn from(_refused: AllocFailed<T>) -> Self {
        ReadFault::Memory
    }
}
