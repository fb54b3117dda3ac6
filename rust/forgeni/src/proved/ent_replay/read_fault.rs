// Made of crates/ent_replay/src/read_fault.rt by rust/erase. It isn't edited by hand.

use crate::kit::alloc::AllocFailed;

/// What is wrong with a line. The tests are made in the order of this list, and the first one that
/// fails is the cause.
#[derive(Clone, Copy, Debug, PartialEq, Eq, Hash)]
pub enum Cause {
    /// The first word names no event.
    Word,
    /// There are not as many words as that event has.
    Count,
    /// A word for a number is no decimal below 2^32.
    Number,
    /// The word for a handle is not the text of one.
    Handle,
}

impl Cause {
    /// The word that names it: `word`, `count`, `number` or `handle`.
    ///
    /// <details><summary>Contract</summary>
    ///
    /// <code style="display: block; tab-size: 4; white-space: pre-wrap">// In the words of [contracts](crate::contracts):
    /// ensures { result.now ≡ [line_cause_text](crate::contracts::ent_replay::schedule_text#line_cause_text) self }
    /// </code>
    ///
    /// </details>
    #[inline]
    pub fn text(self) -> &'static str {
        match self {
            Cause::Word => "word",
            Cause::Count => "count",
            Cause::Number => "number",
            Cause::Handle => "handle",
        }
    }
}

/// Why a text is no schedule, or could not be read.
#[derive(Clone, Copy, Debug, PartialEq, Eq, Hash)]
pub enum ReadFault {
    /// The first line that names no event.
    Line {
        /// Its number, from 1.
        line: usize,
        /// What is wrong with it.
        cause: Cause,
    },
    /// Memory ran out.
    Memory,
}

impl core::fmt::Display for ReadFault {
    fn fmt(&self, f: &mut core::fmt::Formatter<'_>) -> core::fmt::Result {
        match self {
            ReadFault::Line { line, .. } => write!(f, "line {line} names no event"),
            ReadFault::Memory => write!(f, "out of memory"),
        }
    }
}

impl core::error::Error for ReadFault {}

impl<T> From<AllocFailed<T>> for ReadFault {
    #[inline]
    fn from(_refused: AllocFailed<T>) -> Self {
        ReadFault::Memory
    }
}
