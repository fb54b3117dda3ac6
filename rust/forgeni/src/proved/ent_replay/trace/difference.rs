// Made of crates/ent_replay/src/trace/difference.rt by rust/erase. It isn't edited by hand.

//! Where a trace differs.

use crate::traces::handle_list::HandleList;
use crate::traces::trace::call::Call;
use crate::handles::OutOfMemory;

/// The first call whose answer isn't the allocator's. No trace that begins like this agrees.
///
/// Among reservations of threads it is the first one in the order into which the checker put them.
/// In that order the earlier ones agree.
///
/// `Display` writes it in one line, as `differs line 5: len => 3, expected 2`.
///
/// ```
/// use forgeni::{trace, Handle, Limits};
///
/// let mut checker = trace::Checker::new(Limits::GREATEST);
/// checker.len(0)?;
/// let wrong = checker.alloc("7v1".parse::<Handle>()?).err().ok_or("it agrees")?;
/// let it = wrong.difference().ok_or("out of memory")?;
/// assert_eq!(it.to_string(), "differs line 2: alloc => 7v1, expected 0v1");
/// # Ok::<(), Box<dyn std::error::Error>>(())
/// ```
#[derive(Debug, Clone, PartialEq, Eq, Hash)]
pub struct Difference {
    /// The number of the call, from 1. In a trace with one call on each line it is the line.
    pub number: u64,
    /// The call, with its answer.
    pub told: Call,
    /// The same call with what the allocator answers there.
    pub expected: Call,
    /// The front of the allocator's pool before the call: its first 8 handles, or all if there are
    /// fewer.
    pub front: HandleList,
    /// The allocator's cursor before the call.
    pub cursor: i64,
}

impl Difference {
    /// A copy.
    #[inline]
    pub(super) fn try_copy(&self) -> Result<Self, OutOfMemory>
        // ensures { IfOk result (λ copy. copy ≡ self.now) }
    {
        Ok(Difference {
            number: self.number,
            told: self.told.try_copy()?,
            expected: self.expected.try_copy()?,
            front: self.front.try_copy()?,
            cursor: self.cursor,
        })
    }
}
