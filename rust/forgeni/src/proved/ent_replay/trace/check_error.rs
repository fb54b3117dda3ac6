// Made of crates/ent_replay/src/trace/check_error.rt by rust/erase. It isn't edited by hand.

//! Why a checker stops.

use crate::traces::trace::difference::Difference;
use crate::handles::OutOfMemory;
use crate::kit::alloc::{AllocError, AllocFailed};

/// Why a [`Checker`](crate::traces::trace::Checker) takes no more calls.
///
/// ```
/// use forgeni::trace::{CheckError, Checker};
/// use forgeni::{Handle, Limits};
///
/// let mut checker = Checker::new(Limits::GREATEST);
/// // The first handle of all is 0v1.
/// match checker.alloc("1v1".parse::<Handle>()?) {
///     Err(CheckError::Differs(it)) => assert_eq!(it.expected.to_string(), "alloc => 0v1"),
///     other => other?,
/// }
/// # Ok::<(), Box<dyn std::error::Error>>(())
/// ```
#[non_exhaustive]
#[derive(Debug, Clone, PartialEq, Eq, Hash)]
pub enum CheckError {
    /// An answer isn't the allocator's.
    Differs(Difference),
    /// More than 2^50 handles were requested since the last flush, which is more than an allocator
    /// here can count.
    TooMany,
    /// Out of memory.
    Memory,
}

impl CheckError {
    /// Returns the difference, if it is one.
    ///
    /// ```
    /// use forgeni::{trace, Limits};
    ///
    /// let mut checker = trace::Checker::new(Limits::GREATEST);
    /// let wrong = checker.len(3).err().ok_or("it agrees")?;
    /// let difference = wrong.difference().ok_or("out of memory")?;
    /// assert_eq!((difference.number, difference.cursor), (1, 0));
    /// # Ok::<(), Box<dyn std::error::Error>>(())
    /// ```
    ///
    /// <details><summary>Contract</summary>
    ///
    /// <code style="display: block; tab-size: 4; white-space: pre-wrap">// In the words of [contracts](crate::contracts):
    /// ensures { [option_copied](crate::contracts::logic#option_copied) result ≡ [difference_of](crate::contracts::ent_replay::recording#difference_of) self.now }
    /// </code>
    ///
    /// </details>
    #[must_use]
    #[inline]
    pub fn difference(&self) -> Option<&Difference> {
        match self {
            CheckError::Differs(difference) => Some(difference),
            _ => None,
        }
    }

    /// A copy, or `Memory` if there isn't enough memory for one.
    #[inline]
    pub(super) fn copied(&self) -> Self
        // ensures { IsCopyOf self.now result }
    {
        match self {
            CheckError::Differs(difference) => match difference.try_copy() {
                Ok(copy) => CheckError::Differs(copy),
                Err(OutOfMemory) => CheckError::Memory,
            },
            CheckError::TooMany => CheckError::TooMany,
            CheckError::Memory => CheckError::Memory,
        }
    }
}

impl From<OutOfMemory> for CheckError {
    #[inline]
    fn from(_refused: OutOfMemory) -> Self {
        CheckError::Memory
    }
}

impl From<AllocError> for CheckError {
    #[inline]
    fn from(_refused: AllocError) -> Self {
        CheckError::Memory
    }
}

impl<T> From<AllocFailed<T>> for CheckError {
    #[inline]
    fn from(_refused: AllocFailed<T>) -> Self {
        CheckError::Memory
    }
}
