// Made of crates/ent_replay/src/trace/reply.rt by rust/erase. It isn't edited by hand.

//! What an allocator answered.

use alloc::vec::Vec;
use crate::traces::handle_list::HandleList;
use crate::handles::{Handle, OutOfMemory};

/// The answer to a call for a handle that is alive at once.
///
/// ```
/// use forgeni::trace::{AllocReply, Checker};
/// use forgeni::{AllocError, Handle, Limits};
///
/// fn reply(of: Result<Handle, AllocError>) -> Option<AllocReply> {
///     match of {
///         Ok(one) => Some(AllocReply::Handle(one)),
///         Err(AllocError::NeedsFlush) => Some(AllocReply::NeedsFlush),
///         Err(AllocError::Space) => Some(AllocReply::Space),
///         Err(_) => None,
///     }
/// }
///
/// let mut checker = Checker::new(Limits::new(1, 1).unwrap());
/// checker.alloc("0v1".parse::<Handle>()?)?;
/// checker.alloc(reply(Err(AllocError::Space)).ok_or("out of memory")?)?;
/// # Ok::<(), Box<dyn std::error::Error>>(())
/// ```
#[derive(Clone, Copy, Debug, PartialEq, Eq, Hash)]
pub enum AllocReply {
    /// The handle that came to life.
    Handle(Handle),
    /// No slot was free.
    Space,
    /// Handles were requested since the last flush.
    NeedsFlush,
}

impl From<Handle> for AllocReply {
    #[inline]
    fn from(handle: Handle) -> Self {
        AllocReply::Handle(handle)
    }
}

/// The answer to a call that frees a handle.
///
/// ```
/// use forgeni::{trace, Handle, Limits};
///
/// let mut checker = trace::Checker::new(Limits::new(1, 1).unwrap());
/// let once: Handle = "0v1".parse()?;
/// checker.alloc(once)?;
/// checker.free(once, trace::FreeReply::Retired)?;
/// checker.free(once, trace::FreeReply::NotAlive)?;
/// # Ok::<(), Box<dyn std::error::Error>>(())
/// ```
#[derive(Clone, Copy, Debug, PartialEq, Eq, Hash)]
pub enum FreeReply {
    /// The handle was freed. What its slot gives next isn't compared.
    Freed,
    /// The handle was freed, and its slot gives this one next.
    Next(Handle),
    /// The handle was freed, and its slot gives no other.
    Retired,
    /// The handle wasn't alive.
    NotAlive,
    /// Handles were requested since the last flush.
    NeedsFlush,
}

/// The answer to a flush.
///
/// ```
/// use forgeni::{trace, Handle, Limits};
///
/// let mut checker = trace::Checker::new(Limits::GREATEST);
/// let both: [Handle; 2] = ["0v1".parse()?, "1v1".parse()?];
/// checker.reserve(0, 2, both)?;
/// // An allocator that only counts what came to life.
/// checker.flush(trace::FlushReply::Count(2))?;
/// # Ok::<(), Box<dyn std::error::Error>>(())
/// ```
#[derive(Debug, Clone, PartialEq, Eq, Hash)]
pub enum FlushReply {
    /// The handles that came to life, in their order.
    Born(HandleList),
    /// The number of handles that came to life.
    Count(u32),
}

impl FlushReply {
    /// A copy.
    #[inline]
    pub(super) fn try_copy(&self) -> Result<Self, OutOfMemory>
        // ensures { IfOk result (λ copy. copy ≡ self.now) }
    {
        Ok(match self {
            FlushReply::Born(handles) => FlushReply::Born(handles.try_copy()?),
            FlushReply::Count(count) => FlushReply::Count(*count),
        })
    }
}

impl From<Vec<Handle>> for FlushReply {
    #[inline]
    fn from(born: Vec<Handle>) -> Self {
        FlushReply::Born(HandleList::new(born))
    }
}

/// The answer to a reservation.
///
/// ```
/// use forgeni::{trace, Handle, Limits};
///
/// let mut checker = trace::Checker::new(Limits::new(3, 1).unwrap());
/// checker.reserve(0, 1, "0v1".parse::<Handle>()?)?;
/// checker.reserve(0, 5, trace::ReserveReply::SpaceLeft(2))?;
/// checker.finish()?;
/// # Ok::<(), Box<dyn std::error::Error>>(())
/// ```
#[derive(Debug, Clone, PartialEq, Eq, Hash)]
pub enum ReserveReply {
    /// The handles, in their order.
    Handles(HandleList),
    /// Too few were left. How many isn't compared.
    Space,
    /// Too few were left: only this many.
    SpaceLeft(u32),
}

impl ReserveReply {
    /// A copy.
    #[inline]
    pub(super) fn try_copy(&self) -> Result<Self, OutOfMemory>
        // ensures { IfOk result (λ copy. copy ≡ self.now) }
    {
        Ok(match self {
            ReserveReply::Handles(handles) => ReserveReply::Handles(handles.try_copy()?),
            ReserveReply::Space => ReserveReply::Space,
            ReserveReply::SpaceLeft(left) => ReserveReply::SpaceLeft(*left),
        })
    }
}

impl From<Vec<Handle>> for ReserveReply {
    #[inline]
    fn from(handles: Vec<Handle>) -> Self {
        ReserveReply::Handles(HandleList::new(handles))
    }
}
