// Made of crates/ent_replay/src/fault.rt by rust/erase. It isn't edited by hand.

/// Why an event was not applied. It changed nothing.
#[derive(Clone, Copy, Debug, PartialEq, Eq, Hash)]
pub enum ReplayFault {
    /// An exclusive event while a call was open.
    Busy,
    /// A `Step` or an `Answer` of a caller without an open call.
    NotOpen,
    /// A `Begin` of a caller with an open call.
    AlreadyOpen,
    /// An `Answer` before the call's `Step`.
    NotStepped,
    /// A second `Step` of one call.
    AlreadyStepped,
    /// A `Begin` whose request is above the caller's quota.
    Quota {
        /// The quota that is left.
        left: u64,
    },
    /// There is no such caller.
    Caller,
    /// Memory ran out.
    Memory,
}

impl core::fmt::Display for ReplayFault {
    fn fmt(&self, f: &mut core::fmt::Formatter<'_>) -> core::fmt::Result {
        match self {
            ReplayFault::Busy => write!(f, "a call is open"),
            ReplayFault::NotOpen => write!(f, "the caller has no open call"),
            ReplayFault::AlreadyOpen => write!(f, "the caller has an open call"),
            ReplayFault::NotStepped => write!(f, "the call has not made its step"),
            ReplayFault::AlreadyStepped => write!(f, "the call has made its step"),
            ReplayFault::Quota { left } => write!(f, "the quota left is {left}"),
            ReplayFault::Caller => write!(f, "there is no such caller"),
            ReplayFault::Memory => write!(f, "out of memory"),
        }
    }
}

impl core::error::Error for ReplayFault {}
