// Made of crates/ent_replay/src/trace/call.rt by rust/erase. It isn't edited by hand.

//! A call of an allocator, and what was answered.

use crate::traces::trace::reply::{AllocReply, FlushReply, FreeReply};
use crate::traces::trace::reservation::Reservation;
use crate::allocator::State;
use crate::handles::{Handle, OutOfMemory};

/// A call of an allocator, and its answer. An answer that isn't known is `None`: the call is made,
/// and nothing is compared.
///
/// `Display` writes it as a line of a trace, without the end of the line:
///
/// ```
/// use forgeni::trace::{AllocReply, Call, Reservation, ReserveReply};
///
/// assert_eq!(Call::Alloc(Some(AllocReply::Space)).to_string(), "alloc => space");
/// let refused = Reservation::new(2, 5, ReserveReply::SpaceLeft(3));
/// assert_eq!(Call::Reserve(refused).to_string(), "reserve 2 5 => space left 3");
/// ```
#[derive(Debug, Clone, PartialEq, Eq, Hash)]
pub enum Call {
    /// A call for a handle that is alive at once.
    Alloc(Option<AllocReply>),
    /// A living handle is freed.
    Free(Handle, Option<FreeReply>),
    /// A flush brings to life what is reserved.
    Flush(Option<FlushReply>),
    /// Handles are reserved, for the next flush to bring to life. It is the only call that others
    /// may overlap.
    Reserve(Reservation),
    /// The state of a handle.
    State(Handle, Option<State>),
    /// How many handles are alive.
    Len(Option<u32>),
}

impl Call {
    /// The same call, and if it is a reservation, with this number.
    #[inline]
    pub(super) fn numbered(self, number: u64) -> Self
        // ensures { result ≡ numbered number self }
    {
        match self {
            Call::Reserve(reservation) => Call::Reserve(reservation.numbered(number)),
            other => other,
        }
    }

    /// A copy.
    #[inline]
    pub(super) fn try_copy(&self) -> Result<Self, OutOfMemory>
        // ensures { IfOk result (λ copy. copy ≡ self.now) }
    {
        Ok(match self {
            Call::Alloc(reply) => Call::Alloc(*reply),
            Call::Free(handle, reply) => Call::Free(*handle, *reply),
            Call::Flush(Some(reply)) => Call::Flush(Some(reply.try_copy()?)),
            Call::Flush(None) => Call::Flush(None),
            Call::Reserve(reservation) => Call::Reserve(reservation.try_copy()?),
            Call::State(handle, state) => Call::State(*handle, *state),
            Call::Len(len) => Call::Len(*len),
        })
    }
}
