// Made of crates/ent_replay/src/trace/reservation.rt by rust/erase. It isn't edited by hand.

//! A reservation of handles.

use crate::traces::trace::reply::ReserveReply;
use crate::handles::OutOfMemory;

/// One reservation of one caller.
///
/// ```
/// use forgeni::trace::{Checker, Reservation};
/// use forgeni::{Handle, Limits};
///
/// // What two threads wrote down, in whatever order.
/// let one = Reservation::new(0, 1, "1v1".parse::<Handle>()?);
/// let other = Reservation::new(1, 1, "0v1".parse::<Handle>()?);
/// Checker::new(Limits::GREATEST).run(vec![one, other])?;
/// # Ok::<(), Box<dyn std::error::Error>>(())
/// ```
#[derive(Debug, Clone, PartialEq, Eq, Hash)]
pub struct Reservation {
    /// The number of its call, from 1. A [`Checker`](crate::traces::trace::Checker) numbers what it takes.
    pub number: u64,
    /// The caller. Reservations of one caller are in its order.
    pub caller: u32,
    /// How many handles were requested.
    pub requested: u32,
    /// The answer.
    pub reply: ReserveReply,
}

impl Reservation {
    /// Creates a reservation of that many handles by this caller, with its answer. It isn't
    /// numbered yet: its number is 0.
    ///
    /// ```
    /// use forgeni::trace;
    ///
    /// let one = trace::Reservation::new(3, 2, trace::ReserveReply::Space);
    /// assert_eq!(trace::Call::Reserve(one).to_string(), "reserve 3 2 => space");
    /// ```
    ///
    /// <details><summary>Contract</summary>
    ///
    /// <code style="display: block; tab-size: 4; white-space: pre-wrap">// In the words of [contracts](crate::contracts):
    /// ensures is { result ≡ [reservation_of](crate::contracts::ent_replay::recording#reservation_of) caller requested result.reply }
    /// ensures reply { R.converts reply result.reply }
    /// </code>
    ///
    /// </details>
    #[must_use]
    #[inline]
    pub fn new<R: Into<ReserveReply>>(caller: u32, requested: u32, reply: R) -> Self {
        Reservation {
            number: 0,
            caller,
            requested,
            reply: reply.into(),
        }
    }

    /// The same with this number.
    #[inline]
    pub(super) fn numbered(self, number: u64) -> Self
        // ensures { result ≡ record self { number = number } }
    {
        let Reservation {
            number: _,
            caller,
            requested,
            reply,
        } = self;
        Reservation {
            number,
            caller,
            requested,
            reply,
        }
    }

    /// A copy.
    #[inline]
    pub(super) fn try_copy(&self) -> Result<Self, OutOfMemory>
        // ensures { IfOk result (λ copy. copy ≡ self.now) }
    {
        Ok(Reservation {
            number: self.number,
            caller: self.caller,
            requested: self.requested,
            reply: self.reply.try_copy()?,
        })
    }
}
