// Made of crates/ent_replay/src/trace/log.rt by rust/erase. It isn't edited by hand.

//! The log of a caller.

use alloc::vec::Vec;
use crate::kit::vec::FallibleVec;
use crate::traces::trace::checker::Checker;
use crate::traces::trace::reply::ReserveReply;
use crate::traces::trace::reservation::Reservation;
use crate::handles::OutOfMemory;

/// The reservations of one caller, in its order.
///
/// Each thread has a log of its own, and appends to it without a lock. A log has no times: the
/// checker needs none.
///
/// ```
/// use forgeni::trace::{Checker, Log};
/// use forgeni::{Entities, Limits};
///
/// let (shared, mut reservers) = Entities::new().share(2)?;
/// let mut logs = [Log::new(0), Log::new(1)];
/// std::thread::scope(|scope| {
///     for (log, reserver) in logs.iter_mut().zip(&mut reservers) {
///         scope.spawn(|| log.push(1, reserver.reserve().expect("a handle")));
///     }
/// });
/// let mut checker = Checker::new(Limits::GREATEST.keeping_placeholder());
/// logs.iter_mut().try_for_each(|log| checker.join(log))?;
/// checker.finish()?;
/// let _entities = shared.close(reservers)?;
/// # Ok::<(), Box<dyn std::error::Error>>(())
/// ```
#[derive(Debug, Clone, PartialEq, Eq, Hash)]
#[repr(align(128))]
pub struct Log {
    caller: u32,
    reservations: Vec<Reservation>,
}

impl Log {
    /// Creates an empty log for this caller. It doesn't allocate.
    ///
    /// ```
    /// use forgeni::trace;
    ///
    /// // One for each thread, in a vector by its number.
    /// let logs: Vec<_> = (0..8).map(trace::Log::new).collect();
    /// assert_eq!(logs[3].caller(), 3);
    /// ```
    ///
    /// <details><summary>Contract</summary>
    ///
    /// <code style="display: block; tab-size: 4; white-space: pre-wrap">// In the words of [contracts](crate::contracts):
    /// ensures { result ≡ record { caller = caller; reservations = \[\] } }
    /// </code>
    ///
    /// </details>
    #[must_use]
    #[inline]
    pub const fn new(caller: u32) -> Self {
        Log {
            caller,
            reservations: Vec::new(),
        }
    }

    /// Returns the caller whose log it is.
    ///
    /// ```
    /// use forgeni::trace;
    ///
    /// assert_eq!(trace::Log::new(3).caller(), 3);
    /// ```
    ///
    /// <details><summary>Contract</summary>
    ///
    /// <code style="display: block; tab-size: 4; white-space: pre-wrap">// In the words of [contracts](crate::contracts):
    /// ensures { result ≡ self.now.caller }
    /// </code>
    ///
    /// </details>
    #[must_use]
    #[inline]
    pub fn caller(&self) -> u32 {
        self.caller
    }

    /// Returns the reservations that haven't been joined yet.
    ///
    /// ```
    /// use forgeni::{trace, Handle};
    ///
    /// let mut log = trace::Log::new(0);
    /// log.push(1, "0v1".parse::<Handle>()?)?;
    /// log.push(2, trace::ReserveReply::Space)?;
    /// assert_eq!(log.reservations().iter().map(|it| it.requested).sum::<u32>(), 3);
    /// # Ok::<(), Box<dyn std::error::Error>>(())
    /// ```
    ///
    /// <details><summary>Contract</summary>
    ///
    /// <code style="display: block; tab-size: 4; white-space: pre-wrap">// In the words of [contracts](crate::contracts):
    /// ensures { result.now ≡ self.now.reservations }
    /// </code>
    ///
    /// </details>
    #[must_use]
    #[inline]
    pub fn reservations(&self) -> &[Reservation] {
        &self.reservations
    }

    /// Appends a reservation of that many handles, with its answer.
    ///
    /// ```
    /// use forgeni::{trace, Entities};
    ///
    /// let (shared, mut reservers) = Entities::new().share(1)?;
    /// let mut log = trace::Log::new(0);
    /// log.push(10, reservers[0].reserve_many(10)?)?;
    /// assert_eq!(log.reservations()[0].requested, 10);
    /// let _entities = shared.close(reservers)?;
    /// # Ok::<(), Box<dyn std::error::Error>>(())
    /// ```
    ///
    /// # Errors
    ///
    /// `Memory`: out of memory. Nothing is appended.
    ///
    /// <details><summary>Contract</summary>
    ///
    /// <code style="display: block; tab-size: 4; white-space: pre-wrap">// In the words of [contracts](crate::contracts):
    /// ensures ok { [OnOk](crate::contracts::logic#OnOk) result ((told : ReserveReply) × R.converts reply told
    /// &#9;× (self.new ≡ record self.old {
    /// &#9;&#32;&#32;reservations = self.old.reservations
    /// &#9;&#9;&#32;&#32;++ [reservation_of](crate::contracts::ent_replay::recording#reservation_of) self.old.caller requested told ∷ \[\];
    /// &#9;})) }
    /// ensures err { [OnErr](crate::contracts::logic#OnErr) result (self.new ≡ self.old) }
    /// </code>
    ///
    /// </details>
    #[inline]
    pub fn push<R: Into<ReserveReply>>(&mut self, requested: u32, reply: R) -> Result<(), OutOfMemory> {
        self.reservations
            .push_fallibly(Reservation::new(self.caller, requested, reply))?;
        Ok(())
    }

    // Gives all that it has to the checker. It keeps its memory.
    #[inline]
    pub(super) fn hand_over(&mut self, checker: &mut Checker)
        // ensures takes { TakesAll checker.old (reserve_lines self.old.reservations) checker.new }
        // ensures emptied { self.new ≡ emptied self.old }
    {
        checker.take_all(&mut self.reservations);
    }
}
