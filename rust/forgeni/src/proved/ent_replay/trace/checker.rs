// Made of crates/ent_replay/src/trace/checker.rt by rust/erase. It isn't edited by hand.

//! A checker that is fed call by call, and keeps what it found.

use alloc::vec::Vec;
use crate::traces::trace::call::Call;
use crate::traces::trace::check_error::CheckError;
use crate::traces::trace::comparer::Comparer;
use crate::traces::trace::log::Log;
use crate::traces::trace::reply::{AllocReply, FlushReply, FreeReply, ReserveReply};
use crate::traces::trace::reservation::Reservation;
use crate::allocator::{Entities, Limits, State};
use crate::handles::Handle;
use core::mem;

/// Takes the calls of an allocator one after the other, and compares each answer with the proved
/// allocator's.
///
/// It holds the allocator and the reservations since the last call of another kind, and nothing
/// else. A call that fails is the last one: each later call returns the same error. So the first
/// difference stays, and no call is compared after it.
///
/// ```
/// use forgeni::trace::Checker;
/// use forgeni::{Entities, Limits};
///
/// let limits = Limits::GREATEST.keeping_placeholder(); // those of `Entities::new`
/// let (mut entities, mut checker) = (Entities::new(), Checker::new(limits));
/// checker.alloc(entities.alloc()?)?;
/// checker.reserve(7, 2, entities.request_many(2)?)?;
/// let mut born = Vec::new();
/// entities.flush(&mut born)?;
/// checker.flush(born)?;
/// let wrong = checker.len(4).unwrap_err();
/// assert_eq!(wrong.to_string(), "differs line 4: len => 4, expected 3");
/// assert_eq!(checker.len(3), Err(wrong));
/// # Ok::<(), Box<dyn std::error::Error>>(())
/// ```
pub struct Checker {
    // What compares the calls, or why it has stopped.
    comparer: Result<Comparer, CheckError>,
    calls: u64,
}

/// # Making one
impl Checker {
    /// Creates a checker for an allocator that has given no handles. It doesn't allocate.
    ///
    /// The limits are those of the allocator that is checked: how many slots it may make, and after
    /// which generation it retires a slot. The greatest limits allow every handle, including
    /// [`Handle::PLACEHOLDER`](crate::Handle::PLACEHOLDER).
    ///
    /// ```
    /// use forgeni::trace::Checker;
    /// use forgeni::{Entities, Limits};
    ///
    /// let limits = Limits::new(2, 10).expect("in range");
    /// let mut entities = Entities::with_limits(limits);
    /// let mut checker = Checker::new(limits.keeping_placeholder());
    /// checker.alloc(entities.alloc()?)?;
    /// assert_eq!((checker.calls(), checker.error()), (1, None));
    /// # Ok::<(), Box<dyn std::error::Error>>(())
    /// ```
    ///
    /// <details><summary>Contract</summary>
    ///
    /// <code style="display: block; tab-size: 4; white-space: pre-wrap">// In the words of [contracts](crate::contracts):
    /// ensures opens { result.comparer ≡ [Ok](crate::contracts::logic#Ok) (record { allocator = [opening](crate::contracts::ent_alloc::sequential#opening) limits; run = \[\] }) }
    /// ensures none { result.calls ≡ 0 }
    /// </code>
    ///
    /// </details>
    #[must_use]
    #[inline]
    pub fn new(limits: Limits) -> Self {
        Checker {
            comparer: Ok(Comparer::new(limits)),
            calls: 0,
        }
    }

    /// Creates a checker that begins in the middle: the allocator that is checked is in the same
    /// state as this one, including its limits and its requests. It doesn't allocate.
    ///
    /// ```
    /// use forgeni::Entities;
    /// use forgeni::trace::Checker;
    ///
    /// let mut entities = Entities::new();
    /// entities.alloc_many(2)?;
    /// let mut checker = Checker::from_entities(entities.try_clone()?);
    /// checker.alloc(entities.alloc()?)?;
    /// checker.len(3)?;
    /// # Ok::<(), Box<dyn std::error::Error>>(())
    /// ```
    ///
    /// <details><summary>Contract</summary>
    ///
    /// <code style="display: block; tab-size: 4; white-space: pre-wrap">// In the words of [contracts](crate::contracts):
    /// ensures begins { result.comparer
    /// &#9;≡ [Ok](crate::contracts::logic#Ok) (record { allocator = entities.allocator; run = \[\] }) }
    /// ensures none { result.calls ≡ 0 }
    /// </code>
    ///
    /// </details>
    #[must_use]
    #[inline]
    pub fn from_entities(entities: Entities) -> Self {
        Checker {
            comparer: Ok(Comparer::from_entities(entities)),
            calls: 0,
        }
    }
}

/// # Calls
impl Checker {
    /// Takes a call for a handle that is alive at once.
    ///
    /// ```
    /// use forgeni::trace::{AllocReply, Checker};
    /// use forgeni::{Handle, Limits};
    ///
    /// let mut checker = Checker::new(Limits::new(1, 10).expect("in range"));
    /// checker.alloc("0v1".parse::<Handle>()?)?;
    /// checker.alloc(AllocReply::Space)?; // it may make one slot
    /// # Ok::<(), Box<dyn std::error::Error>>(())
    /// ```
    ///
    /// # Errors
    ///
    /// The same as for [`call`](Self::call).
    ///
    /// <details><summary>Contract</summary>
    ///
    /// <code style="display: block; tab-size: 4; white-space: pre-wrap">// In the words of [contracts](crate::contracts):
    /// ensures takes { (told : AllocReply) × R.converts reply told
    /// &#9;× [Takes](crate::contracts::ent_replay::recording#Takes) self.old (Call.Alloc ([Some](crate::contracts::logic#Some) told)) self.new }
    /// ensures answers { [Answers](crate::contracts::ent_replay::recording#Answers) self.new.comparer result }
    /// </code>
    ///
    /// </details>
    #[inline]
    pub fn alloc<R: Into<AllocReply>>(&mut self, reply: R) -> Result<(), CheckError> {
        self.call(Call::Alloc(Some(reply.into())))
    }

    /// Takes a call that freed a handle.
    ///
    /// ```
    /// use forgeni::trace::{Checker, FreeReply};
    /// use forgeni::{Handle, Limits};
    ///
    /// let mut checker = Checker::new(Limits::GREATEST);
    /// let handle: Handle = "0v1".parse()?;
    /// checker.alloc(handle)?;
    /// checker.free(handle, FreeReply::Next("0v2".parse::<Handle>()?))?;
    /// checker.free(handle, FreeReply::NotAlive)?;
    /// # Ok::<(), Box<dyn std::error::Error>>(())
    /// ```
    ///
    /// # Errors
    ///
    /// The same as for [`call`](Self::call).
    ///
    /// <details><summary>Contract</summary>
    ///
    /// <code style="display: block; tab-size: 4; white-space: pre-wrap">// In the words of [contracts](crate::contracts):
    /// ensures takes { [Takes](crate::contracts::ent_replay::recording#Takes) self.old (Call.Free handle ([Some](crate::contracts::logic#Some) reply)) self.new }
    /// ensures answers { [Answers](crate::contracts::ent_replay::recording#Answers) self.new.comparer result }
    /// </code>
    ///
    /// </details>
    #[inline]
    pub fn free(&mut self, handle: Handle, reply: FreeReply) -> Result<(), CheckError> {
        self.call(Call::Free(handle, Some(reply)))
    }

    /// Takes a flush. The answer is the handles that came to life, or their number.
    ///
    /// ```
    /// use forgeni::trace::{Checker, FlushReply};
    /// use forgeni::{Handle, Limits};
    ///
    /// let mut checker = Checker::new(Limits::GREATEST);
    /// let reserved = ["0v1".parse::<Handle>()?, "1v1".parse()?];
    /// checker.reserve(0, 2, reserved)?;
    /// checker.flush(reserved)?;
    /// checker.flush(FlushReply::Count(0))?;
    /// # Ok::<(), Box<dyn std::error::Error>>(())
    /// ```
    ///
    /// # Errors
    ///
    /// The same as for [`call`](Self::call).
    ///
    /// <details><summary>Contract</summary>
    ///
    /// <code style="display: block; tab-size: 4; white-space: pre-wrap">// In the words of [contracts](crate::contracts):
    /// ensures takes { (told : FlushReply) × R.converts reply told
    /// &#9;× [Takes](crate::contracts::ent_replay::recording#Takes) self.old (Call.Flush ([Some](crate::contracts::logic#Some) told)) self.new }
    /// ensures answers { [Answers](crate::contracts::ent_replay::recording#Answers) self.new.comparer result }
    /// </code>
    ///
    /// </details>
    #[inline]
    pub fn flush<R: Into<FlushReply>>(&mut self, reply: R) -> Result<(), CheckError> {
        self.call(Call::Flush(Some(reply.into())))
    }

    /// Takes a reservation of handles, which the next flush brings to life. Other reservations may
    /// overlap this one: it may come before or after those of other callers.
    ///
    /// ```
    /// use forgeni::trace::{Checker, ReserveReply};
    /// use forgeni::{Handle, Limits};
    ///
    /// let mut checker = Checker::new(Limits::new(3, 10).expect("in range"));
    /// // Caller 5 reserved before caller 2.
    /// checker.reserve(2, 1, "2v1".parse::<Handle>()?)?;
    /// checker.reserve(5, 2, ["0v1".parse::<Handle>()?, "1v1".parse()?])?;
    /// checker.reserve(5, 1, ReserveReply::SpaceLeft(0))?;
    /// checker.finish()?;
    /// # Ok::<(), Box<dyn std::error::Error>>(())
    /// ```
    ///
    /// # Errors
    ///
    /// The same as for [`call`](Self::call). The answer is compared at the next call of another
    /// kind, or at the end.
    ///
    /// <details><summary>Contract</summary>
    ///
    /// <code style="display: block; tab-size: 4; white-space: pre-wrap">// In the words of [contracts](crate::contracts):
    /// ensures takes { (told : ReserveReply) × R.converts reply told
    /// &#9;× [Takes](crate::contracts::ent_replay::recording#Takes) self.old (Call.Reserve ([reservation_of](crate::contracts::ent_replay::recording#reservation_of) caller requested told)) self.new }
    /// ensures answers { [Answers](crate::contracts::ent_replay::recording#Answers) self.new.comparer result }
    /// </code>
    ///
    /// </details>
    #[inline]
    pub fn reserve<R: Into<ReserveReply>>(
        &mut self,
        caller: u32,
        requested: u32,
        reply: R,
    ) -> Result<(), CheckError> {
        self.call(Call::Reserve(Reservation::new(caller, requested, reply)))
    }

    /// Takes a call for the state of a handle.
    ///
    /// ```
    /// use forgeni::trace::Checker;
    /// use forgeni::{Handle, Limits, State};
    ///
    /// let mut checker = Checker::new(Limits::GREATEST);
    /// let reserved: Handle = "0v1".parse()?;
    /// checker.reserve(0, 1, reserved)?;
    /// checker.state(reserved, State::Reserved)?;
    /// # Ok::<(), Box<dyn std::error::Error>>(())
    /// ```
    ///
    /// # Errors
    ///
    /// The same as for [`call`](Self::call).
    ///
    /// <details><summary>Contract</summary>
    ///
    /// <code style="display: block; tab-size: 4; white-space: pre-wrap">// In the words of [contracts](crate::contracts):
    /// ensures takes { [Takes](crate::contracts::ent_replay::recording#Takes) self.old (Call.State handle ([Some](crate::contracts::logic#Some) reply)) self.new }
    /// ensures answers { [Answers](crate::contracts::ent_replay::recording#Answers) self.new.comparer result }
    /// </code>
    ///
    /// </details>
    #[inline]
    pub fn state(&mut self, handle: Handle, reply: State) -> Result<(), CheckError> {
        self.call(Call::State(handle, Some(reply)))
    }

    /// Takes a call for the number of living handles.
    ///
    /// ```
    /// use forgeni::trace::Checker;
    /// use forgeni::{Handle, Limits};
    ///
    /// let mut checker = Checker::new(Limits::GREATEST);
    /// checker.alloc("0v1".parse::<Handle>()?)?;
    /// checker.reserve(0, 1, "1v1".parse::<Handle>()?)?;
    /// checker.len(1)?; // what is reserved isn't alive
    /// # Ok::<(), Box<dyn std::error::Error>>(())
    /// ```
    ///
    /// # Errors
    ///
    /// The same as for [`call`](Self::call).
    ///
    /// <details><summary>Contract</summary>
    ///
    /// <code style="display: block; tab-size: 4; white-space: pre-wrap">// In the words of [contracts](crate::contracts):
    /// ensures takes { [Takes](crate::contracts::ent_replay::recording#Takes) self.old (Call.Len ([Some](crate::contracts::logic#Some) reply)) self.new }
    /// ensures answers { [Answers](crate::contracts::ent_replay::recording#Answers) self.new.comparer result }
    /// </code>
    ///
    /// </details>
    #[inline]
    pub fn len(&mut self, reply: u32) -> Result<(), CheckError> {
        self.call(Call::Len(Some(reply)))
    }

    /// Takes the next call. Calls are numbered in the order in which they are taken.
    ///
    /// A reservation is compared together with those before and after it, at the next call of
    /// another kind, or at the end.
    ///
    /// # Errors
    ///
    /// - `Differs`: an answer isn't the allocator's, of this call or of a reservation before it.
    /// - `TooMany`: it is a reservation, and with it more than 2^50 handles were requested since
    ///   the last flush.
    /// - `Memory`: out of memory.
    ///
    /// The first error is kept, and each later call returns a copy of it, or `Memory` if there
    /// isn't enough memory for a copy. [`error`](Self::error) returns the one that is kept.
    ///
    /// ```
    /// use forgeni::trace::{Call, CheckError, Checker};
    /// use forgeni::Limits;
    ///
    /// let mut checker = Checker::new(Limits::GREATEST);
    /// checker.call(Call::Alloc(None))?; // its answer isn't known
    /// let wrong = checker.call(Call::Len(Some(2))).unwrap_err();
    /// assert_eq!(wrong.to_string(), "differs line 2: len => 2, expected 1");
    /// assert_eq!(checker.call(Call::Len(Some(1))), Err(wrong));
    /// assert_eq!(checker.calls(), 2);
    /// # Ok::<(), CheckError>(())
    /// ```
    ///
    /// <details><summary>Contract</summary>
    ///
    /// <code style="display: block; tab-size: 4; white-space: pre-wrap">// In the words of [contracts](crate::contracts):
    /// ensures takes { [Takes](crate::contracts::ent_replay::recording#Takes) self.old call self.new }
    /// ensures answers { [Answers](crate::contracts::ent_replay::recording#Answers) self.new.comparer result }
    /// </code>
    ///
    /// </details>
    #[inline]
    pub fn call(&mut self, call: Call) -> Result<(), CheckError> {
        self.take(call);
        self.answer()
    }
}

/// # Reservations of threads
impl Checker {
    /// Takes all reservations of a log, in its order, and leaves the log empty. They may overlap
    /// with all that was reserved since the last call of another kind.
    ///
    /// ```
    /// use forgeni::trace::{Checker, Log};
    /// use forgeni::{Handle, Limits};
    ///
    /// let one: Handle = "0v1".parse()?;
    /// let (mut checker, mut log) = (Checker::new(Limits::GREATEST), Log::new(3));
    /// log.push(1, one)?;
    /// checker.join(&mut log)?;
    /// assert!(log.reservations().is_empty());
    /// checker.flush([one])?;
    /// # Ok::<(), Box<dyn std::error::Error>>(())
    /// ```
    ///
    /// # Errors
    ///
    /// The same as for [`call`](Self::call). The log is emptied in any case.
    ///
    /// <details><summary>Contract</summary>
    ///
    /// <code style="display: block; tab-size: 4; white-space: pre-wrap">// In the words of [contracts](crate::contracts):
    /// ensures takes { [TakesAll](crate::contracts::ent_replay::recording#TakesAll) self.old ([reserve_lines](crate::contracts::ent_replay::checker#reserve_lines) log.old.reservations) self.new }
    /// ensures emptied { log.new ≡ [emptied](crate::contracts::ent_replay::logs#emptied) log.old }
    /// ensures answers { [Answers](crate::contracts::ent_replay::recording#Answers) self.new.comparer result }
    /// </code>
    ///
    /// </details>
    #[inline]
    pub fn join(&mut self, log: &mut Log) -> Result<(), CheckError> {
        log.hand_over(self);
        self.answer()
    }

    /// Takes reservations that overlapped, with one another and with those that were taken since
    /// the last call of another kind. They are compared now: what is reserved later came later.
    ///
    /// Those of one caller are in that caller's order. Those of different callers have no order.
    ///
    /// ```
    /// use forgeni::trace::{Checker, Reservation};
    /// use forgeni::{Handle, Limits};
    ///
    /// let mut checker = Checker::new(Limits::GREATEST);
    /// let one = Reservation::new(0, 1, "1v1".parse::<Handle>()?);
    /// let other = Reservation::new(1, 1, "0v1".parse::<Handle>()?);
    /// checker.run(vec![one, other])?;
    /// // Slot 0 was given in that run.
    /// assert!(checker.run(vec![Reservation::new(2, 1, "0v1".parse::<Handle>()?)]).is_err());
    /// # Ok::<(), Box<dyn std::error::Error>>(())
    /// ```
    ///
    /// # Errors
    ///
    /// The same as for [`call`](Self::call).
    ///
    /// <details><summary>Contract</summary>
    ///
    /// <code style="display: block; tab-size: 4; white-space: pre-wrap">// In the words of [contracts](crate::contracts):
    /// ensures takes { [TakesRun](crate::contracts::ent_replay::recording#TakesRun) self.old reservations.items self.new }
    /// ensures answers { [Answers](crate::contracts::ent_replay::recording#Answers) self.new.comparer result }
    /// </code>
    ///
    /// </details>
    #[inline]
    pub fn run(&mut self, reservations: Vec<Reservation>) -> Result<(), CheckError> {
        let mut reservations = reservations;
        self.take_all(&mut reservations);
        self.end_run();
        self.answer()
    }
}

/// # The verdict
impl Checker {
    /// Ends the trace, and compares the last reservations.
    ///
    /// ```
    /// use forgeni::trace::Checker;
    /// use forgeni::{Handle, Limits};
    ///
    /// let mut checker = Checker::new(Limits::GREATEST);
    /// checker.reserve(0, 1, "1v1".parse::<Handle>()?)?; // another one may come before it
    /// assert!(checker.finish().is_err());
    /// # Ok::<(), Box<dyn std::error::Error>>(())
    /// ```
    ///
    /// # Errors
    ///
    /// `Differs` or `Memory`, as for [`call`](Self::call), or the error that was kept.
    ///
    /// <details><summary>Contract</summary>
    ///
    /// <code style="display: block; tab-size: 4; white-space: pre-wrap">// In the words of [contracts](crate::contracts):
    /// ensures closes { [IfOk](crate::contracts::logic#IfOk) self.comparer (λ c. [Closes](crate::contracts::ent_replay::recording#Closes) c result) }
    /// ensures stopped { [IfErr](crate::contracts::logic#IfErr) self.comparer (λ e. result ≡ [Err](crate::contracts::logic#Err) e) }
    /// </code>
    ///
    /// </details>
    #[inline]
    pub fn finish(self) -> Result<(), CheckError> {
        let Checker {
            comparer,
            calls: _,
        } = self;
        match comparer {
            Ok(comparer) => {
                comparer.finish()?;
                Ok(())
            }
            Err(error) => Err(error),
        }
    }

    /// Returns the error that stopped it, if there was one.
    ///
    /// ```
    /// use forgeni::{trace, Limits};
    ///
    /// let mut checker = trace::Checker::new(Limits::GREATEST);
    /// // A game may go on, and look once a frame.
    /// let _first = checker.len(1);
    /// let _later = checker.len(0);
    /// assert!(checker.error().is_some_and(|it| it.to_string().starts_with("differs line 1")));
    /// ```
    ///
    /// <details><summary>Contract</summary>
    ///
    /// <code style="display: block; tab-size: 4; white-space: pre-wrap">// In the words of [contracts](crate::contracts):
    /// ensures { [option_copied](crate::contracts::logic#option_copied) result ≡ [error_in](crate::contracts::ent_replay::recording#error_in) self.now.comparer }
    /// </code>
    ///
    /// </details>
    #[must_use]
    #[inline]
    pub fn error(&self) -> Option<&CheckError> {
        match &self.comparer {
            Ok(_) => None,
            Err(error) => Some(error),
        }
    }

    /// Returns the number of calls that it has taken, up to the first that failed. It is also the
    /// number of the last call.
    ///
    /// It counts to 2^64 − 1, and stays there.
    ///
    /// ```
    /// use forgeni::{trace, Limits};
    ///
    /// let mut checker = trace::Checker::new(Limits::GREATEST);
    /// for _ in 0..10 {
    ///     checker.len(0)?;
    /// }
    /// assert_eq!(checker.calls(), 10);
    /// # Ok::<(), Box<dyn std::error::Error>>(())
    /// ```
    ///
    /// <details><summary>Contract</summary>
    ///
    /// <code style="display: block; tab-size: 4; white-space: pre-wrap">// In the words of [contracts](crate::contracts):
    /// ensures { result ≡ self.now.calls }
    /// </code>
    ///
    /// </details>
    #[must_use]
    #[inline]
    pub fn calls(&self) -> u64 {
        self.calls
    }
}

impl Checker {
    // Counts a call and compares it, unless the checker has stopped.
    #[inline]
    fn take(&mut self, call: Call)
        // ensures { Takes self.old call self.new }
    {
        // What compares is taken by value, and comes back only if nothing is wrong.
        match mem::replace(&mut self.comparer, Err(CheckError::Memory)) {
            Ok(comparer) => {
                self.calls = self.calls.saturating_add(1);
                self.comparer = comparer.take(self.calls, call.numbered(self.calls));
            }
            Err(error) => self.comparer = Err(error),
        }
    }

    // Takes all reservations of the list, in their order. The list is empty then, and keeps its
    // memory.
    #[inline]
    pub(super) fn take_all(&mut self, reservations: &mut Vec<Reservation>)
        // ensures takes { TakesAll self.old (reserve_lines reservations.old.items) self.new }
        // ensures emptied { reservations.new.items ≡ [] }
    {
        reservations.reverse();
        while let Some(reservation) = reservations.pop() {
            self.take(Call::Reserve(reservation));
        }
    }

    // Compares the reservations since the last other call, unless the checker has stopped.
    #[inline]
    fn end_run(&mut self)
        // ensures { EndsRun self.old self.new }
    {
        match mem::replace(&mut self.comparer, Err(CheckError::Memory)) {
            Ok(comparer) => self.comparer = comparer.finish(),
            Err(stopped) => self.comparer = Err(stopped),
        }
    }

    // What is answered to a call that was taken.
    #[inline]
    pub(super) fn answer(&self) -> Result<(), CheckError>
        // ensures { Answers self.now.comparer result }
    {
        match &self.comparer {
            Ok(_) => Ok(()),
            Err(error) => Err(error.copied()),
        }
    }
}
