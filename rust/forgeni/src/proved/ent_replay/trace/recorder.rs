// Made of crates/ent_replay/src/trace/recorder.rt by rust/erase. It isn't edited by hand.

//! A checker with a log for each caller.

use alloc::vec::Vec;
use crate::kit::vec::FallibleVec;
use crate::traces::trace::call::Call;
use crate::traces::trace::check_error::CheckError;
use crate::traces::trace::checker::Checker;
use crate::traces::trace::log::Log;
use crate::traces::trace::reply::{AllocReply, FlushReply, FreeReply};
use crate::allocator::{Limits, State};
use crate::handles::{Handle, OutOfMemory};

/// Records the calls of an allocator that threads share, and checks them as they come.
///
/// While threads reserve, each has one of the [`logs`](Self::logs). The next call of another kind
/// joins the logs, in the order of the callers, and leaves them empty. The borrow of the logs has
/// ended by then, so no thread still appends.
///
/// ```
/// use forgeni::trace::Recorder;
/// use forgeni::{Entities, Limits};
///
/// let limits = Limits::GREATEST.keeping_placeholder(); // those of `Entities::new`
/// let mut recorder = Recorder::new(limits, 4)?;
/// let (shared, mut reservers) = Entities::new().share(4)?;
/// std::thread::scope(|scope| {
///     for (log, reserver) in recorder.logs().iter_mut().zip(&mut reservers) {
///         scope.spawn(move || {
///             for _ in 0..100 {
///                 let one = reserver.reserve().expect("a handle");
///                 log.push(1, one).expect("memory");
///             }
///         });
///     }
/// });
/// let mut entities = shared.close(reservers)?;
/// let mut born = Vec::new();
/// entities.flush(&mut born)?;
/// recorder.flush(born)?;
/// recorder.len(400)?;
/// recorder.finish()?;
/// # Ok::<(), Box<dyn std::error::Error>>(())
/// ```
///
/// If threads keep their logs, [`Checker::join`] takes each of them as the phase ends.
pub struct Recorder {
    checker: Checker,
    logs: Vec<Log>,
}

/// # Making one
impl Recorder {
    /// Creates a recorder for an allocator that has given no handles, with a log for each caller.
    /// The callers are numbered from 0.
    ///
    /// ```
    /// use forgeni::{trace, Limits};
    ///
    /// let mut recorder = trace::Recorder::new(Limits::new(1_000, 4).unwrap(), 8)?;
    /// assert_eq!((recorder.logs().len(), recorder.calls()), (8, 0));
    /// # Ok::<(), Box<dyn std::error::Error>>(())
    /// ```
    ///
    /// # Errors
    ///
    /// `Memory`: out of memory.
    ///
    /// <details><summary>Contract</summary>
    ///
    /// <code style="display: block; tab-size: 4; white-space: pre-wrap">// In the words of [contracts](crate::contracts):
    /// ensures opens { [IfOk](crate::contracts::logic#IfOk) result (λ recorder. recorder.checker.comparer
    /// &#9;≡ [Ok](crate::contracts::logic#Ok) (record { allocator = [opening](crate::contracts::ent_alloc::sequential#opening) limits; run = \[\] })) }
    /// ensures none { [IfOk](crate::contracts::logic#IfOk) result (λ recorder. recorder.checker.calls ≡ 0) }
    /// ensures logs { [IfOk](crate::contracts::logic#IfOk) result (λ recorder. recorder.logs.items ≡ [new_logs](crate::contracts::ent_replay::logs#new_logs) callers) }
    /// </code>
    ///
    /// </details>
    #[inline]
    pub fn new(limits: Limits, callers: u32) -> Result<Self, OutOfMemory> {
        let mut logs = Vec::with_capacity_fallibly(callers as usize)?;
        for caller in 0..callers {
            logs.push_fallibly(Log::new(caller))?;
        }
        Ok(Recorder {
            checker: Checker::new(limits),
            logs,
        })
    }
}

/// # Reservations of threads
impl Recorder {
    /// Returns the log of each caller.
    ///
    /// ```
    /// use forgeni::{trace, Handle, Limits};
    ///
    /// let mut recorder = trace::Recorder::new(Limits::GREATEST, 2)?;
    /// // What thread 1 reserved came first.
    /// recorder.logs()[0].push(1, "1v1".parse::<Handle>()?)?;
    /// recorder.logs()[1].push(1, "0v1".parse::<Handle>()?)?;
    /// recorder.finish()?;
    /// # Ok::<(), Box<dyn std::error::Error>>(())
    /// ```
    ///
    /// <details><summary>Contract</summary>
    ///
    /// <code style="display: block; tab-size: 4; white-space: pre-wrap">// In the words of [contracts](crate::contracts):
    /// ensures\* writes_back { [sem](crate::contracts::logic#sem) 𝓛 ([LendsLogs](crate::contracts::ent_replay::lending#LendsLogs) self.entry result) }
    /// ensures logs { result.now ≡ self.old.logs.items }
    /// </code>
    ///
    /// </details>
    #[inline]
    pub fn logs(&mut self) -> &mut [Log] {
        self.logs.as_mut_slice()
    }
}

/// # Calls
impl Recorder {
    /// Takes a call for a handle that is alive at once.
    ///
    /// ```
    /// use forgeni::{trace, Handle, Limits};
    ///
    /// let mut recorder = trace::Recorder::new(Limits::new(1, 1).unwrap(), 1)?;
    /// recorder.alloc("0v1".parse::<Handle>()?)?;
    /// recorder.alloc(trace::AllocReply::Space)?;
    /// # Ok::<(), Box<dyn std::error::Error>>(())
    /// ```
    ///
    /// # Errors
    ///
    /// The same as for [`call`](Self::call).
    ///
    /// <details><summary>Contract</summary>
    ///
    /// <code style="display: block; tab-size: 4; white-space: pre-wrap">// In the words of [contracts](crate::contracts):
    /// ensures takes { (told : AllocReply) × R.converts reply told × [TakesAll](crate::contracts::ent_replay::recording#TakesAll) self.old.checker
    /// &#9;([lines_in_all](crate::contracts::ent_replay::recording#lines_in_all) self.old.logs.items ++ Call.Alloc ([Some](crate::contracts::logic#Some) told) ∷ \[\]) self.new.checker }
    /// ensures emptied { self.new.logs.items ≡ [map](crate::contracts::logic#map) [emptied](crate::contracts::ent_replay::logs#emptied) self.old.logs.items }
    /// ensures answers { [Answers](crate::contracts::ent_replay::recording#Answers) self.new.checker.comparer result }
    /// </code>
    ///
    /// </details>
    #[inline]
    pub fn alloc<R: Into<AllocReply>>(&mut self, reply: R) -> Result<(), CheckError> {
        self.call(Call::Alloc(Some(reply.into())))
    }

    /// Takes a call that freed a handle.
    ///
    /// ```
    /// use forgeni::{trace, Handle, Limits};
    ///
    /// let mut recorder = trace::Recorder::new(Limits::GREATEST, 1)?;
    /// let cart: Handle = "0v1".parse()?;
    /// recorder.alloc(cart)?;
    /// recorder.free(cart, trace::FreeReply::Next("0v2".parse()?))?;
    /// # Ok::<(), Box<dyn std::error::Error>>(())
    /// ```
    ///
    /// # Errors
    ///
    /// The same as for [`call`](Self::call).
    ///
    /// <details><summary>Contract</summary>
    ///
    /// <code style="display: block; tab-size: 4; white-space: pre-wrap">// In the words of [contracts](crate::contracts):
    /// ensures takes { [TakesAll](crate::contracts::ent_replay::recording#TakesAll) self.old.checker
    /// &#9;([lines_in_all](crate::contracts::ent_replay::recording#lines_in_all) self.old.logs.items ++ Call.Free handle ([Some](crate::contracts::logic#Some) reply) ∷ \[\])
    /// &#9;self.new.checker }
    /// ensures emptied { self.new.logs.items ≡ [map](crate::contracts::logic#map) [emptied](crate::contracts::ent_replay::logs#emptied) self.old.logs.items }
    /// ensures answers { [Answers](crate::contracts::ent_replay::recording#Answers) self.new.checker.comparer result }
    /// </code>
    ///
    /// </details>
    #[inline]
    pub fn free(&mut self, handle: Handle, reply: FreeReply) -> Result<(), CheckError> {
        self.call(Call::Free(handle, Some(reply)))
    }

    /// Takes a flush. The answer is the handles that came to life, or their number.
    ///
    /// ```
    /// use forgeni::{trace, Handle, Limits};
    ///
    /// let mut recorder = trace::Recorder::new(Limits::GREATEST, 1)?;
    /// let cart: Handle = "0v1".parse()?;
    /// recorder.logs()[0].push(1, cart)?;
    /// recorder.flush([cart])?;
    /// # Ok::<(), Box<dyn std::error::Error>>(())
    /// ```
    ///
    /// # Errors
    ///
    /// The same as for [`call`](Self::call).
    ///
    /// <details><summary>Contract</summary>
    ///
    /// <code style="display: block; tab-size: 4; white-space: pre-wrap">// In the words of [contracts](crate::contracts):
    /// ensures takes { (told : FlushReply) × R.converts reply told × [TakesAll](crate::contracts::ent_replay::recording#TakesAll) self.old.checker
    /// &#9;([lines_in_all](crate::contracts::ent_replay::recording#lines_in_all) self.old.logs.items ++ Call.Flush ([Some](crate::contracts::logic#Some) told) ∷ \[\]) self.new.checker }
    /// ensures emptied { self.new.logs.items ≡ [map](crate::contracts::logic#map) [emptied](crate::contracts::ent_replay::logs#emptied) self.old.logs.items }
    /// ensures answers { [Answers](crate::contracts::ent_replay::recording#Answers) self.new.checker.comparer result }
    /// </code>
    ///
    /// </details>
    #[inline]
    pub fn flush<R: Into<FlushReply>>(&mut self, reply: R) -> Result<(), CheckError> {
        self.call(Call::Flush(Some(reply.into())))
    }

    /// Takes a call for the state of a handle.
    ///
    /// ```
    /// use forgeni::{trace, Handle, Limits, State};
    ///
    /// let mut recorder = trace::Recorder::new(Limits::GREATEST, 1)?;
    /// let cart: Handle = "0v1".parse()?;
    /// recorder.state(cart, State::Gone)?;
    /// recorder.alloc(cart)?;
    /// recorder.state(cart, State::Alive)?;
    /// # Ok::<(), Box<dyn std::error::Error>>(())
    /// ```
    ///
    /// # Errors
    ///
    /// The same as for [`call`](Self::call).
    ///
    /// <details><summary>Contract</summary>
    ///
    /// <code style="display: block; tab-size: 4; white-space: pre-wrap">// In the words of [contracts](crate::contracts):
    /// ensures takes { [TakesAll](crate::contracts::ent_replay::recording#TakesAll) self.old.checker
    /// &#9;([lines_in_all](crate::contracts::ent_replay::recording#lines_in_all) self.old.logs.items ++ Call.State handle ([Some](crate::contracts::logic#Some) reply) ∷ \[\])
    /// &#9;self.new.checker }
    /// ensures emptied { self.new.logs.items ≡ [map](crate::contracts::logic#map) [emptied](crate::contracts::ent_replay::logs#emptied) self.old.logs.items }
    /// ensures answers { [Answers](crate::contracts::ent_replay::recording#Answers) self.new.checker.comparer result }
    /// </code>
    ///
    /// </details>
    #[inline]
    pub fn state(&mut self, handle: Handle, reply: State) -> Result<(), CheckError> {
        self.call(Call::State(handle, Some(reply)))
    }

    /// Takes a call for the number of living handles.
    ///
    /// ```
    /// use forgeni::{trace, Handle, Limits};
    ///
    /// let mut recorder = trace::Recorder::new(Limits::GREATEST, 1)?;
    /// recorder.alloc("0v1".parse::<Handle>()?)?;
    /// recorder.logs()[0].push(1, "1v1".parse::<Handle>()?)?;
    /// recorder.len(1)?; // what is reserved isn't alive
    /// # Ok::<(), Box<dyn std::error::Error>>(())
    /// ```
    ///
    /// # Errors
    ///
    /// The same as for [`call`](Self::call).
    ///
    /// <details><summary>Contract</summary>
    ///
    /// <code style="display: block; tab-size: 4; white-space: pre-wrap">// In the words of [contracts](crate::contracts):
    /// ensures takes { [TakesAll](crate::contracts::ent_replay::recording#TakesAll) self.old.checker
    /// &#9;([lines_in_all](crate::contracts::ent_replay::recording#lines_in_all) self.old.logs.items ++ Call.Len ([Some](crate::contracts::logic#Some) reply) ∷ \[\]) self.new.checker }
    /// ensures emptied { self.new.logs.items ≡ [map](crate::contracts::logic#map) [emptied](crate::contracts::ent_replay::logs#emptied) self.old.logs.items }
    /// ensures answers { [Answers](crate::contracts::ent_replay::recording#Answers) self.new.checker.comparer result }
    /// </code>
    ///
    /// </details>
    #[inline]
    pub fn len(&mut self, reply: u32) -> Result<(), CheckError> {
        self.call(Call::Len(Some(reply)))
    }

    /// Joins the logs, and takes this call.
    ///
    /// ```
    /// use forgeni::trace::{Call, Recorder};
    /// use forgeni::Limits;
    ///
    /// let mut recorder = Recorder::new(Limits::GREATEST, 1)?;
    /// recorder.call(Call::Alloc(None))?; // its answer isn't known
    /// recorder.call(Call::Len(Some(1)))?;
    /// # Ok::<(), Box<dyn std::error::Error>>(())
    /// ```
    ///
    /// # Errors
    ///
    /// The same as for [`Checker::call`]. The logs are emptied in any case.
    ///
    /// <details><summary>Contract</summary>
    ///
    /// <code style="display: block; tab-size: 4; white-space: pre-wrap">// In the words of [contracts](crate::contracts):
    /// ensures takes { [TakesAll](crate::contracts::ent_replay::recording#TakesAll) self.old.checker ([lines_in_all](crate::contracts::ent_replay::recording#lines_in_all) self.old.logs.items ++ call ∷ \[\])
    /// &#9;self.new.checker }
    /// ensures emptied { self.new.logs.items ≡ [map](crate::contracts::logic#map) [emptied](crate::contracts::ent_replay::logs#emptied) self.old.logs.items }
    /// ensures answers { [Answers](crate::contracts::ent_replay::recording#Answers) self.new.checker.comparer result }
    /// </code>
    ///
    /// </details>
    #[inline]
    pub fn call(&mut self, call: Call) -> Result<(), CheckError> {
        join_all(&mut self.checker, &mut self.logs);
        self.checker.call(call)
    }
}

/// # The verdict
impl Recorder {
    /// Joins the logs, ends the trace, and compares the last reservations.
    ///
    /// ```
    /// use forgeni::{trace, Handle, Limits};
    ///
    /// let mut recorder = trace::Recorder::new(Limits::GREATEST, 2)?;
    /// recorder.logs()[1].push(1, "1v1".parse::<Handle>()?)?;
    /// // Nobody reserved 0v1, which comes first.
    /// assert!(recorder.finish().is_err());
    /// # Ok::<(), Box<dyn std::error::Error>>(())
    /// ```
    ///
    /// # Errors
    ///
    /// The same as for [`Checker::finish`].
    ///
    /// <details><summary>Contract</summary>
    ///
    /// <code style="display: block; tab-size: 4; white-space: pre-wrap">// In the words of [contracts](crate::contracts):
    /// ensures { [Finishes](crate::contracts::ent_replay::recording#Finishes) self.checker ([lines_in_all](crate::contracts::ent_replay::recording#lines_in_all) self.logs.items) result }
    /// </code>
    ///
    /// </details>
    #[inline]
    pub fn finish(self) -> Result<(), CheckError> {
        let Recorder {
            mut checker,
            mut logs,
        } = self;
        join_all(&mut checker, &mut logs);
        checker.finish()
    }

    /// Returns the number of calls that were taken, including those of the logs that were joined.
    ///
    /// ```
    /// use forgeni::{trace, Handle, Limits};
    ///
    /// let mut recorder = trace::Recorder::new(Limits::GREATEST, 2)?;
    /// recorder.logs()[0].push(1, "0v1".parse::<Handle>()?)?;
    /// assert_eq!(recorder.calls(), 0);
    /// recorder.len(0)?;
    /// assert_eq!(recorder.calls(), 2);
    /// # Ok::<(), Box<dyn std::error::Error>>(())
    /// ```
    ///
    /// <details><summary>Contract</summary>
    ///
    /// <code style="display: block; tab-size: 4; white-space: pre-wrap">// In the words of [contracts](crate::contracts):
    /// ensures { result ≡ self.now.checker.calls }
    /// </code>
    ///
    /// </details>
    #[must_use]
    #[inline]
    pub fn calls(&self) -> u64 {
        self.checker.calls()
    }
}

// Joins the logs, in their order.
#[inline]
fn join_all(checker: &mut Checker, logs: &mut [Log])
    // ensures takes { TakesAll checker.old (lines_in_all logs.old) checker.new }
    // ensures emptied { logs.new ≡ map emptied logs.old }
{
    for log in logs.iter_mut() {
        log.hand_over(checker);
    }
}
