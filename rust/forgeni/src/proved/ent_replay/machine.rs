// Made of crates/ent_replay/src/machine.rt by rust/erase. It isn't edited by hand.

use alloc::vec::Vec;
use crate::kit::prove_eq;
use crate::kit::vec::FallibleVec;
use crate::traces::caller_table::CallerTable;
use crate::traces::event::Event;
use crate::traces::fault::ReplayFault;
use crate::traces::handle_list::HandleList;
use crate::traces::outcome::Outcome;
use crate::traces::stored_call::StoredCall;
use crate::allocator::{AllocError, Entities, FreeError, Limits, QUOTA, Reserved};
use crate::handles::{Handle, OutOfMemory};

/// How many callers there are. They are numbered from 0.
const CALLERS: u32 = 1024;

/// Applies the events of a schedule, one after the other, to an allocator of its own.
///
/// Callers are numbered from 0 to 1,023, and each has at most one open call. Contracts see the
/// allocator, how many handles each caller has requested since the last flush, and the open calls
/// with the replies that their steps fixed. This project's own: Bevy has no such machine.
pub struct Machine {
    entities: Entities,
    spent: CallerTable<u64>,
    calls: CallerTable<StoredCall>,
}

/// Memory ran out while a list of events was applied.
#[derive(Clone, Copy, Debug, PartialEq, Eq)]
pub struct RunMemory {
    /// How many events were applied. The event at this position and all later ones were not.
    pub done: usize,
}

impl Machine {
    /// Makes a machine over an allocator without entities. No call is open, and every caller has
    /// its full quota of 2^40 handles.
    ///
    /// # Errors
    ///
    /// None: it doesn't allocate.
    ///
    /// <details><summary>Contract</summary>
    ///
    /// <code style="display: block; tab-size: 4; white-space: pre-wrap">// In the words of [contracts](crate::contracts):
    /// ensures { result ≡ [Ok](crate::contracts::logic#Ok) ([starting](crate::contracts::ent_replay::schedule#starting) limits) }
    /// </code>
    ///
    /// </details>
    #[inline]
    pub fn new(limits: Limits) -> Result<Self, OutOfMemory> {
        let entities = Entities::with_exact_limits(limits);
        prove_eq!(entities.cursor(), 0);
        Ok(Machine {
            entities,
            spent: CallerTable::new(),
            calls: CallerTable::new(),
        })
    }

    /// Applies one event, and says what it gave.
    ///
    /// # Errors
    ///
    /// A fault changes nothing.
    ///
    /// - `Busy`: `Alloc`, `Free` or `Flush` while a call is open.
    /// - `Caller`: `Begin`, `Step` or `Answer` of a caller above 1,023. It is tested before the
    ///   faults below.
    /// - `AlreadyOpen`, and then `Quota` if the request is above the caller's quota: `Begin`.
    /// - `NotOpen`, and then `AlreadyStepped`: `Step`.
    /// - `NotOpen`, and then `NotStepped`: `Answer`.
    /// - `Memory`: tested last, and only if the event makes a slot, frees a handle whose slot isn't
    ///   retired, brings handles to life, opens a call or lists the handles of a reply. A reply and
    ///   a flush ask for their whole list before they list a handle.
    // Not inlined, its result goes through memory.
    #[inline(always)]
    pub fn step(&mut self, event: Event) -> Result<Outcome, ReplayFault>
        // ensures outcome { ¬ (result ≡ Err ReplayFault.Memory) → result ≡ outcome_of self.old event }
        // ensures state { ¬ (result ≡ Err ReplayFault.Memory)
        //     → self.new ≡ after_event self.old event }
        // ensures memory { result ≡ Err ReplayFault.Memory → self.new ≡ self.old }
        // ensures grows { result ≡ Err ReplayFault.Memory
        //     → event_takes_memory self.old (outcome_of self.old event) ≡ true }
    {
        match event {
            Event::Alloc => self.alloc(),
            Event::Free(handle) => self.free(handle),
            Event::Flush => self.flush(),
            Event::Begin { caller, n } => self.begin(caller, n),
            Event::Step(caller) => self.take(caller),
            Event::Answer(caller) => self.answer(caller),
        }
    }

    /// Applies all events in order, and lists what each of them gave. A fault is listed like an
    /// outcome, and the events after it are applied as usual.
    ///
    /// From a machine at rest, the reservations of the run are a legal history in the order of
    /// their steps. No handle is given twice in a run, whatever the limits are.
    ///
    /// # Errors
    ///
    /// `RunMemory` if memory ran out. The first `done` events stand, and no later one was applied.
    /// Either the event at `done` would have taken memory, or `done` is 0 and there was no room to
    /// list the outcomes.
    ///
    /// <details><summary>Contract</summary>
    ///
    /// <code style="display: block; tab-size: 4; white-space: pre-wrap">// In the words of [contracts](crate::contracts):
    /// ensures outcomes { [IfOk](crate::contracts::logic#IfOk) result (λ outcomes.
    /// &#9;outcomes.items ≡ [outcomes_of](crate::contracts::ent_replay::schedule#outcomes_of) self.old events.now) }
    /// ensures state { [OnOk](crate::contracts::logic#OnOk) result (self.new ≡ [after_events](crate::contracts::ent_replay::schedule#after_events) self.old events.now) }
    /// ensures history { [IfOk](crate::contracts::logic#IfOk) result (λ outcomes. [IsAtRest](crate::contracts::ent_replay::histories#IsAtRest) self.old
    /// &#9;→ [StandInHistory](crate::contracts::ent_replay::histories#StandInHistory) ([new_phase](crate::contracts::ent_replay::histories#new_phase) self.old) self.old events.now outcomes.items) }
    /// ensures given_once { [IfOk](crate::contracts::logic#IfOk) result (λ outcomes.
    /// &#9;[AreGivenOnce](crate::contracts::ent_alloc::history#AreGivenOnce) ([given_by_all](crate::contracts::ent_replay::histories#given_by_all) outcomes.items)) }
    /// &#32;
    /// ensures cut { [IfErr](crate::contracts::logic#IfErr) result (λ memory. memory.done \< [length](crate::contracts::logic#length) events.now) }
    /// ensures cut_state { [IfErr](crate::contracts::logic#IfErr) result (λ memory.
    /// &#9;self.new ≡ [after_events](crate::contracts::ent_replay::schedule#after_events) self.old ([take](crate::contracts::logic#take) memory.done events.now)) }
    /// ensures grows { [IfErr](crate::contracts::logic#IfErr) result (λ memory. [RunsOutAt](crate::contracts::ent_replay::schedule#RunsOutAt) self.old events.now memory.done) }
    /// </code>
    ///
    /// </details>
    #[inline]
    pub fn run(&mut self, events: &[Event]) -> Result<Vec<Result<Outcome, ReplayFault>>, RunMemory> {
        let Ok(mut outcomes) = Vec::with_capacity_fallibly(events.len()) else {
            return Err(RunMemory { done: 0 });
        };
        for (done, event) in events.iter().enumerate() {
            let outcome = self.step(*event);
            if is_out_of_memory(&outcome) {
                return Err(RunMemory { done });
            }
            outcomes.push_reserved(outcome);
        }
        Ok(outcomes)
    }

    #[inline(always)]
    fn alloc(&mut self) -> Result<Outcome, ReplayFault>
        // ensures { Makes (on_alloc self.old) self.old result self.new }
    {
        if !self.calls.is_empty() {
            return Err(ReplayFault::Busy);
        }
        match self.entities.alloc() {
            Ok(handle) => Ok(Outcome::Handle(handle)),
            Err(AllocError::NeedsFlush) => Ok(Outcome::NeedsFlush),
            Err(AllocError::Space) => Ok(Outcome::Space { wanted: 1, left: 0 }),
            Err(AllocError::Memory) => Err(ReplayFault::Memory),
        }
    }

    #[inline(always)]
    fn free(&mut self, handle: Handle) -> Result<Outcome, ReplayFault>
        // ensures { Makes (on_free self.old handle) self.old result self.new }
    {
        if !self.calls.is_empty() {
            return Err(ReplayFault::Busy);
        }
        match self.entities.free(handle) {
            Ok(freed) => Ok(Outcome::Freed {
                handle,
                next: freed.next,
            }),
            Err(FreeError::NeedsFlush) => Ok(Outcome::NeedsFlush),
            Err(FreeError::NotAlive) => Ok(Outcome::NotAlive),
            Err(FreeError::Memory) => Err(ReplayFault::Memory),
        }
    }

    #[inline(always)]
    fn flush(&mut self) -> Result<Outcome, ReplayFault>
        // ensures { Makes (on_flush self.old) self.old result self.new }
    {
        if !self.calls.is_empty() {
            return Err(ReplayFault::Busy);
        }
        let mut born = Vec::new();
        if self.entities.flush(&mut born).is_err() {
            return Err(ReplayFault::Memory);
        }
        self.spent.clear();
        Ok(Outcome::Born(HandleList::new(born)))
    }

    #[inline(always)]
    fn begin(&mut self, caller: u32, n: u32) -> Result<Outcome, ReplayFault>
        // ensures { Makes (on_begin self.old caller n) self.old result self.new }
    {
        if caller >= CALLERS {
            return Err(ReplayFault::Caller);
        }
        if self.calls.get(caller).is_some() {
            return Err(ReplayFault::AlreadyOpen);
        }
        let spent = self.spent.get(caller).unwrap_or(0);
        let left = QUOTA - spent;
        if left < u64::from(n) {
            return Err(ReplayFault::Quota { left });
        }
        let call = StoredCall {
            requested: n,
            span: None,
        };
        if self.calls.insert(caller, call).is_err() {
            return Err(ReplayFault::Memory);
        }
        if self.spent.insert(caller, spent + u64::from(n)).is_err() {
            self.calls.remove(caller);
            return Err(ReplayFault::Memory);
        }
        Ok(Outcome::Open)
    }

    #[inline(always)]
    fn take(&mut self, caller: u32) -> Result<Outcome, ReplayFault>
        // ensures { Makes (on_step self.old caller) self.old result self.new }
    {
        if caller >= CALLERS {
            return Err(ReplayFault::Caller);
        }
        let Some(call) = self.calls.get(caller) else {
            return Err(ReplayFault::NotOpen);
        };
        if call.span.is_some() {
            return Err(ReplayFault::AlreadyStepped);
        }
        let span = self.entities.lower(call.requested);
        let stepped = StoredCall {
            requested: call.requested,
            span: Some(span),
        };
        self.calls.replace(caller, stepped);
        Ok(Outcome::Cursor(span.low))
    }

    #[inline(always)]
    fn answer(&mut self, caller: u32) -> Result<Outcome, ReplayFault>
        // ensures { Makes (on_answer self.old caller) self.old result self.new }
    {
        if caller >= CALLERS {
            return Err(ReplayFault::Caller);
        }
        let Some(call) = self.calls.get(caller) else {
            return Err(ReplayFault::NotOpen);
        };
        let Some(span) = call.span else {
            return Err(ReplayFault::NotStepped);
        };
        let outcome = match self.entities.reply(span) {
            Ok(reserved) => match listed(reserved) {
                Ok(handles) => Outcome::Handles(handles),
                Err(_) => return Err(ReplayFault::Memory),
            },
            Err(space) => Outcome::Space {
                wanted: space.wanted,
                left: space.left,
            },
        };
        self.calls.remove(caller);
        Ok(outcome)
    }
}

/// Whether memory ran out.
#[inline]
fn is_out_of_memory(outcome: &Result<Outcome, ReplayFault>) -> bool
    // ensures { IsTrue result ↔ (outcome.now ≡ Err ReplayFault.Memory) }
{
    match outcome {
        Ok(_) => false,
        Err(fault) => *fault == ReplayFault::Memory,
    }
}

/// Lists the handles of a reply. A list that doesn't fit is refused before a handle is listed.
#[inline]
fn listed(reserved: Reserved<'_>) -> Result<HandleList, OutOfMemory>
    // ensures ok { IfOk result (λ handles. handles ≡ reserved.entry) }
    // ensures memory { OnErr result (0 < length reserved.entry) }
{
    let mut handles = Vec::with_capacity_fallibly(reserved.len())?;
    for handle in reserved {
        handles.push_reserved(handle);
    }
    Ok(HandleList::new(handles))
}
