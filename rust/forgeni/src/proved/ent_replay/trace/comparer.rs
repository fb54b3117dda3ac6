// Made of crates/ent_replay/src/trace/comparer.rt by rust/erase. It isn't edited by hand.

//! What compares a trace: one line after the other.

use alloc::vec::Vec;
use crate::kit::vec::FallibleVec;
use crate::traces::by_caller::ByCaller;
use crate::traces::trace::call::Call;
use crate::traces::trace::calls::answered;
use crate::traces::trace::check_error::CheckError;
use crate::traces::trace::difference::Difference;
use crate::traces::trace::front::front_at;
use crate::traces::trace::key::own_key;
use crate::traces::trace::lineup::{Lineup, make_all};
use crate::traces::trace::placed::Placed;
use crate::traces::trace::reservation::Reservation;
use crate::allocator::{Entities, Limits};

/// How many handles may be requested between two flushes.
const MOST: u64 = 1 << 50;

/// Takes the lines of a trace one after the other, and compares each reply with the allocator's.
///
/// It is taken by value, and returned only if nothing is wrong, so none goes on after a difference.
/// The caller numbers the lines. `Checker` numbers them itself, and keeps the error.
///
/// It holds the allocator and the reservations since the last other line, which are compared
/// together. Contracts see just these two.
pub struct Comparer {
    entities: Entities,
    run: Vec<Placed>,
    latest: ByCaller<u64>,
    wanted: u64,
}

impl Comparer {
    /// One that has taken no line. It doesn't allocate.
    ///
    /// <details><summary>Contract</summary>
    ///
    /// <code style="display: block; tab-size: 4; white-space: pre-wrap">// In the words of [contracts](crate::contracts):
    /// ensures { result ≡ record { allocator = [opening](crate::contracts::ent_alloc::sequential#opening) limits; run = \[\] } }
    /// </code>
    ///
    /// </details>
    #[inline]
    pub fn new(limits: Limits) -> Self {
        Comparer::from_entities(Entities::with_exact_limits(limits))
    }

    /// One whose trace begins in the state of this allocator, with its requests. It doesn't
    /// allocate.
    ///
    /// <details><summary>Contract</summary>
    ///
    /// <code style="display: block; tab-size: 4; white-space: pre-wrap">// In the words of [contracts](crate::contracts):
    /// ensures { result ≡ record { allocator = entities.allocator; run = \[\] } }
    /// </code>
    ///
    /// </details>
    #[inline]
    pub fn from_entities(entities: Entities) -> Self {
        Comparer {
            wanted: entities.asked(),
            entities,
            run: Vec::new(),
            latest: ByCaller::new(),
        }
    }

    /// Takes the next line of the trace, which has this number.
    ///
    /// # Errors
    ///
    /// It is gone then, so that none goes on after a difference.
    ///
    /// - `Differs`: a reply isn't the allocator's, of this line or of a reservation before it. A
    ///   reservation itself never returns it: the next other line does, or the end.
    /// - `TooMany`: it is a reservation, and with it more than 2^50 handles were requested since
    ///   the last flush.
    /// - `Memory`: memory ran out.
    ///
    /// <details><summary>Contract</summary>
    ///
    /// <code style="display: block; tab-size: 4; white-space: pre-wrap">// In the words of [contracts](crate::contracts):
    /// ensures follows { [IfOk](crate::contracts::logic#IfOk) result (λ next. [Follows](crate::contracts::ent_replay::checker#Follows) self line next) }
    /// ensures reaches { [IfOk](crate::contracts::logic#IfOk) result (λ next. [Reaches](crate::contracts::ent_replay::checker#Reaches) self line next) }
    /// ensures differs { [IfErr](crate::contracts::logic#IfErr) result (λ stop.
    /// &#9;[OnDiffers](crate::contracts::ent_replay::checker#OnDiffers) stop ([Shows](crate::contracts::ent_replay::checker#Shows) self number (line ∷ \[\]))) }
    /// ensures none { [IfErr](crate::contracts::logic#IfErr) result (λ stop. [OnDiffers](crate::contracts::ent_replay::checker#OnDiffers) stop (λ d. [NoneFollows](crate::contracts::ent_replay::checker#NoneFollows) self line)) }
    /// ensures alone { [IfErr](crate::contracts::logic#IfErr) result (λ stop. [OnDiffers](crate::contracts::ent_replay::checker#OnDiffers) stop (λ d. [IsAlone](crate::contracts::ent_replay::trace#IsAlone) line)) }
    /// ensures too_many { [IfErr](crate::contracts::logic#IfErr) result (λ stop. [OnTooMany](crate::contracts::ent_replay::checker#OnTooMany) stop ([IsTooMany](crate::contracts::ent_replay::checker#IsTooMany) self line)) }
    /// ensures few { [OnOk](crate::contracts::logic#OnOk) result (¬ ([IsTooMany](crate::contracts::ent_replay::checker#IsTooMany) self line)) }
    /// </code>
    ///
    /// </details>
    #[inline]
    pub fn take(self, number: u64, line: Call) -> Result<Self, CheckError> {
        if let Call::Reserve(reservation) = line {
            return self.add(reservation);
        }
        self.end_run(number, line)
    }

    /// Compares the reservations that are not compared yet: the trace ends here.
    ///
    /// # Errors
    ///
    /// `Differs` or `Memory`, as `take`.
    ///
    /// <details><summary>Contract</summary>
    ///
    /// <code style="display: block; tab-size: 4; white-space: pre-wrap">// In the words of [contracts](crate::contracts):
    /// ensures settled { [IfOk](crate::contracts::logic#IfOk) result (λ next. [IsSettled](crate::contracts::ent_replay::checker#IsSettled) self next.allocator × (next.run ≡ \[\])) }
    /// ensures agrees { [OnOk](crate::contracts::logic#OnOk) result ([AgreesWith](crate::contracts::ent_replay::checker#AgreesWith) self \[\]) }
    /// ensures differs { [IfErr](crate::contracts::logic#IfErr) result (λ stop. [OnDiffers](crate::contracts::ent_replay::checker#OnDiffers) stop ([Shows](crate::contracts::ent_replay::checker#Shows) self 0 \[\])) }
    /// ensures none { [IfErr](crate::contracts::logic#IfErr) result (λ stop. [OnDiffers](crate::contracts::ent_replay::checker#OnDiffers) stop (λ d. [AgreesWith](crate::contracts::ent_replay::checker#AgreesWith) self \[\] → ⊥)) }
    /// ensures counted { [IfErr](crate::contracts::logic#IfErr) result (λ stop. [OnTooMany](crate::contracts::ent_replay::checker#OnTooMany) stop ⊥) }
    /// </code>
    ///
    /// </details>
    #[inline]
    pub fn finish(self) -> Result<Self, CheckError> {
        self.settle()
    }

    /// Compares the run, and then makes the call that ends it.
    #[inline]
    fn end_run(self, number: u64, line: Call) -> Result<Self, CheckError>
        // requires { IsAlone line }
        // ensures follows { IfOk result (λ next. Follows self line next) }
        // ensures reaches { IfOk result (λ next. Reaches self line next) }
        // ensures differs { IfErr result (λ stop.
        //     OnDiffers stop (Shows self number (line ∷ []))) }
        // ensures none { IfErr result (λ stop. OnDiffers stop (λ d. NoneFollows self line)) }
        // ensures counted { IfErr result (λ stop. OnTooMany stop ⊥) }
    {
        self.settle()?.call(number, line)
    }

    /// Makes the reservations of the run, in the order of their keys, and compares each.
    #[inline]
    fn settle(self) -> Result<Self, CheckError>
        // ensures run { IfOk result (λ next. next.run ≡ []) }
        // ensures settled { IfOk result (λ next. IsSettled self next.allocator) }
        // ensures differs { IfErr result (λ stop.
        //     OnDiffers stop (λ d. (n : ℕ) → Shows self n [] d)) }
        // ensures none { IfErr result (λ stop. OnDiffers stop (λ d. HasNoOrder self)) }
        // ensures counted { IfErr result (λ stop. OnTooMany stop ⊥) }
    {
        let Comparer {
            mut entities,
            mut run,
            mut latest,
            wanted,
        } = self;
        run.sort_by_cached_key_fallibly(|placed| placed.key)?;
        let lineup = Lineup::new(run, &entities).settle(&entities)?;
        if !lineup.rest.is_empty() {
            return Err(CheckError::Differs(lineup.difference(&entities)?));
        }
        let Lineup {
            placed: mut run,
            rest: _,
            at: _,
        } = lineup;
        make_all(&mut entities, &run);
        run.clear();
        latest.clear();
        Ok(Comparer {
            entities,
            run,
            latest,
            wanted,
        })
    }

    /// Makes a call that nothing overlaps, and compares.
    #[inline]
    fn call(self, number: u64, line: Call) -> Result<Self, CheckError>
        // requires run { self.run ≡ [] }
        // requires alone { IsAlone line }
        // ensures fits { OnOk result (Fits self.allocator line) }
        // ensures next { IfOk result (λ next.
        //     next ≡ record { allocator = after_line self.allocator line; run = [] }) }
        // ensures differs { IfErr result (λ stop.
        //     OnDiffers stop (Differs self.allocator number line)) }
        // ensures counted { IfErr result (λ stop. OnTooMany stop ⊥) }
    {
        let Comparer {
            mut entities,
            run,
            latest,
            ..
        } = self;
        // No call can be undone, so what a difference shows is looked up before it.
        let cursor = entities.cursor();
        let front = front_at(&entities, cursor)?;
        let expected = answered(&mut entities, &line)?;
        if let Some(expected) = expected {
            return Err(CheckError::Differs(Difference {
                number,
                told: line,
                expected,
                front,
                cursor,
            }));
        }
        let wanted = entities.asked();
        Ok(Comparer {
            entities,
            run,
            latest,
            wanted,
        })
    }

    /// Adds a reservation to the run.
    #[inline]
    fn add(self, reservation: Reservation) -> Result<Self, CheckError>
        // ensures ok { IfOk result (λ next.
        //     next ≡ record self { run = self.run ++ reservation ∷ [] }) }
        // ensures differs { IfErr result (λ stop. OnDiffers stop (λ d. ⊥)) }
        // ensures too_many { IfErr result (λ stop. OnTooMany stop (IsTooManyIn self reservation)) }
        // ensures few { OnOk result (¬ (IsTooManyIn self reservation)) }
    {
        let Comparer {
            entities,
            mut run,
            mut latest,
            wanted,
        } = self;
        let wanted = wanted + u64::from(reservation.requested);
        if wanted > MOST {
            return Err(CheckError::TooMany);
        }
        let caller = reservation.caller;
        let before = latest.get(caller).unwrap_or(0);
        let key = own_key(&entities, reservation.requested, &reservation.reply).max(before);
        run.push_fallibly(Placed { reservation, key })?;
        latest.insert(caller, key)?;
        Ok(Comparer {
            entities,
            run,
            latest,
            wanted,
        })
    }
}
