// Made of crates/ent_replay/src/trace/lineup.rt by rust/erase. It isn't edited by hand.

//! The reservations of a run, lined up: those that agree, in an order in which they may have come,
//! and the others.

use alloc::vec::Vec;
use crate::kit::vec::FallibleVec;
use crate::traces::by_caller::ByCaller;
use crate::traces::handle_list::HandleList;
use crate::traces::trace::call::Call;
use crate::traces::trace::difference::Difference;
use crate::traces::trace::fitting::fits_reserved;
use crate::traces::trace::front::front_at;
use crate::traces::trace::placed::Placed;
use crate::traces::trace::reply::ReserveReply;
use crate::traces::trace::reservation::Reservation;
use crate::traces::trace::suspect::suspect;
use crate::allocator::{Entities, Reserved, Space, Span};
use crate::handles::OutOfMemory;

/// The reservations of a run in an order in which they may have come.
pub(super) struct Lineup {
    /// Those that agree, one after the other.
    pub(super) placed: Vec<Placed>,
    /// Those that are not placed.
    pub(super) rest: Vec<Placed>,
    /// The cursor after those that are placed.
    pub(super) at: i64,
}

impl Lineup {
    /// The lineup of a run of which nothing is placed yet.
    #[inline]
    pub(super) fn new(run: Vec<Placed>, entities: &Entities) -> Self
        // requires { entities.now.allocator.asked + requested_in (reservations_of run.items) ≤ 2 ^ 50 }
        // ensures lined { IsLineup entities.now.allocator result }
        // ensures none { result.placed.items ≡ [] }
        // ensures all { result.rest.items ≡ run.items }
    {
        Lineup {
            placed: Vec::new(),
            rest: run,
            at: entities.cursor(),
        }
    }

    /// Places all that can be, until no caller's next reservation fits.
    #[inline]
    pub(super) fn settle(self, entities: &Entities) -> Result<Self, OutOfMemory>
        // requires { IsLineup entities.now.allocator self }
        // ensures lined { IfOk result (λ next. IsLineup entities.now.allocator next) }
        // ensures keeps { IfOk result (λ next. KeepsCallers (all_of self) (all_of next)) }
        // ensures stuck { IfOk result (λ next.
        //     NoneFits (reached entities.now.allocator next) next.rest.items) }
        // ensures whole { IfOk result (λ next.
        //     AreAnswered entities.now.allocator (lines_of (all_of self)) → next.rest.items ≡ []) }
    {
        let mut lineup = self;
        let mut before = lineup.rest.len() + 1;
        while lineup.rest.len() < before {
            before = lineup.rest.len();
            lineup = lineup.pass(entities)?;
        }
        Ok(lineup)
    }

    /// Goes over those that are not placed, in their order, and places each one that fits and is
    /// the next one of its caller.
    #[inline]
    fn pass(self, entities: &Entities) -> Result<Self, OutOfMemory>
        // requires { IsLineup entities.now.allocator self }
        // ensures lined { IfOk result (λ next. IsLineup entities.now.allocator next) }
        // ensures keeps { IfOk result (λ next. KeepsCallers (all_of self) (all_of next)) }
        // ensures fewer { IfOk result (λ next.
        //     length next.rest.items ≤ length self.rest.items) }
        // ensures stuck { IfOk result (λ next.
        //     length next.rest.items ≡ length self.rest.items
        //     → NoneFits (reached entities.now.allocator next) next.rest.items) }
        // ensures whole { IfOk result (λ next.
        //     AreAnswered entities.now.allocator (lines_of (all_of self)) → next.rest.items ≡ []) }
    {
        let Lineup {
            mut placed,
            rest,
            mut at,
        } = self;
        let mut left = Vec::new();
        let mut blocked = ByCaller::new();
        for one in rest {
            let caller = one.reservation.caller;
            let free = blocked.get(caller).is_none();
            if free && fits_at(entities, at, &one.reservation)? {
                at -= i64::from(one.reservation.requested);
                placed.push_fallibly(one)?;
            } else {
                blocked.insert(caller, one.key)?;
                left.push_fallibly(one)?;
            }
        }
        Ok(Lineup {
            placed,
            rest: left,
            at,
        })
    }

    /// The difference of a run that has reservations which can't be placed.
    #[inline]
    pub(super) fn difference(self, entities: &Entities) -> Result<Difference, OutOfMemory>
        // requires lined { IsLineup entities.now.allocator self }
        // requires stuck { NoneFits (reached entities.now.allocator self) self.rest.items }
        // requires some { self.rest.items ≢ [] }
        // ensures { IfOk result (λ d. NamesOne entities.now.allocator self d) }
    {
        let named = suspect(entities, self.at, &self.rest)?;
        let Lineup {
            placed: _,
            mut rest,
            at: cursor,
        } = self;
        let Placed {
            reservation,
            key: _,
        } = rest.remove(named);
        let given = reply_at(entities, cursor, reservation.requested)?;
        Ok(Difference {
            number: reservation.number,
            expected: Call::Reserve(with_reply(&reservation, reply_of(given))),
            told: Call::Reserve(reservation),
            front: front_at(entities, cursor)?,
            cursor,
        })
    }
}

/// The answer, as a line has it.
#[inline]
fn reply_of(given: Result<HandleList, Space>) -> ReserveReply
    // ensures { result ≡ reserve_reply given }
{
    match given {
        Ok(handles) => ReserveReply::Handles(handles),
        Err(space) => ReserveReply::SpaceLeft(space.left),
    }
}

/// The same reservation with this reply.
#[inline]
fn with_reply(reservation: &Reservation, reply: ReserveReply) -> Reservation
    // ensures { result ≡ record reservation.now { reply = reply } }
{
    Reservation {
        number: reservation.number,
        caller: reservation.caller,
        requested: reservation.requested,
        reply,
    }
}

/// Makes the reservations of the list, one after the other.
#[inline]
pub(super) fn make_all(entities: &mut Entities, run: &[Placed])
    // requires { entities.old.allocator.asked + requested_in (reservations_of run.now) ≤ 2 ^ 50 }
    // ensures { entities.new.allocator ≡ after_lines entities.old.allocator (lines_of run.now) }
{
    for placed in run {
        let _ = entities.lower(placed.reservation.requested);
    }
}

/// Lists the handles of a reply.
#[inline]
fn listed(reserved: Reserved<'_>) -> Result<HandleList, OutOfMemory>
    // ensures { IfOk result (λ handles. handles ≡ reserved.entry) }
{
    let mut handles = Vec::with_capacity_fallibly(reserved.len())?;
    for handle in reserved {
        handles.push_reserved(handle);
    }
    Ok(HandleList::new(handles))
}

/// The reply to a request for `n` handles if the cursor is at this position.
#[inline]
pub(super) fn reply_at(
    entities: &Entities,
    at: i64,
    n: u32,
) -> Result<Result<HandleList, Space>, OutOfMemory>
    // requires least { pos (top entities.now.allocator) ≤ℤ (at +ℤ pos (2 ^ 50)) }
    // requires passed { at ≤ℤ pos (top entities.now.allocator) }
    // ensures { IfOk result (λ given. let here = entities.now.allocator in
    //     given ≡ reply_from here.made (pool_at here at) n) }
{
    let span = Span {
        high: at,
        low: at - i64::from(n),
    };
    match entities.reply(span) {
        Ok(reserved) => Ok(Ok(listed(reserved)?)),
        Err(space) => Ok(Err(space)),
    }
}

/// Whether the reservation's reply is the allocator's if the cursor is at this position.
#[inline]
pub(super) fn fits_at(
    entities: &Entities,
    at: i64,
    reservation: &Reservation,
) -> Result<bool, OutOfMemory>
    // requires least { pos (top entities.now.allocator) ≤ℤ (at +ℤ pos (2 ^ 50)) }
    // requires passed { at ≤ℤ pos (top entities.now.allocator) }
    // ensures { IfOk result (λ fits. let here = entities.now.allocator in
    //     IsTrue fits ↔ FitsReserved reservation.now.reply
    //     (reply_from here.made (pool_at here at) reservation.now.requested)) }
{
    let given = reply_at(entities, at, reservation.requested)?;
    Ok(fits_reserved(&reservation.reply, &given))
}
