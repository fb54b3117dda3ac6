// Made of crates/ent_blocks/src/overflow/phase.rt by rust/erase. It isn't edited by hand.

use alloc::vec::Vec;
use crate::kit::vec::FallibleVec;
use crate::in_blocks::accounting::{account, missing};
use crate::in_blocks::ended::Ended;
use crate::in_blocks::overflow::reserver::OverflowReserver;
use crate::in_blocks::part::{Part, dealt};
use crate::in_blocks::taking::{take_many, take_one};
use crate::allocator::{Entities, Refused, Reserved, cancel_requests};
use crate::handles::Handle;
use crate::reserving::{SharedReserver, SharedSource};

/// The source of a phase in which the front of the pool is dealt in blocks, one to each caller, and
/// all callers share the rest.
/// [`Entities::share_in`](crate::Entities::share_in) opens a phase of it.
///
/// As long as no caller goes past its block, the handles of a caller depend on the allocator, on
/// the sizes, and on what it has reserved before: not on other callers or on threads. What it gets
/// past its block depends on when the others go past theirs.
///
/// ```
/// use forgeni::{Entities, Overflow, Reserver, ReserveError};
///
/// fn wave(mine: &mut Reserver<Overflow>) -> Result<usize, ReserveError> {
///     Ok(mine.reserve_many(10)?.len())
/// }
///
/// let (phase, mut reservers) = Entities::new().share_in::<Overflow>(&[10, 10])?;
/// for mine in &mut reservers {
///     wave(mine)?;
/// }
/// assert_eq!(phase.close(reservers)?.requested_past(), 0);
/// # Ok::<(), Box<dyn std::error::Error + Send + Sync>>(())
/// ```
pub struct Overflow {
    shared: SharedSource,
    dealer: SharedReserver,
    parts: Vec<Part>,
    // Room for what comes back at the close.
    ends: Vec<Part>,
    reservers: Vec<SharedReserver>,
}

impl Overflow {
    #[inline]
    pub(super) fn new(
        shared: SharedSource,
        dealer: SharedReserver,
        parts: Vec<Part>,
        ends: Vec<Part>,
        reservers: Vec<SharedReserver>,
    ) -> Self
        // requires phase { IsPhase shared dealer parts.items }
        // requires no_ends { ends.items ≡ [] }
        // requires ends { length parts.items + 1 ≤ vec_capacity ends }
        // requires no_reservers { reservers.items ≡ [] }
        // requires reservers { length parts.items + 1 ≤ vec_capacity reservers }
        // ensures { result ≡ record { shared = shared; dealer = dealer; blocks = parts.items } }
    {
        Overflow {
            shared,
            dealer,
            parts,
            ends,
            reservers,
        }
    }

    /// Returns the number of blocks.
    #[inline]
    pub(crate) fn count(&self) -> usize
        // ensures { result ≡ length self.now.blocks }
    {
        self.parts.len()
    }

    /// Returns `true` if the handle was alive when the phase was opened. It takes constant time.
    #[inline]
    pub(crate) fn is_alive(&self, handle: Handle) -> bool
        // ensures { result ≡ set.contains self.now.shared.start.live handle }
    {
        self.shared.is_alive(handle)
    }

    /// Returns the row that the handle had when the phase was opened, or `None` if it wasn't alive
    /// then or had no row. It takes constant time.
    #[inline]
    pub(crate) fn row(&self, handle: Handle) -> Option<u32>
        // ensures value { result ≡ maps.get self.now.shared.rows handle }
        // ensures alive { OnSome result (set.contains self.now.shared.start.live handle ≡ true) }
    {
        self.shared.row(handle)
    }

    /// Returns the allocator as it was when the phase was opened. It doesn't change until the
    /// close.
    #[inline]
    pub(crate) fn opened(&self) -> &Entities
        // ensures start { result.now.allocator ≡ self.now.shared.start }
        // ensures rows { result.now.rows ≡ self.now.shared.rows }
    {
        self.shared.opened()
    }

    /// Whether these callers are in the order in which they were made.
    #[inline]
    pub(super) fn has_in_order(&self, callers: &[OverflowReserver]) -> bool
        // ensures { IsTrue result ↔ IsTrue (are_among self.now.blocks (own_blocks callers.now)) }
    {
        missing(&self.parts, callers).is_some()
    }

    /// Whether a request for `n` handles past the caller's block may be served.
    #[inline]
    pub(super) fn may_be_served_past(&self, caller: &OverflowReserver, n: u32) -> bool
        // ensures { IsTrue result ↔ ((n ≤ caller.now.past.own.left)
        //     × (n ≤ length self.now.shared.start.pool)) }
    {
        let n = u64::from(n);
        n <= caller.past.left() && n <= self.shared.pool()
    }

    /// Reserves one handle: the next one of the caller's block, and if the block is used up, one
    /// that all callers share, by one atomic step. It neither allocates nor waits.
    ///
    /// # Errors
    ///
    /// Only if the block is used up:
    /// - [`Refused::Quota`] if no quota is left. Nothing has changed.
    /// - [`Refused::Space`] if the pool is empty. The request is taken from the quota all the same.
    #[inline]
    pub(crate) fn reserve(&self, caller: &mut OverflowReserver) -> Result<Handle, Refused>
        // requires { IsCallerOf self.now caller.old }
        // ensures stays { IsCallerOf self.now caller.new }
        // ensures served { IsServed self.now caller.old caller.new 1 (listed_alone result) }
    {
        if caller.part.left() == 0 {
            return self.shared.reserve(&mut caller.past);
        }
        let Ok(handle) = take_one(self.shared.opened(), &mut caller.part) else {
            unreachable!()
        };
        Ok(handle)
    }

    /// Reserves `n` handles at once: all from the caller's block if it has so many left, and else
    /// all from those that the callers share, by one atomic step. The block then keeps what it has
    /// left. They are listed in the order of [`Entities::reply`]. It neither allocates nor waits.
    ///
    /// # Errors
    ///
    /// Only if the block has fewer than `n` handles left:
    /// - [`Refused::Quota`] if `n` is above the quota that is left. Nothing has changed.
    /// - [`Refused::Space`] if the pool has fewer than `n` handles behind the blocks. The request
    ///   is taken from the quota all the same, and no request past a block is served until the next
    ///   flush.
    #[inline]
    pub(crate) fn reserve_many(
        &self,
        caller: &mut OverflowReserver,
        n: u32,
    ) -> Result<Reserved<'_>, Refused>
        // requires { IsCallerOf self.now caller.old }
        // ensures stays { IsCallerOf self.now caller.new }
        // ensures served { IsServed self.now caller.old caller.new n result }
        // ensures length { IfOk result (λ handles. length handles ≡ n) }
        // ensures enough { OnOk result (MayBeServed self.now caller.old n) }
    {
        if n > caller.part.left() {
            return self.shared.reserve_many(&mut caller.past, n);
        }
        Ok(take_many(self.shared.opened(), &mut caller.part, n))
    }

    /// Ends the phase with all its callers, in the order in which they were made. It doesn't
    /// allocate. [`Ended::into_entities`] then gives the allocator.
    #[inline]
    pub(crate) fn close(self, callers: Vec<OverflowReserver>) -> Ended
        // requires own { All (IsCallerOf self) callers.items }
        // requires among { IsTrue (are_among self.blocks (own_blocks callers.items)) }
        // requires all { length callers.items ≡ length self.blocks }
        // ensures all { map unused (own_blocks callers.items) ≡ self.blocks }
        // ensures start { result.phase.start ≡ self.shared.start }
        // ensures rows { result.phase.rows ≡ self.shared.rows }

        // Behind the blocks comes what the shared cursor gave.
        // ensures blocks { result.phase.blocks ≡ own_blocks callers.items
        //     ++ past_block (dealt self.blocks) (length (given_in (past_history callers.items))) }
        // ensures handles { let given = given_in (past_history callers.items) in (h : HandleValue) →
        //     Contains given h ↔ Contains (take (length given) (behind_blocks self)) h }

        // What was requested past a block is as if it had been requested one after the other, when
        // all blocks were reserved.
        // ensures legal { IsLegal (after_take self.shared.start (dealt self.blocks))
        //     (past_history callers.items) }
        // ensures in_order { All (IsInOrder (reservations_of (past_records callers.items)))
        //     (past_records callers.items) }
        // ensures falls { AllPairs (λ earlier later. later.high <ℤ earlier.high)
        //     (reservations_of (past_records callers.items)) }

        // Whether the handles depend on the threads: only if some caller went past its block.
        // ensures requested { result.requested ≡ sum (requests_of (past_history callers.items)) }
        // ensures alone { result.requested ≡ 0 ↔ past_history callers.items ≡ [] }
    {
        let Overflow {
            shared,
            dealer,
            parts,
            mut ends,
            mut reservers,
        } = self;
        let before = dealt(&parts);
        account(&parts, &callers, &mut ends);
        reservers.push_reserved(dealer);
        take_past(callers, &mut reservers);
        let entities = shared.close(reservers);
        finish(entities, before, ends)
    }

    /// Ends the phase although some callers may be lost: they were dropped, as by a thread that
    /// panicked. The others are in the order in which they were made. It doesn't allocate.
    ///
    /// What is left of a lost one's block counts as used. The cursor tells how many handles were
    /// requested past the blocks, but not which of the lost callers' requests were refused. So the
    /// front of what lies behind the blocks counts as given, as far as it goes, even those handles
    /// that no caller got.
    #[inline]
    pub(crate) fn close_lost(self, callers: Vec<OverflowReserver>) -> Ended
        // requires own { All (IsCallerOf self) callers.items }
        // requires among { IsTrue (are_among self.blocks (own_blocks callers.items)) }
        // ensures start { result.phase.start ≡ self.shared.start }
        // ensures rows { result.phase.rows ≡ self.shared.rows }

        // Behind the blocks comes what was requested, as far as the pool goes.
        // ensures blocks { result.phase.blocks ≡ accounted self.blocks (own_blocks callers.items)
        //     ++ past_block (dealt self.blocks)
        //     (lesser result.requested (length (behind_blocks self))) }

        // It counts what the callers that are here have requested, and of the others no more than
        // their quota.
        // ensures least { sum_by (λ r. requested_by r.own) (past_of callers.items)
        //     ≤ result.requested }
        // ensures most { sum_by (λ r. r.own.left) (past_of callers.items) + result.requested
        //     ≤ length self.blocks * quota }

        // If all are here, it counts what they have requested.
        // ensures requested { length callers.items ≡ length self.blocks
        //     → sum_by (λ r. requested_by r.own) (past_of callers.items) ≡ result.requested }

        // What the callers that are here were given past their blocks is there. No handle was given
        // to two of them.
        // ensures given { let behind = behind_blocks self in
        //     All (λ r. All (Contains (take (lesser result.requested (length behind)) behind))
        //     (handles_given r.own)) (past_of callers.items) }
        // ensures distinct { AllPairs (λ g h. g ≢ h)
        //     (handles_of (own_of_all (past_records callers.items))) }
    {
        let Overflow {
            shared,
            dealer,
            parts,
            mut ends,
            mut reservers,
        } = self;
        let before = dealt(&parts);
        account(&parts, &callers, &mut ends);
        reservers.push_reserved(dealer);
        take_past(callers, &mut reservers);
        let entities = shared.close_lost(reservers);
        finish(entities, before, ends)
    }
}

/// Appends what the callers went past their blocks with. There is room for it.
#[inline]
fn take_past(callers: Vec<OverflowReserver>, reservers: &mut Vec<SharedReserver>)
    // requires { vec_len reservers.old + length callers.items ≤ vec_capacity reservers.old }
    // ensures { reservers.new.items ≡ reservers.old.items ++ past_of callers.items }
{
    for caller in callers {
        reservers.push_reserved(caller.past);
    }
}

/// What the shared allocator has reserved behind so many handles, those of the blocks, is one more
/// block.
#[inline]
fn finish(mut entities: Entities, before: u32, mut ends: Vec<Part>) -> Ended
    // requires asked { before ≤ entities.allocator.asked }
    // requires taken { before ≤ length entities.allocator.taken }
    // requires room { vec_len ends + 1 ≤ vec_capacity ends }
    // requires used { AreUsedOf (record {
    //   start = before_requests entities.allocator;
    //   rows = entities.rows;
    //   blocks = ends.items ++ past_block before (length entities.allocator.taken - before);
    // }) }
    // ensures { result ≡ record {
    //   phase = record {
    //     start = before_requests entities.allocator;
    //     rows = entities.rows;
    //     blocks = ends.items ++ past_block before (length entities.allocator.taken - before);
    //   };
    //   requested = entities.allocator.asked - before;
    // } }
{
    let requested = entities.asked() - u64::from(before);
    let given = entities.reserved() - before;
    cancel_requests(&mut entities);
    append_past(&mut ends, before, given);
    Ended::new(entities, ends, requested)
}

/// Appends what came from the shared cursor, as one more block. There is room for it.
#[inline]
fn append_past(ends: &mut Vec<Part>, before: u32, given: u32)
    // requires { vec_len ends.old + 1 ≤ vec_capacity ends.old }
    // ensures { ends.new.items ≡ ends.old.items ++ past_block before given }
{
    if given > 0 {
        ends.push_reserved(Part::new(before, given).with_used(given));
    }
}
