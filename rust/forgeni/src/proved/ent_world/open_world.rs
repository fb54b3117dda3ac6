// Made of crates/ent_world/src/open_world.rt by rust/erase. It isn't edited by hand.

use alloc::vec::Vec;
use crate::worlds::view::View;
use crate::worlds::world::World;
use crate::reserving::{SharedReserver, SharedSource};
use crate::components::Rows;

/// A world in a phase: many callers reserve from its allocator at once, and read the rest of it.
pub struct OpenWorld {
    shared: SharedSource,
    storage: Rows,
    phase: u64,
}

impl OpenWorld {
    #[inline]
    pub(super) fn new(shared: SharedSource, storage: Rows, phase: u64) -> Self
        // requires world { IsOpenWorld
        //     (record { shared = shared; phase = phase; entities = storage.entities }) }
        // requires rows { AreRows shared.rows storage.places storage.entities }
        // requires room { top shared.start ≤ storage.spare }
        // ensures { result
        //     ≡ record { shared = shared; phase = phase; entities = storage.entities } }
    {
        OpenWorld {
            shared,
            storage,
            phase,
        }
    }

    /// The allocator from which callers reserve, each with a [`SharedReserver`] of its own.
    ///
    /// <details><summary>Contract</summary>
    ///
    /// <code style="display: block; tab-size: 4; white-space: pre-wrap">// In the words of [contracts](crate::contracts):
    /// ensures { result.now ≡ self.now.shared }
    /// </code>
    ///
    /// </details>
    #[inline]
    pub fn shared(&self) -> &SharedSource {
        &self.shared
    }

    /// The world as it was when it was opened.
    ///
    /// <details><summary>Contract</summary>
    ///
    /// <code style="display: block; tab-size: 4; white-space: pre-wrap">// In the words of [contracts](crate::contracts):
    /// ensures phase { result.phase ≡ self.now.phase }
    /// ensures entities { result.entities ≡ self.now.entities }
    /// </code>
    ///
    /// </details>
    #[inline]
    pub fn view(&self) -> View<'_> {
        View::new(self.shared.opened(), &self.storage, self.phase)
    }

    /// Ends the phase with all its reservers, as [`SharedSource::close`] does. Nothing of the world but
    /// its allocator changes. It doesn't allocate.
    #[inline]
    pub(crate) fn close(self, reservers: Vec<SharedReserver>) -> World
        // requires all { length reservers.items ≡ self.shared.count }
        // requires own { All (IsOf self.shared) reservers.items }
        // ensures phase { result.phase ≡ self.phase }
        // ensures entities { result.entities ≡ self.entities }
        // ensures world { IsWorld result }

        // All reservations stand in one history that is legal and respects every reserver.
        // ensures legal { IsLegal self.shared.start (history_of (records_of reservers.items)) }
        // ensures respects { let records = records_of reservers.items in
        //     All (Respects (reservations_of records)) records }
        // ensures after { result.allocator
        //     ≡ after_history self.shared.start (history_of (records_of reservers.items)) }

        // Each reservation is there once, where its step came: the cursor falls with each.
        // ensures falls { AllPairs (λ earlier later. later.high <ℤ earlier.high)
        //     (reservations_of (records_of reservers.items)) }
        // ensures numbers { AllPairs (λ r s. r.number ≢ s.number) (records_of reservers.items) }

        // No handle was given twice, and none was alive.
        // ensures distinct { AllPairs (λ g h. g ≢ h)
        //     (given_in (history_of (records_of reservers.items))) }
        // ensures not_live { All (λ h. ¬ (IsLive self.shared.start h))
        //     (given_in (history_of (records_of reservers.items))) }

        // A flush brings to life exactly what was given.
        // ensures brings_to_life { let given = given_in (history_of (records_of reservers.items)) in
        //     (h : HandleValue) → IsLive (after_flush result.allocator) h
        //     ↔ (IsLive self.shared.start h ⊎ Contains given h) }
    {
        let OpenWorld {
            shared,
            storage,
            phase,
        } = self;
        World {
            entities: shared.close(reservers),
            storage,
            phase,
        }
    }

    /// Ends the phase although some reservers may be lost, as [`SharedSource::close_lost`] does. Nothing
    /// of the world but its allocator changes. It doesn't allocate.
    #[inline]
    pub(crate) fn close_lost(self, reservers: Vec<SharedReserver>) -> World
        // requires { All (IsOf self.shared) reservers.items }
        // ensures phase { result.phase ≡ self.phase }
        // ensures entities { result.entities ≡ self.entities }
        // ensures world { IsWorld result }
        // ensures after { result.allocator ≡ after_loss self.shared.start result.allocator.asked }

        // It counts what the reservers that are here have requested, and of the others no more than
        // their quota.
        // ensures least { sum_by (λ r. requested_by r.own) reservers.items ≤ result.allocator.asked }
        // ensures most { sum_by (λ r. r.own.left) reservers.items + result.allocator.asked
        //     ≤ self.shared.count * quota }
        // ensures reached { All (λ r. cursor result.allocator ≤ℤ r.own.mark) reservers.items }

        // If all are here, it counts what they have requested, and the cursor is where `close`
        // leaves it.
        // ensures asked { length reservers.items ≡ self.shared.count
        //     → sum_by (λ r. requested_by r.own) reservers.items ≡ result.allocator.asked }
        // ensures whole { length reservers.items ≡ self.shared.count → cursor result.allocator
        //     ≡ cursor (after_history self.shared.start (history_of (records_of reservers.items))) }

        // What the reservers that are here were given is reserved. No handle was given to two of
        // them, and none was alive.
        // ensures given { All (λ r. All (Contains result.allocator.taken) (handles_given r.own))
        //     reservers.items }
        // ensures distinct { AllPairs (λ g h. g ≢ h)
        //     (handles_of (own_of_all (records_of reservers.items))) }
        // ensures not_live { All (λ h. ¬ (IsLive self.shared.start h)) result.allocator.taken }

        // A flush brings to life exactly what is reserved.
        // ensures brings_to_life { (h : HandleValue) → IsLive (after_flush result.allocator) h
        //     ↔ (IsLive self.shared.start h ⊎ Contains result.allocator.taken h) }
    {
        let OpenWorld {
            shared,
            storage,
            phase,
        } = self;
        World {
            entities: shared.close_lost(reservers),
            storage,
            phase,
        }
    }
}
