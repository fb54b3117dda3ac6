// Made of crates/ent_alloc/src/prepared.rt by rust/erase. It isn't edited by hand.

//! An allocator that is about to take over another one. Its memory is taken first, by a step of its
//! own: so a caller that copies more than an allocator takes all memory before anything changes.

use alloc::vec::Vec;
use crate::allocator::cloning::{overwrite, reserve_for};
use crate::allocator::entities::Entities;
use crate::allocator::limits::Limits;
use crate::allocator::packed_slot::PackedSlot;
use crate::allocator::requests::Requests;
use crate::allocator::slots::Slots;
use crate::handles::OutOfMemory;

/// An allocator and the room that its lists have.
///
/// Contracts see the allocator, and for how many slots there is room, in all and of those that
/// wait.
pub struct Prepared {
    limits: Limits,
    records: Vec<PackedSlot>,
    pending: Vec<u32>,
    retired: u32,
    requests: Requests,
}

impl Prepared {
    /// This allocator, with the room that it has.
    ///
    /// <details><summary>Contract</summary>
    ///
    /// <code style="display: block; tab-size: 4; white-space: pre-wrap">// In the words of [contracts](crate::contracts):
    /// ensures { result.entities ≡ entities }
    /// </code>
    ///
    /// </details>
    #[inline]
    pub fn of(entities: Entities) -> Self {
        let Entities { slots, requests } = entities;
        let Slots {
            limits,
            records,
            pending,
            retired,
        } = slots;
        Prepared {
            limits,
            records,
            pending,
            retired,
            requests,
        }
    }

    /// The allocator.
    ///
    /// <details><summary>Contract</summary>
    ///
    /// <code style="display: block; tab-size: 4; white-space: pre-wrap">// In the words of [contracts](crate::contracts):
    /// ensures value { result ≡ self.entities }
    /// ensures rows_of_living { [HasRowsOfLiving](crate::contracts::ent_alloc::entities#HasRowsOfLiving) result }
    /// </code>
    ///
    /// </details>
    #[inline]
    pub fn into_entities(self) -> Entities {
        Entities {
            slots: Slots {
                limits: self.limits,
                records: self.records,
                pending: self.pending,
                retired: self.retired,
            },
            requests: self.requests,
        }
    }

    /// Makes room for the slots of another allocator. It doesn't allocate if this one has made as
    /// many, and as many wait.
    ///
    /// # Errors
    ///
    /// Out of memory. There may be more room than before.
    ///
    /// <details><summary>Contract</summary>
    ///
    /// <code style="display: block; tab-size: 4; white-space: pre-wrap">// In the words of [contracts](crate::contracts):
    /// ensures entities { self.new.entities ≡ self.old.entities }
    /// ensures slots { [OnOk](crate::contracts::logic#OnOk) result (source.now.allocator.made ≤ self.new.slots) }
    /// ensures waiting { [OnOk](crate::contracts::logic#OnOk) result ([top](crate::contracts::ent_alloc::sequential#top) source.now.allocator ≤ self.new.waiting) }
    /// ensures memory { [OnErr](crate::contracts::logic#OnErr) result
    /// &#9;((self.old.entities.allocator.made \< source.now.allocator.made)
    /// &#9;⊎ ([top](crate::contracts::ent_alloc::sequential#top) self.old.entities.allocator \< [top](crate::contracts::ent_alloc::sequential#top) source.now.allocator)) }
    /// </code>
    ///
    /// </details>
    #[inline]
    pub fn reserve_for(&mut self, source: &Entities) -> Result<(), OutOfMemory> {
        reserve_for(&mut self.records, source.slots.records.len())?;
        reserve_for(&mut self.pending, source.slots.pending.len())?;
        Ok(())
    }

    /// The same allocator as another one, in the lists of this one. It doesn't allocate.
    #[inline]
    pub(crate) fn take_over(self, source: &Entities) -> Entities
        // requires slots { source.now.allocator.made ≤ self.slots }
        // requires waiting { top source.now.allocator ≤ self.waiting }
        // ensures value { result ≡ source.now }
        // ensures rows_of_living { HasRowsOfLiving result }
    {
        let Prepared {
            mut records,
            mut pending,
            ..
        } = self;
        overwrite(&mut records, &source.slots.records);
        overwrite(&mut pending, &source.slots.pending);
        Entities {
            slots: Slots {
                limits: source.slots.limits,
                records,
                pending,
                retired: source.slots.retired,
            },
            requests: source.requests,
        }
    }
}
