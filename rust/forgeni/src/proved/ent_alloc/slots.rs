// Made of crates/ent_alloc/src/slots.rt by rust/erase. It isn't edited by hand.

use alloc::vec::Vec;
use crate::kit::vec::FallibleVec;
use crate::allocator::cloning::{overwrite, reserve_for};
use crate::allocator::fault::FreeError;
use crate::allocator::image_fault::ImageFault;
use crate::allocator::image_slots::{SlotLists, read_slots, write_rowless_slots, write_slots};
use crate::allocator::limits::Limits;
use crate::allocator::living::Living;
use crate::allocator::packed_slot::PackedSlot;
use crate::allocator::slot_record;
use crate::allocator::slot_record::{Occupancy, first_occupant, make_all, reuse_all};
use crate::handles::{Handle, OutOfMemory};

/// The slots that were made, and those of them that wait for their next occupant.
pub(super) struct Slots {
    pub(super) limits: Limits,
    pub(super) records: Vec<PackedSlot>,
    pub(super) pending: Vec<u32>,
    pub(super) retired: u32,
}

impl Slots {
    #[inline]
    pub(super) const fn new(limits: Limits) -> Self
        // ensures value { result ≡ record {
        //   limits = limits;
        //   live = set.empty;
        //   rows = maps.empty;
        //   pending = [];
        //   made = 0;
        // } }
        // ensures limited { AreLimits limits }
    {
        Slots {
            limits,
            records: Vec::new(),
            pending: Vec::new(),
            retired: 0,
        }
    }

    #[inline]
    pub(super) fn limits(&self) -> Limits
        // ensures { result ≡ self.now.limits }
    {
        self.limits
    }

    /// How many slots were made.
    #[inline]
    pub(super) fn made(&self) -> u32
        // ensures value { result ≡ self.now.made }
        // ensures within { result ≤ self.now.limits.slots }
        // ensures fits { self.now.limits.slots < 2 ^ 32 }
    {
        self.records.len() as u32
    }

    /// How many slots wait for their next occupant.
    #[inline]
    pub(super) fn waiting(&self) -> u32
        // ensures value { result ≡ length self.now.pending }
        // ensures within { result ≤ self.now.made }
        // ensures few { self.now.made ≤ self.now.limits.slots }
        // ensures fits { self.now.limits.slots < 2 ^ 32 }
    {
        self.pending.len() as u32
    }

    /// The position after the last slot that waits.
    #[inline]
    pub(super) fn top(&self) -> i64
        // ensures value { result ≡ pos (length self.now.pending) }
        // ensures within { length self.now.pending ≤ self.now.made }
        // ensures few { self.now.made ≤ self.now.limits.slots }
        // ensures fits { self.now.limits.slots < 2 ^ 32 }
    {
        self.pending.len() as i64
    }

    /// How many occupants live.
    #[inline]
    pub(super) fn live(&self) -> u32
        // ensures { result ≡ set.len self.now.live }
    {
        self.made() - self.waiting() - self.retired
    }

    /// The living occupants, in slot order.
    #[inline]
    pub(super) fn occupants(&self) -> Living<'_>
        // ensures living { set.from_list result ≡ self.now.live }
        // ensures rising { AllPairs (λ g h. g.index < h.index) result }
        // ensures count { length result ≡ set.len self.now.live }
    {
        Living::new(&self.records, self.live())
    }

    /// What has the handle's slot; `None` if the slot wasn't made or is at another generation.
    #[inline]
    pub(super) fn occupancy_of(&self, handle: Handle) -> Option<Occupancy>
        // ensures lives { set.contains self.now.live handle ≡ lives result }
        // ensures row { maps.get self.now.rows handle ≡ row_kept result }
        // ensures waits { (from : ℕ)
        //     → stands_in (drop from self.now.pending) handle ≡ waits_from result from }
        // ensures made { OnSome result (handle.index < self.now.made) }
    {
        slot_record::occupancy_of(&self.records, handle)
    }

    #[inline]
    pub(super) fn is_alive(&self, handle: Handle) -> bool
        // ensures { result ≡ set.contains self.now.live handle }
    {
        slot_record::is_living(&self.records, handle)
    }

    /// The row that is kept with an occupant.
    #[inline]
    pub(super) fn row(&self, handle: Handle) -> Option<u32>
        // ensures value { result ≡ maps.get self.now.rows handle }
        // ensures alive { OnSome result (set.contains self.now.live handle ≡ true) }
    {
        match self.occupancy_of(handle) {
            Some(Occupancy::AliveWithRow { row }) => Some(row),
            Some(Occupancy::Alive | Occupancy::Pending { .. } | Occupancy::Retired) | None => None,
        }
    }

    /// Whether the handle's slot was made.
    #[inline]
    pub(super) fn is_made(&self, handle: Handle) -> bool
        // ensures { IsTrue result ↔ (handle.index < self.now.made) }
    {
        (handle.index() as usize) < self.records.len()
    }

    /// Whether the handle is the first occupant of one of the next `count` slots to be made.
    #[inline]
    pub(super) fn is_next(&self, handle: Handle, count: u32) -> bool
        // requires { self.now.made ≤ handle.index }
        // ensures { result ≡ stands_in (fresh_handles self.now.made count) handle }
    {
        handle.generation() == 1 && handle.index() - self.made() < count
    }

    /// Keeps a row with an occupant.
    #[inline]
    pub(super) fn set_row(&mut self, handle: Handle, row: u32)
        // requires { set.contains self.old.live handle ≡ true }
        // ensures { self.new ≡ record self.old { rows = maps.insert self.old.rows handle row } }
    {
        self.records[handle.index() as usize] = PackedSlot::with_row(handle.generation(), row);
    }

    /// The handle that waits at a position.
    #[inline]
    pub(super) fn pending_at(&self, position: usize) -> Handle
        // requires { position < length self.now.pending }
        // ensures { slice_get self.now.pending position ≡ Some result }
    {
        let index = self.pending[position];
        Handle::from_parts(index, self.records[index as usize].generation())
    }

    /// The handle that waits with so many after it. `None` if no more than these wait.
    #[inline]
    pub(super) fn pending_before(&self, after: u64) -> Option<Handle>
        // ensures some { IfSome result (λ h. slice_get self.now.pending
        //     (length self.now.pending - 1 - after) ≡ Some h) }
        // ensures enough { OnSome result (after < length self.now.pending) }
        // ensures none { IfNone result (length self.now.pending ≤ after) }
        // ensures few { length self.now.pending < 2 ^ 32 }
    {
        // The sum overflows if more than these wait, and is the position then. So one addition
        // takes the place of a comparison, a subtraction and the test of the position.
        let (position, waits) = (u64::MAX - after).overflowing_add(self.pending.len() as u64);
        if waits {
            Some(self.pending_at(position as usize))
        } else {
            None
        }
    }

    /// Gives the slot that waits last its next occupant. `None` if no slot waits, and nothing
    /// changes then.
    #[inline]
    pub(super) fn reuse_last(&mut self) -> Option<Handle>
        // ensures last { IfSome result (λ h.
        //     slice_get self.old.pending (length self.old.pending - 1) ≡ Some h) }
        // ensures some { IfSome result (λ h. self.new ≡ record self.old {
        //   live = set.union self.old.live (set.from_list (h ∷ []));
        //   pending = take (length self.old.pending - 1) self.old.pending;
        // }) }
        // ensures none { IfNone result (self.old.pending ≡ []) }
        // ensures unchanged { IfNone result (self.new ≡ self.old) }
    {
        let index = self.pending.pop()?;
        let generation = self.records[index as usize].reuse();
        Some(Handle::from_parts(index, generation))
    }

    /// Makes one slot, with its first occupant.
    #[inline]
    pub(super) fn make_one(&mut self) -> Result<Handle, OutOfMemory>
        // requires { self.old.made < self.old.limits.slots }
        // ensures first { IfOk result (λ h. h ≡ record { index = self.old.made; generation = 1 }) }
        // ensures ok { IfOk result (λ h. self.new ≡ record self.old {
        //   live = set.union self.old.live (set.from_list (h ∷ []));
        //   made = self.old.made + 1;
        // }) }
        // ensures err { OnErr result (self.new ≡ self.old) }
    {
        let handle = first_occupant(self.made());
        self.records.push_fallibly(PackedSlot::new())?;
        Ok(handle)
    }

    /// Brings to life the first occupants of `fresh` new slots and the handles that wait from the
    /// position `kept` on, and appends them. All room is asked for first: if memory runs out,
    /// nothing has changed.
    #[inline]
    pub(super) fn bring_to_life(
        &mut self,
        kept: usize,
        fresh: u32,
        out: &mut Vec<Handle>,
    ) -> Result<(), OutOfMemory>
        // requires waiting { kept ≤ length self.old.pending }
        // requires room { self.old.made + fresh ≤ self.old.limits.slots }
        // ensures ok { OnOk result (self.new ≡ record self.old {
        //   live = set.union
        //       (set.union self.old.live (set.from_list (fresh_handles self.old.made fresh)))
        //       (set.from_list (drop kept self.old.pending));
        //   pending = take kept self.old.pending;
        //   made = self.old.made + fresh;
        // }) }
        // ensures born { OnOk result (out.new.items ≡ out.old.items
        //     ++ (fresh_handles self.old.made fresh ++ drop kept self.old.pending)) }
        // ensures err { OnErr result (self.new ≡ self.old) }
        // ensures unchanged { OnErr result (out.new.items ≡ out.old.items) }
        // ensures capacity { OnErr result (vec_capacity out.new ≡ vec_capacity out.old) }
        // ensures memory { OnErr result ((0 < fresh)
        //     ⊎ (vec_capacity out.old < vec_len out.old + (length self.old.pending - kept))) }
    {
        let reused = self.pending.len() - kept;
        self.records.reserve_fallibly(fresh as usize)?;
        out.reserve_fallibly(fresh as usize + reused)?;
        make_all(&mut self.records, fresh, out);
        reuse_all(&mut self.records, &self.pending[kept..], out);
        self.pending.truncate(kept);
        Ok(())
    }

    /// Takes the handle's entity out of its slot, which then waits after all others for the next
    /// one, or is retired after the last one.
    #[inline]
    pub(super) fn free(&mut self, handle: Handle) -> Result<Option<Handle>, FreeError>
        // ensures waits { OnOk result (handle.generation ≢ self.old.limits.generations
        //     → self.new ≡ freed_roster self.old handle) }
        // ensures retired { OnOk result (handle.generation ≡ self.old.limits.generations
        //     → self.new ≡ retired_roster self.old handle) }
        // ensures next { IfOk result (λ following. following ≡ next self.old.limits handle) }
        // ensures lived { OnOk result (set.contains self.old.live handle ≡ true) }
        // ensures not_alive { IsErrOf result FreeError.NotAlive
        //     ↔ (set.contains self.old.live handle ≡ false) }
        // ensures needs_flush { result ≢ Err FreeError.NeedsFlush }
        // ensures memory { IsErrOf result FreeError.Memory
        //     → handle.generation ≢ self.old.limits.generations }
        // ensures err { OnErr result (self.new ≡ self.old) }
    {
        if self.pending.len() < self.pending.sized_capacity() {
            self.leave(handle)
        } else {
            self.leave_growing(handle)
        }
    }

    /// `leave`, if the list of the slots that wait has no room. It is apart, so that nothing is
    /// called if there is room, and the compiler keeps all numbers in registers.
    #[cold]
    #[inline(never)]
    fn leave_growing(&mut self, handle: Handle) -> Result<Option<Handle>, FreeError>
        // ensures waits { OnOk result (handle.generation ≢ self.old.limits.generations
        //     → self.new ≡ freed_roster self.old handle) }
        // ensures retired { OnOk result (handle.generation ≡ self.old.limits.generations
        //     → self.new ≡ retired_roster self.old handle) }
        // ensures next { IfOk result (λ following. following ≡ next self.old.limits handle) }
        // ensures lived { OnOk result (set.contains self.old.live handle ≡ true) }
        // ensures not_alive { IsErrOf result FreeError.NotAlive
        //     ↔ (set.contains self.old.live handle ≡ false) }
        // ensures needs_flush { result ≢ Err FreeError.NeedsFlush }
        // ensures memory { IsErrOf result FreeError.Memory
        //     → handle.generation ≢ self.old.limits.generations }
        // ensures err { OnErr result (self.new ≡ self.old) }
    {
        self.leave(handle)
    }

    /// Retires the slot of an entity of the last generation. It is apart, so that the compiler
    /// writes the records of other slots where nothing has to be moved between registers.
    #[cold]
    #[inline(never)]
    fn retire(&mut self, handle: Handle)
        // requires lives { set.contains self.old.live handle ≡ true }
        // ensures { self.new ≡ retired_roster self.old handle }
    {
        self.records[handle.index() as usize] = PackedSlot::retired(handle.generation());
        self.retired += 1;
    }

    /// `free`, with or without room in that list. The slot is looked up once.
    // Not inlined, its result goes through memory.
    #[inline(always)]
    fn leave(&mut self, handle: Handle) -> Result<Option<Handle>, FreeError>
        // ensures waits { OnOk result (handle.generation ≢ self.old.limits.generations
        //     → self.new ≡ freed_roster self.old handle) }
        // ensures retired { OnOk result (handle.generation ≡ self.old.limits.generations
        //     → self.new ≡ retired_roster self.old handle) }
        // ensures next { IfOk result (λ following. following ≡ next self.old.limits handle) }
        // ensures lived { OnOk result (set.contains self.old.live handle ≡ true) }
        // ensures not_alive { IsErrOf result FreeError.NotAlive
        //     ↔ (set.contains self.old.live handle ≡ false) }
        // ensures needs_flush { result ≢ Err FreeError.NeedsFlush }
        // ensures memory { IsErrOf result FreeError.Memory
        //     → handle.generation ≢ self.old.limits.generations }
        // ensures err { OnErr result (self.new ≡ self.old) }
    {
        let index = handle.index();
        // The generation, by the call whose contract says that it is in range.
        let generation = (handle.to_bits() >> 32) as u32;
        let Some(slot) = self.records.get_mut(index as usize) else {
            return Err(not_alive());
        };
        if !slot.is_occupied_by(generation) {
            return Err(not_alive());
        }
        if generation == self.limits.generations() {
            self.retire(handle);
            return Ok(None);
        }
        let position = self.pending.len() as u32;
        if self.pending.push_fallibly(index).is_err() {
            return Err(FreeError::Memory);
        }
        *slot = PackedSlot::pending(generation + 1, position);
        Ok(handle.following())
    }

    /// The same slots once more.
    #[inline]
    pub(super) fn try_clone(&self) -> Result<Slots, OutOfMemory>
        // ensures ok { IfOk result (λ clone. clone ≡ self.now) }
        // ensures memory { OnErr result (0 < self.now.made) }
    {
        let mut clone = Slots::new(self.limits);
        clone.try_clone_from(self)?;
        Ok(clone)
    }

    /// Becomes the same as another. All room is asked for first: if memory runs out, nothing has
    /// changed.
    #[inline]
    pub(super) fn try_clone_from(&mut self, source: &Slots) -> Result<(), OutOfMemory>
        // ensures ok { OnOk result (self.new ≡ source.now) }
        // ensures err { OnErr result (self.new ≡ self.old) }
        // ensures memory { OnErr result ((self.old.made < source.now.made)
        //     ⊎ (length self.old.pending < length source.now.pending)) }
    {
        reserve_for(&mut self.records, source.records.len())?;
        reserve_for(&mut self.pending, source.pending.len())?;
        overwrite(&mut self.records, &source.records);
        overwrite(&mut self.pending, &source.pending);
        self.limits = source.limits;
        self.retired = source.retired;
        Ok(())
    }

    /// Appends what an image has of the slots. There is room for it.
    #[inline]
    pub(super) fn write_image(&self, out: &mut Vec<u8>)
        // requires { vec_len out.old + 12 * self.now.made ≤ vec_capacity out.old }
        // ensures written { out.new.items ≡ out.old.items ++ slots_bytes self.now }
        // ensures slots { AreSlots self.now }
    {
        write_slots(&self.records, out);
    }

    /// Appends what an image has of the slots, as if no occupant had a row. There is room for it.
    #[inline]
    pub(super) fn write_image_without_rows(&self, out: &mut Vec<u8>)
        // requires { vec_len out.old + 12 * self.now.made ≤ vec_capacity out.old }
        // ensures written { out.new.items
        //     ≡ out.old.items ++ slots_bytes (record self.now { rows = maps.empty }) }
        // ensures slots { AreSlots (record self.now { rows = maps.empty }) }
        // ensures len { vec_len out.new ≡ vec_len out.old + 12 * self.now.made }
        // ensures capacity { vec_capacity out.old ≤ vec_capacity out.new }
    {
        write_rowless_slots(&self.records, out);
    }

    /// The slots that an image has: that many, of which so many wait.
    #[inline]
    pub(super) fn read_image(
        limits: Limits,
        made: u32,
        waiting: u32,
        bytes: &[u8],
    ) -> Result<Slots, ImageFault>
        // requires long { length bytes.now ≡ 12 * made }
        // requires few { made ≤ limits.slots }
        // requires wait { waiting ≤ made }
        // ensures found { IfOk result (λ r. slots_bytes r ≡ bytes.now) }
        // ensures slots { IfOk result AreSlots }
        // ensures limits { IfOk result (λ r. r.limits ≡ limits) }
        // ensures made { IfOk result (λ r. r.made ≡ made) }
        // ensures waiting { IfOk result (λ r. length r.pending ≡ waiting) }
        // ensures refused { IfErr result (λ fault. fault ≢ ImageFault.Memory → (r : Roster)
        //     → AreSlots r → r.limits ≡ limits → r.made ≡ made → length r.pending ≡ waiting
        //     → slots_bytes r ≢ bytes.now) }
        // ensures fault { IfErr result (λ fault. fault ≢ ImageFault.Memory
        //     → first_failing (slots_tests limits.generations made waiting bytes.now) ≡ Some fault) }
        // ensures faultless { OnOk result
        //     (first_failing (slots_tests limits.generations made waiting bytes.now) ≡ None) }
        // ensures memory { IfErr result (λ fault. fault ≡ ImageFault.Memory → 0 < made) }
    {
        let SlotLists {
            records,
            pending,
            live,
        } = read_slots(limits, made, waiting, bytes)?;
        Ok(Slots {
            limits,
            records,
            pending,
            retired: made - waiting - live,
        })
    }
}

/// What `free` returns for a handle that isn't alive. It is apart, so that the compiler keeps no
/// error ready.
#[cold]
#[inline(never)]
fn not_alive() -> FreeError
    // ensures { result ≡ FreeError.NotAlive }
{
    FreeError::NotAlive
}
