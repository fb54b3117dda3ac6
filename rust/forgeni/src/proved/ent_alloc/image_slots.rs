// Made of crates/ent_alloc/src/image_slots.rt by rust/erase. It isn't edited by hand.

//! The slots of an image: what is written of their records.

use alloc::vec::Vec;
use crate::kit::vec::FallibleVec;
use crate::allocator::image_fault::ImageFault;
use crate::allocator::limits::Limits;
use crate::allocator::packed_slot::PackedSlot;
use crate::allocator::slot_record::{Occupancy, SlotRecord};
use crate::handles::{read_long, read_word, write_word};
use crate::kit::alloc::AllocError;

/// How many bytes a slot has.
pub(super) const SLOT: usize = 12;

/// What a position has that no slot was read for yet.
pub(super) const VACANT: u32 = u32::MAX;

/// The kind and the number of a living occupant without a row: 1 and 0, in eight bytes.
const LIVING: u64 = 1;

/// The three words of a slot.
#[inline]
fn words_of(slot: SlotRecord) -> (u32, u32, u32)
    // ensures generation { result.0 ≡ (kept slot).generation }
    // ensures kind { result.1 ≡ kind_of slot.occupancy }
    // ensures number { result.2 ≡ number_of slot.occupancy }
    // ensures fits { number_of slot.occupancy < 2 ^ 32 }
{
    match slot.occupancy {
        Occupancy::Retired => (0, 0, 0),
        Occupancy::Alive => (slot.generation, 1, 0),
        Occupancy::AliveWithRow { row } => (slot.generation, 2, row),
        Occupancy::Pending { position } => (slot.generation, 3, position),
    }
}

/// Appends a slot. There is room for it.
#[inline]
fn write_slot(slot: SlotRecord, out: &mut Vec<u8>)
    // requires { vec_len out.old + 12 ≤ vec_capacity out.old }
    // ensures items { out.new.items ≡ out.old.items ++ record_bytes slot }
    // ensures fits { number_of slot.occupancy < 2 ^ 32 }
    // ensures len { vec_len out.new ≡ vec_len out.old + 12 }
    // ensures capacity { vec_capacity out.old ≤ vec_capacity out.new }
{
    let (generation, kind, number) = words_of(slot);
    write_word(out, generation);
    write_word(out, kind);
    write_word(out, number);
}

/// Appends the slots, by rising index. There is room for them.
#[inline]
pub(super) fn write_slots(records: &[PackedSlot], out: &mut Vec<u8>)
    // requires { vec_len out.old + 12 * length records.now ≤ vec_capacity out.old }
    // ensures written { out.new.items ≡ out.old.items ++ flat_map record_bytes records.now }
    // ensures fits { (index : ℕ) → index < length records.now
    //     → number_of (record_at records.now index).occupancy < 2 ^ 32 }
{
    for record in records {
        write_slot(record.record(), out);
    }
}

/// The same slot, whose occupant has no row.
#[inline]
fn without_row(slot: SlotRecord) -> SlotRecord
    // ensures { result ≡ without_row slot }
{
    let occupancy = match slot.occupancy {
        Occupancy::AliveWithRow { .. } => Occupancy::Alive,
        other => other,
    };
    SlotRecord {
        generation: slot.generation,
        occupancy,
    }
}

/// Appends the slots as if no occupant had a row, by rising index. There is room for them.
#[inline]
pub(super) fn write_rowless_slots(records: &[PackedSlot], out: &mut Vec<u8>)
    // requires { vec_len out.old + 12 * length records.now ≤ vec_capacity out.old }
    // ensures written { out.new.items ≡ out.old.items ++ flat_map rowless_bytes records.now }
    // ensures fits { (index : ℕ) → index < length records.now
    //     → number_of (without_row (record_at records.now index)).occupancy < 2 ^ 32 }
    // ensures len { vec_len out.new ≡ vec_len out.old + 12 * length records.now }
    // ensures capacity { vec_capacity out.old ≤ vec_capacity out.new }
{
    for record in records {
        write_slot(without_row(record.record()), out);
    }
}

/// The record that three words tell of; `None` if no slot within the limits is so written.
#[inline]
fn record_of(limits: Limits, generation: u32, kind: u32, number: u32) -> Option<SlotRecord>
    // ensures generation { IfSome result (λ s. (kept s).generation ≡ generation) }
    // ensures kind { IfSome result (λ s. kind_of s.occupancy ≡ kind) }
    // ensures number { IfSome result (λ s. number_of s.occupancy ≡ number) }
    // ensures within { IfSome result (λ s. IsGeneration limits s.generation) }
    // ensures limited { AreLimits limits }
    // ensures none { IfNone result ((s : SlotRecord) → IsWritten limits s.generation s.occupancy
    //     → s.generation ≡ generation → kind_of s.occupancy ≡ kind → number_of s.occupancy ≢ number) }
    // ensures row { IfNone result (is_slot limits.generations generation kind number ≡ false) }
{
    let within = 1 <= generation && generation <= limits.generations();
    if !within {
        if generation == 0 && kind == 0 && number == 0 {
            return Some(SlotRecord {
                generation: limits.generations(),
                occupancy: Occupancy::Retired,
            });
        }
        return None;
    }
    let occupancy = match kind {
        1 if number == 0 => Occupancy::Alive,
        2 => Occupancy::AliveWithRow { row: number },
        3 => Occupancy::Pending { position: number },
        _ => return None,
    };
    Some(SlotRecord {
        generation,
        occupancy,
    })
}

/// Lets a slot wait where its record says. Whether there is such a position and none other waits
/// there; if not, nothing changes.
#[inline]
fn admit(pending: &mut [u32], slot: SlotRecord, index: u32) -> bool
    // ensures waits { IsTrue result → CanWait pending.old slot.occupancy }
    // ensures placed { IsTrue result → pending.new ≡ with_waiting pending.old slot.occupancy index }
    // ensures refused { result ≡ false → ¬ (CanWait pending.old slot.occupancy) }
{
    match slot.occupancy {
        Occupancy::Pending { position } => {
            let position = position as usize;
            if position >= pending.len() || pending[position] != VACANT {
                return false;
            }
            pending[position] = index;
            true
        }
        Occupancy::Alive | Occupancy::AliveWithRow { .. } | Occupancy::Retired => true,
    }
}

/// The slot that these three words are; `None` if no slot within the limits is so written.
#[inline]
fn read_words(bytes: &[u8; SLOT], limits: Limits) -> Option<SlotRecord>
    // ensures bytes { IfSome result (λ s. bytes.now ≡ record_bytes s) }
    // ensures within { IfSome result (λ s. IsGeneration limits s.generation) }
    // ensures fits { IfSome result (λ s. number_of s.occupancy < 2 ^ 32) }
    // ensures none { IfNone result ((s : SlotRecord) → IsWritten limits s.generation s.occupancy
    //     → bytes.now ≢ slot_bytes s) }
    // ensures row { IfNone result (is_slot limits.generations
    //     (word_at bytes.now 0) (word_at bytes.now 4) (word_at bytes.now 8) ≡ false) }
{
    let (generation, rest) = read_word(bytes);
    let (kind, rest) = read_word(rest);
    let (number, _) = read_word(rest);
    record_of(limits, generation, kind, number)
}

/// The slot that these bytes are; `None` if no slot within the limits is so written. Most slots
/// have a living occupant without a row, so it looks for one first, with one comparison of its two
/// words.
#[inline]
fn read_slot(bytes: &[u8; SLOT], limits: Limits) -> Option<SlotRecord>
    // ensures bytes { IfSome result (λ s. bytes.now ≡ record_bytes s) }
    // ensures within { IfSome result (λ s. IsGeneration limits s.generation) }
    // ensures fits { IfSome result (λ s. number_of s.occupancy < 2 ^ 32) }
    // ensures none { IfNone result ((s : SlotRecord) → IsWritten limits s.generation s.occupancy
    //     → bytes.now ≢ slot_bytes s) }
    // ensures row { IfNone result (is_slot limits.generations
    //     (word_at bytes.now 0) (word_at bytes.now 4) (word_at bytes.now 8) ≡ false) }
{
    let (generation, rest) = read_word(bytes);
    if generation < 1 || limits.generations() < generation {
        return read_words(bytes, limits);
    }
    let (kind_and_number, _) = read_long(rest);
    if kind_and_number == LIVING {
        return Some(SlotRecord {
            generation,
            occupancy: Occupancy::Alive,
        });
    }
    read_words(bytes, limits)
}

/// How many living entities have the slot: one or none.
#[inline]
fn occupants_of(slot: SlotRecord) -> u32
    // ensures value { result ≡ (if is_alive slot.occupancy then 1 else 0) }
    // ensures most { result ≤ 1 }
{
    if slot.is_alive() { 1 } else { 0 }
}

/// The first position that no slot waits at.
#[inline]
fn vacant_position(pending: &[u32]) -> Option<usize>
    // ensures some { IfSome result (λ position. position < length pending.now) }
    // ensures is { IfSome result (λ position. slice_index pending.now position ≡ vacant) }
    // ensures first { IfSome result (λ position. (before : ℕ) → before < position
    //     → slice_index pending.now before ≢ vacant) }
    // ensures none { IfNone result ((position : ℕ) → position < length pending.now
    //     → slice_index pending.now position ≢ vacant) }
{
    pending.iter().position(|index| *index == VACANT)
}

/// That many positions, at which no slot waits yet.
#[inline]
fn vacant_positions(count: u32) -> Result<Vec<u32>, AllocError>
    // ensures items { IfOk result (λ positions. positions.items ≡ replicate count vacant) }
    // ensures memory { OnErr result (0 < count) }
{
    let mut positions = Vec::with_capacity_fallibly(count as usize)?;
    positions.resize_fallibly(count as usize, VACANT)?;
    Ok(positions)
}

/// The fault of a slot. It is apart, so that the compiler keeps no fault ready while it reads the
/// slots.
#[cold]
#[inline(never)]
fn slot_fault(index: u32) -> ImageFault
    // ensures { result ≡ ImageFault.Slot index }
{
    ImageFault::Slot { index }
}

/// What is read of the slots of an image.
pub(super) struct SlotLists {
    pub(super) records: Vec<PackedSlot>,
    pub(super) pending: Vec<u32>,
    pub(super) live: u32,
}

/// Reads that many slots, of which so many wait, and no more bytes than they have.
#[inline]
pub(super) fn read_slots(
    limits: Limits,
    made: u32,
    waiting: u32,
    bytes: &[u8],
) -> Result<SlotLists, ImageFault>
    // requires long { length bytes.now ≡ 12 * made }
    // requires few { made ≤ limits.slots }
    // requires wait { waiting ≤ made }
    // ensures read { IfOk result (λ l. AreRead limits l.records.items l.pending.items l.live) }
    // ensures limited { AreLimits limits }
    // ensures made { IfOk result (λ l. length l.records.items ≡ made) }
    // ensures waiting { IfOk result (λ l. length l.pending.items ≡ waiting) }
    // ensures taken { IfOk result (λ l. (position : ℕ) → position < waiting
    //     → slice_index l.pending.items position ≢ vacant) }
    // ensures bytes { IfOk result (λ l. flat_map record_bytes l.records.items ≡ bytes.now) }
    // ensures refused { IfErr result (λ fault. fault ≢ ImageFault.Memory → (r : Roster) → AreSlots r
    //     → r.limits ≡ limits → r.made ≡ made → length r.pending ≡ waiting
    //     → slots_bytes r ≢ bytes.now) }
    // ensures fault { IfErr result (λ fault. fault ≢ ImageFault.Memory
    //     → first_failing (slots_tests limits.generations made waiting bytes.now) ≡ Some fault) }
    // ensures faultless { OnOk result
    //     (first_failing (slots_tests limits.generations made waiting bytes.now) ≡ None) }
    // ensures memory { IfErr result (λ fault. fault ≡ ImageFault.Memory → 0 < made) }
    // ensures room { IfOk result (λ l. vec_capacity l.records ≡ made) }
{
    let mut records = Vec::with_capacity_fallibly(made as usize)?;
    let mut pending = vacant_positions(waiting)?;
    let mut live = 0;
    let (slots, _) = bytes.as_chunks();
    for slot in slots {
        let index = records.len() as u32;
        let Some(record) = read_slot(slot, limits) else {
            return Err(slot_fault(index));
        };
        if !admit(&mut pending, record, index) {
            return Err(slot_fault(index));
        }
        live += occupants_of(record);
        records.push_reserved(PackedSlot::of(record));
    }
    match vacant_position(&pending) {
        Some(position) => Err(ImageFault::Position {
            position: position as u32,
        }),
        None => Ok(SlotLists {
            records,
            pending,
            live,
        }),
    }
}
