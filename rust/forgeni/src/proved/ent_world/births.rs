// Made of crates/ent_world/src/births.rt by rust/erase. It isn't edited by hand.

//! What a flush brings to life enters the storage, each entity with its birth.
//!
//! All enter in the order of the flush, and get the next places: the allocator keeps each with its
//! handle. The births are of no system at first. Then the queues name them, one after the other,
//! and an entity that has the birth of a system keeps it. Those that no queue lists are numbered at
//! last. So the time grows with the number of births alone.

use crate::worlds::rows::place_of;
use crate::allocator::Entities;
use crate::handles::{Birth, Handle};
use crate::commands::{IssuedCommands, Entry, Handles};
use crate::components::Rows;

/// The number of no system: births of handles that no queue lists have it.
const NO_SYSTEM: u32 = u32::MAX;

/// Enters all that are born, each with the first birth of no system, and keeps the next places with
/// them, from the first one on. There has to be room for them.
#[inline]
pub(super) fn enter_all(
    entities: &mut Entities,
    storage: &mut Rows,
    phase: u64,
    first: u32,
    handles: &[Handle],
)
    // requires living { All (λ h. set.contains entities.old.allocator.live h ≡ true) handles.now }
    // requires fits { first + length handles.now < 2 ^ 32 }
    // requires new { AreNew handles.now storage.old.entities }
    // requires room { length handles.now ≤ storage.old.spare }
    // ensures rows { entities.new.rows ≡ with_rows entities.old.rows first handles.now }
    // ensures allocator { entities.new.allocator ≡ entities.old.allocator }
    // ensures entered { storage.new.entities ≡ with_born
    //     storage.old.entities (λ _. first_birth phase no_system) handles.now }
    // ensures places { storage.new.places ≡ storage.old.places ++ handles.now }
    // ensures spare { storage.new.spare + length handles.now ≡ storage.old.spare }
{
    let birth = first_birth(phase, NO_SYSTEM);
    let mut row = first;
    for handle in handles {
        storage.push(*handle, birth);
        entities.set_row(*handle, row);
        row += 1;
    }
}

/// Gives what the queues list their births, as far as it is born now: from the place `before` on.
/// The first queue that lists a handle counts.
#[inline]
pub(super) fn name_listed(
    entities: &Entities,
    storage: &mut Rows,
    before: usize,
    phase: u64,
    queues: &[IssuedCommands],
)
    // requires rows { ArePlaces entities.now.rows storage.old.places }
    // requires few { length queues.now ≤ 2 ^ 16 }
    // ensures named { storage.new.entities ≡ named_queues
    //     (drop before storage.old.places) phase 0 queues.now storage.old.entities }
    // ensures places { storage.new.places ≡ storage.old.places }
    // ensures spare { storage.new.spare ≡ storage.old.spare }
{
    if before >= storage.len() {
        // Nobody is born now, so the queues aren't read.
        return;
    }
    for (system, queue) in queues.iter().enumerate() {
        let first = first_birth(phase, system as u32);
        name_queue(entities, storage, before, first, queue);
    }
}

/// Numbers those of the handles that no queue lists. They stand from the place `before` on.
#[inline]
pub(super) fn number_others(storage: &mut Rows, before: usize, phase: u64, handles: &[Handle])
    // requires { drop before storage.old.places ≡ handles.now }
    // ensures numbered { storage.new.entities ≡ numbered
    //     (first_birth phase no_system) handles.now storage.old.entities }
    // ensures places { storage.new.places ≡ storage.old.places }
    // ensures spare { storage.new.spare ≡ storage.old.spare }
{
    let mut birth = first_birth(phase, NO_SYSTEM);
    for place in before..storage.len() {
        let handle = handles[place - before];
        if storage.birth_at(place, handle).system == NO_SYSTEM {
            storage.set_birth_at(place, handle, birth);
            birth = next_birth(birth);
        }
    }
}

/// Names what one queue lists, from this birth on.
#[inline]
fn name_queue(
    entities: &Entities,
    storage: &mut Rows,
    before: usize,
    first: Birth,
    queue: &IssuedCommands,
)
    // requires { ArePlaces entities.now.rows storage.old.places }
    // ensures named { storage.new.entities ≡ named_handles
    //     (drop before storage.old.places) first (handles_listed queue.now) storage.old.entities }
    // ensures places { storage.new.places ≡ storage.old.places }
    // ensures spare { storage.new.spare ≡ storage.old.spare }
{
    let mut next = first;
    for entry in queue.entries() {
        next = name_entry(entities, storage, before, next, entry);
    }
}

/// Names the handles of one command, from this birth on, and returns the birth of the next handle.
#[inline]
fn name_entry(
    entities: &Entities,
    storage: &mut Rows,
    before: usize,
    birth: Birth,
    entry: Entry<'_>,
) -> Birth
    // requires { ArePlaces entities.now.rows storage.old.places }
    // ensures named { storage.new.entities ≡ named_handles (drop before storage.old.places)
    //     birth (listed_by (command_of entry.entry)) storage.old.entities }
    // ensures places { storage.new.places ≡ storage.old.places }
    // ensures spare { storage.new.spare ≡ storage.old.spare }
    // ensures next { result ≡ birth_after birth (listed_by (command_of entry.entry)) }
{
    match entry {
        Entry::Spawn(only, _) => {
            name(entities, storage, before, only, birth);
            next_birth(birth)
        }
        Entry::SpawnMany(handles, _) => {
            name_handles(entities, storage, before, birth, handles.iter())
        }
        _ => birth,
    }
}

/// Names the handles, from this birth on, and returns the birth of the next one.
#[inline]
fn name_handles(
    entities: &Entities,
    storage: &mut Rows,
    before: usize,
    first: Birth,
    handles: Handles<'_>,
) -> Birth
    // requires { ArePlaces entities.now.rows storage.old.places }
    // ensures named { storage.new.entities ≡ named_handles
    //     (drop before storage.old.places) first handles.entry storage.old.entities }
    // ensures places { storage.new.places ≡ storage.old.places }
    // ensures spare { storage.new.spare ≡ storage.old.spare }
    // ensures next { result ≡ birth_after first handles.entry }
{
    let mut birth = first;
    for handle in handles {
        name(entities, storage, before, handle, birth);
        birth = next_birth(birth);
    }
    birth
}

/// Gives the entity its birth, if it is born now and has none of a system yet.
#[inline]
fn name(entities: &Entities, storage: &mut Rows, before: usize, handle: Handle, birth: Birth)
    // requires { ArePlaces entities.now.rows storage.old.places }
    // ensures named { storage.new.entities ≡ named
    //     (drop before storage.old.places) handle birth storage.old.entities }
    // ensures places { storage.new.places ≡ storage.old.places }
    // ensures spare { storage.new.spare ≡ storage.old.spare }
{
    let Some(place) = place_of(entities, handle) else {
        return;
    };
    if before <= place && storage.birth_at(place, handle).system == NO_SYSTEM {
        storage.set_birth_at(place, handle, birth);
    }
}

/// The birth of the first handle of a system.
#[inline]
fn first_birth(phase: u64, system: u32) -> Birth
    // ensures { result ≡ first_birth phase system }
{
    Birth {
        frame: phase,
        system,
        ordinal: 0,
    }
}

/// The birth of the next handle of the same system. Ordinals end at the greatest number.
#[inline]
fn next_birth(birth: Birth) -> Birth
    // ensures { result ≡ next_birth birth }
{
    let ordinal = birth.ordinal.saturating_add(1);
    Birth { ordinal, ..birth }
}
