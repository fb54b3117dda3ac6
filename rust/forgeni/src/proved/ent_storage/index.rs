// Made of crates/ent_storage/src/index.rt by rust/erase. It isn't edited by hand.

use alloc::vec::Vec;
use crate::kit::vec::FallibleVec;
use super::key::Key;
use super::places::MOST_PLACES;
use super::rows::Rows;
use super::slot::{at_slot, is_gap, search_slot};
use crate::handles::Handle;
use crate::kit::alloc::AllocError;

/// The place of each entity, and places of entities that are gone. The pairs are in the order of
/// handles, so that a look-up is a binary search at most. If each slot has one pair, as with an
/// allocator's handles, the pair is at the slot's number, where it is looked for first.
///
/// So that each slot has one, a pair that comes behind all others and past its slot's number brings
/// pairs that don't count for the slots between, if there is room for them. Births in those slots
/// then go over these, in any order, and move nothing.
///
/// A pair counts only if its place has the pair's handle. So to take an entity out, nothing is
/// moved here. The pair of the slot's next occupant takes over the one before it, because it comes
/// next in the order. If no entity has the place, no entity has to be looked at for that.
pub struct Index {
    pairs: Vec<(Key, u32)>,
}

/// A place that hardly any storage has.
const NOWHERE: u32 = u32::MAX;

impl Index {
    /// An index of no entities, without room.
    ///
    /// <details><summary>Contract</summary>
    ///
    /// <code style="display: block; tab-size: 4; white-space: pre-wrap">// In the words of [contracts](crate::contracts):
    /// ensures { result ≡ record { by_handle = [map.empty](crate::contracts::logic#FinMap.empty); room = 0 } }
    /// </code>
    ///
    /// </details>
    #[inline]
    pub fn new() -> Self {
        Index {
            pairs: Vec::new(),
        }
    }

    /// The same places, with at least the same room.
    ///
    /// <details><summary>Contract</summary>
    ///
    /// <code style="display: block; tab-size: 4; white-space: pre-wrap">// In the words of [contracts](crate::contracts):
    /// ensures by_handle { [IfOk](crate::contracts::logic#IfOk) result (λ copy. copy.by_handle ≡ self.now.by_handle) }
    /// ensures room { [IfOk](crate::contracts::logic#IfOk) result (λ copy. self.now.room ≤ copy.room) }
    /// </code>
    ///
    /// </details>
    #[inline]
    pub fn try_clone(&self) -> Result<Self, AllocError> {
        let mut pairs = Vec::with_capacity_fallibly(self.pairs.sized_capacity())?;
        pairs.extend_from_slice_fallibly(&self.pairs)?;
        Ok(Index { pairs })
    }

    /// Takes over the places of another index, as far as they count. There is room for them.
    ///
    /// If the pairs of the other index fit, they are copied as they are, so that each stays at its
    /// slot's number. If not, only those that count are.
    #[inline]
    pub(crate) fn take_over(&mut self, source: &Index, rows: &Rows)
        // requires { length rows.now.places ≤ self.old.room }
        // ensures kept { HasAll (counted rows.now.places source.now.by_handle)
        //     self.new.by_handle }
        // ensures room { self.old.room ≤ self.new.room }
    {
        self.pairs.clear();
        if source.pairs.len() <= self.pairs.sized_capacity() {
            self.pairs.extend_from_slice_fallibly(&source.pairs).unwrap();
        } else {
            append_counted(&mut self.pairs, rows, &source.pairs);
        }
    }

    /// The place of the entity, if it is among the living.
    ///
    /// <details><summary>Contract</summary>
    ///
    /// <code style="display: block; tab-size: 4; white-space: pre-wrap">// In the words of [contracts](crate::contracts):
    /// ensures { result ≡ [map.get](crate::contracts::logic#FinMap.get) ([counted](crate::contracts::ent_storage::indexed#counted) rows.now.places self.now.by_handle) handle }
    /// </code>
    ///
    /// </details>
    #[inline(always)]
    pub fn place(&self, rows: &Rows, handle: Handle) -> Option<usize> {
        let found = search_slot(&self.pairs, handle);
        place_found(&self.pairs, rows, handle, found)
    }

    /// Writes down that the entity has the next place, after all the rows, and returns whether it
    /// did: not if the living have the entity already. It doesn't allocate.
    ///
    /// An allocator's handles come behind the pair of their slot's last occupant, or behind all, or
    /// over a pair that was made for their slot before it had an occupant. So these places are
    /// tried first, and only then is the handle looked for.
    #[inline(always)]
    pub(crate) fn put(&mut self, rows: &Rows, handle: Handle) -> bool
        // requires room { length rows.now.places < self.old.room }
        // ensures new { result
        //     ≡ is_none (map.get (counted rows.now.places self.old.by_handle) handle) }
        // ensures placed { IsTrue result
        //     → map.get self.new.by_handle handle ≡ Some (length rows.now.places) }
        // ensures kept { IsTrue result
        //     → Keeps handle (counted rows.now.places self.old.by_handle) self.new.by_handle }
        // ensures refused { ¬ (IsTrue result) → self.new ≡ self.old }
        // ensures room { self.new.room ≡ self.old.room }
    {
        let place = rows.len();
        if put_over_last(&mut self.pairs, rows, (Key::of(handle), place as u32))
            || put_behind(&mut self.pairs, rows, (Key::of(handle), place as u32))
            || put_over_first(&mut self.pairs, rows, (Key::of(handle), place as u32))
        {
            return true;
        }
        self.put_searched(rows, handle)
    }

    /// Does what `put` does, wherever the handle's pair goes. The handle is looked for once, and
    /// once more only if pairs have to be dropped.
    #[inline(never)]
    fn put_searched(&mut self, rows: &Rows, handle: Handle) -> bool
        // requires room { length rows.now.places < self.old.room }
        // ensures new { result
        //     ≡ is_none (map.get (counted rows.now.places self.old.by_handle) handle) }
        // ensures placed { IsTrue result
        //     → map.get self.new.by_handle handle ≡ Some (length rows.now.places) }
        // ensures kept { IsTrue result
        //     → Keeps handle (counted rows.now.places self.old.by_handle) self.new.by_handle }
        // ensures refused { ¬ (IsTrue result) → self.new ≡ self.old }
        // ensures room { self.new.room ≡ self.old.room }
    {
        let found = search_slot(&self.pairs, handle);
        if place_found(&self.pairs, rows, handle, found).is_some() {
            return false;
        }
        let pair = (Key::of(handle), rows.len() as u32);
        if self.lacks_slots_before(handle, found) {
            fill_up(&mut self.pairs, rows, handle.index());
            let filled = search_slot(&self.pairs, handle);
            put_found(&mut self.pairs, rows, filled, pair);
        } else {
            put_found(&mut self.pairs, rows, found, pair);
        }
        true
    }

    /// Whether the handle comes after all others, slots before its own have no pair, and there is
    /// room for one of each.
    #[inline]
    fn lacks_slots_before(&self, handle: Handle, found: Result<usize, usize>) -> bool {
        let slot = handle.index() as usize;
        match found {
            Ok(_) => false,
            Err(position) => {
                position == self.pairs.len() && position < slot && slot < self.pairs.sized_capacity()
            }
        }
    }

    /// Changes the place of an entity that is there.
    #[inline(always)]
    pub(crate) fn set_place(&mut self, handle: Handle, place: usize)
        // requires there { IsSome (map.get self.old.by_handle handle) }
        // requires room { place < self.old.room }
        // ensures { self.new
        //     ≡ record self.old { by_handle = map.insert self.old.by_handle handle place } }
    {
        if let Ok(position) = search_slot(&self.pairs, handle) {
            self.pairs[position] = (Key::of(handle), place as u32);
        }
    }

    /// Forgets the place of an entity that has gone, if its pair is at its slot's number.
    ///
    /// <details><summary>Contract</summary>
    ///
    /// <code style="display: block; tab-size: 4; white-space: pre-wrap">// In the words of [contracts](crate::contracts):
    /// ensures kept { [Keeps](crate::contracts::ent_storage::indexed#Keeps) handle self.old.by_handle self.new.by_handle }
    /// ensures room { self.new.room ≡ self.old.room }
    /// </code>
    ///
    /// </details>
    #[inline(always)]
    pub fn forget(&mut self, handle: Handle) {
        if let Some(position) = at_slot(&self.pairs, handle) {
            self.pairs[position] = (Key::of(handle), NOWHERE);
        }
    }

    /// For how many handles there is room in all.
    ///
    /// <details><summary>Contract</summary>
    ///
    /// <code style="display: block; tab-size: 4; white-space: pre-wrap">// In the words of [contracts](crate::contracts):
    /// ensures { result ≡ self.now.room }
    /// </code>
    ///
    /// </details>
    #[inline]
    pub fn room(&self) -> usize {
        (self.pairs.sized_capacity() as u64).min(MOST_PLACES) as usize
    }

    /// Makes room for `count` handles in all, and for `more` if there is memory for that. With that
    /// room it changes nothing.
    #[inline]
    pub(crate) fn reserve_or_more(&mut self, count: usize, more: usize) -> Result<(), AllocError>
        // requires { count ≤ more }
        // ensures by_handle { self.new.by_handle ≡ self.old.by_handle }
        // ensures ok { OnOk result (count ≤ self.new.room) }
        // ensures grows { self.old.room ≤ self.new.room }
        // ensures memory { OnErr result (self.old.room < count) }
    {
        if count <= self.room() || self.reserve(more).is_ok() {
            return Ok(());
        }
        self.reserve(count)
    }

    /// Makes room for `count` handles in all. After an `Err` nothing is changed.
    ///
    /// <details><summary>Contract</summary>
    ///
    /// <code style="display: block; tab-size: 4; white-space: pre-wrap">// In the words of [contracts](crate::contracts):
    /// ensures by_handle { self.new.by_handle ≡ self.old.by_handle }
    /// ensures ok { [OnOk](crate::contracts::logic#OnOk) result (count ≤ self.new.room) }
    /// ensures err { [OnErr](crate::contracts::logic#OnErr) result (self.new.room ≡ self.old.room) }
    /// ensures grows { self.old.room ≤ self.new.room }
    /// ensures succeeds { count ≤ self.old.room → [IsOk](crate::contracts::logic#IsOk) result }
    /// </code>
    ///
    /// </details>
    #[inline]
    pub fn reserve(&mut self, count: usize) -> Result<(), AllocError> {
        let additional = count.saturating_sub(self.pairs.len());
        if count as u64 > MOST_PLACES {
            return Err(AllocError);
        }
        self.pairs.reserve_fallibly(additional)
    }
}

/// The place in the pair that was found, if one was, and it counts.
#[inline(always)]
fn place_found(
    pairs: &[(Key, u32)],
    rows: &Rows,
    handle: Handle,
    found: Result<usize, usize>,
) -> Option<usize>
    // requires sorted { T (map.is_sorted handle_cmp pairs.now) }
    // requires found { IfOk found (IsAt handle_cmp pairs.now handle) }
    // requires absent { IfErr found (IsGapFor handle_cmp pairs.now handle) }
    // ensures { result ≡ map.get (counted rows.now.places (map.from_sorted pairs.now)) handle }
{
    let Ok(position) = found else {
        return None;
    };
    let place = pairs[position].1 as usize;
    if rows.has_key_at(Key::of(handle), place) {
        Some(place)
    } else {
        None
    }
}

/// Appends the pairs that count to a list that is empty and has room for them.
#[inline(never)]
fn append_counted(pairs: &mut Vec<(Key, u32)>, rows: &Rows, source: &[(Key, u32)])
    // requires sorted { T (map.is_sorted handle_cmp source.now) }
    // requires empty { pairs.old.items ≡ [] }
    // requires room { length rows.now.places ≤ vec_capacity pairs.old }
    // ensures sorted { T (map.is_sorted handle_cmp pairs.new.items) }
    // ensures counted { map.from_sorted pairs.new.items
    //     ≡ counted rows.now.places (map.from_sorted source.now) }
    // ensures capacity { vec_capacity pairs.new ≡ vec_capacity pairs.old }
{
    for pair in source {
        if rows.has_key_at(pair.0, pair.1 as usize) {
            pairs.push_reserved(*pair);
        }
    }
}

/// Drops the pairs that don't count. It doesn't allocate.
#[inline(never)]
fn sweep(pairs: &mut Vec<(Key, u32)>, rows: &Rows)
    // requires { T (map.is_sorted handle_cmp pairs.old.items) }
    // ensures sorted { T (map.is_sorted handle_cmp pairs.new.items) }
    // ensures counted { map.from_sorted pairs.new.items
    //     ≡ counted rows.now.places (map.from_sorted pairs.old.items) }
    // ensures len { vec_len pairs.new ≤ length rows.now.places }
    // ensures capacity { vec_capacity pairs.new ≡ vec_capacity pairs.old }
{
    pairs.retain(|pair| rows.has_key_at(pair.0, pair.1 as usize));
}

/// Puts a pair over that of its slot's last occupant, and returns whether it did: only if that one
/// is at the slot's number, doesn't count, and is the one before the gap for the new pair.
#[inline(always)]
fn put_over_last(pairs: &mut Vec<(Key, u32)>, rows: &Rows, pair: (Key, u32)) -> bool
    // requires { T (map.is_sorted handle_cmp pairs.old.items) }
    // ensures sorted { T (map.is_sorted handle_cmp pairs.new.items) }
    // ensures new { IsTrue result → map.get (counted rows.now.places
    //     (map.from_sorted {R = handle_cmp} pairs.old.items)) pair.0 ≡ None }
    // ensures placed { IsTrue result → map.get (map.from_sorted {R = handle_cmp} pairs.new.items)
    //     pair.0 ≡ Some pair.1 }
    // ensures kept { IsTrue result → Keeps pair.0
    //     (counted rows.now.places (map.from_sorted pairs.old.items))
    //     (map.from_sorted pairs.new.items) }
    // ensures refused { ¬ (IsTrue result) → pairs.new.items ≡ pairs.old.items }
    // ensures capacity { vec_capacity pairs.new ≡ vec_capacity pairs.old }
{
    let slot = pair.0.index() as usize;
    if is_own(pairs, rows, slot, pair.0.handle()) && is_gap(pairs, slot + 1, pair.0.handle()) {
        pairs[slot] = pair;
        true
    } else {
        false
    }
}

/// Puts a pair behind all others, and returns whether it did: only if there is room for it, it
/// belongs there, and it is no further than its slot's number.
#[inline(always)]
fn put_behind(pairs: &mut Vec<(Key, u32)>, rows: &Rows, pair: (Key, u32)) -> bool
    // requires { T (map.is_sorted handle_cmp pairs.old.items) }
    // ensures sorted { T (map.is_sorted handle_cmp pairs.new.items) }
    // ensures new { IsTrue result → map.get (counted rows.now.places
    //     (map.from_sorted {R = handle_cmp} pairs.old.items)) pair.0 ≡ None }
    // ensures placed { IsTrue result → map.get (map.from_sorted {R = handle_cmp} pairs.new.items)
    //     pair.0 ≡ Some pair.1 }
    // ensures kept { IsTrue result → Keeps pair.0
    //     (counted rows.now.places (map.from_sorted pairs.old.items))
    //     (map.from_sorted pairs.new.items) }
    // ensures refused { ¬ (IsTrue result) → pairs.new.items ≡ pairs.old.items }
    // ensures capacity { vec_capacity pairs.new ≡ vec_capacity pairs.old }
{
    let end = pairs.len();
    let slot = pair.0.index() as usize;
    if slot <= end && end < pairs.sized_capacity() && is_gap(pairs, end, pair.0.handle()) {
        pairs.push_reserved(pair);
        true
    } else {
        false
    }
}

/// Puts a pair over that of the same handle, and returns whether it did: only if that one is at the
/// slot's number, and doesn't count. A slot that had no occupant yet may have such a pair.
#[inline(always)]
fn put_over_first(pairs: &mut Vec<(Key, u32)>, rows: &Rows, pair: (Key, u32)) -> bool
    // requires { T (map.is_sorted handle_cmp pairs.old.items) }
    // ensures sorted { T (map.is_sorted handle_cmp pairs.new.items) }
    // ensures new { IsTrue result → map.get (counted rows.now.places
    //     (map.from_sorted {R = handle_cmp} pairs.old.items)) pair.0 ≡ None }
    // ensures placed { IsTrue result → map.get (map.from_sorted {R = handle_cmp} pairs.new.items)
    //     pair.0 ≡ Some pair.1 }
    // ensures kept { IsTrue result → Keeps pair.0
    //     (counted rows.now.places (map.from_sorted pairs.old.items))
    //     (map.from_sorted pairs.new.items) }
    // ensures refused { ¬ (IsTrue result) → pairs.new.items ≡ pairs.old.items }
    // ensures capacity { vec_capacity pairs.new ≡ vec_capacity pairs.old }
{
    let Some(position) = at_slot(pairs, pair.0.handle()) else {
        return false;
    };
    if is_free(pairs, rows, position) {
        pairs[position] = pair;
        true
    } else {
        false
    }
}

/// Gives a pair that doesn't count to each slot below this one that comes after all pairs. So the
/// next births in these slots move nothing, whatever their order. It doesn't allocate.
#[inline(never)]
fn fill_up(pairs: &mut Vec<(Key, u32)>, rows: &Rows, slot: u32)
    // requires { T (map.is_sorted handle_cmp pairs.old.items) }
    // ensures sorted { T (map.is_sorted handle_cmp pairs.new.items) }
    // ensures kept { HasAll (counted rows.now.places (map.from_sorted pairs.old.items))
    //     (map.from_sorted pairs.new.items) }
    // ensures capacity { vec_capacity pairs.new ≡ vec_capacity pairs.old }
{
    for index in pairs.len()..slot as usize {
        if let Some(first) = Handle::new(index as u32, 1) {
            let _ = put_behind(pairs, rows, (Key::of(first), NOWHERE));
        }
    }
}

/// Puts a pair where its handle was found, or into the gap for it. If there is no room for one pair
/// more in the gap, some pairs don't count. Then it drops those, and looks for the handle again.
#[inline(always)]
fn put_found(
    pairs: &mut Vec<(Key, u32)>,
    rows: &Rows,
    found: Result<usize, usize>,
    pair: (Key, u32),
)
    // requires sorted { T (map.is_sorted handle_cmp pairs.old.items) }
    // requires found { IfOk found (IsAt handle_cmp pairs.old.items pair.0) }
    // requires absent { IfErr found (IsGapFor handle_cmp pairs.old.items pair.0) }
    // requires room { length rows.now.places < vec_capacity pairs.old }
    // ensures sorted { T (map.is_sorted handle_cmp pairs.new.items) }
    // ensures placed { map.get (map.from_sorted {R = handle_cmp} pairs.new.items) pair.0
    //     ≡ Some pair.1 }
    // ensures kept { Keeps pair.0 (counted rows.now.places (map.from_sorted pairs.old.items))
    //     (map.from_sorted pairs.new.items) }
    // ensures capacity { vec_capacity pairs.new ≡ vec_capacity pairs.old }
{
    if found.is_ok() || pairs.len() < pairs.sized_capacity() {
        put_at(pairs, rows, found, pair);
    } else {
        sweep(pairs, rows);
        let swept = search_slot(pairs, pair.0.handle());
        put_at(pairs, rows, swept, pair);
    }
}

/// Puts a pair where its handle was found, or into the gap for it, where there is room.
#[inline(always)]
fn put_at(pairs: &mut Vec<(Key, u32)>, rows: &Rows, found: Result<usize, usize>, pair: (Key, u32))
    // requires sorted { T (map.is_sorted handle_cmp pairs.old.items) }
    // requires found { IfOk found (IsAt handle_cmp pairs.old.items pair.0) }
    // requires absent { IfErr found (IsGapFor handle_cmp pairs.old.items pair.0) }
    // requires room { IfErr found (λ _. vec_len pairs.old < vec_capacity pairs.old) }
    // ensures sorted { T (map.is_sorted handle_cmp pairs.new.items) }
    // ensures placed { map.get (map.from_sorted {R = handle_cmp} pairs.new.items) pair.0
    //     ≡ Some pair.1 }
    // ensures kept { Keeps pair.0 (counted rows.now.places (map.from_sorted pairs.old.items))
    //     (map.from_sorted pairs.new.items) }
    // ensures capacity { vec_capacity pairs.new ≡ vec_capacity pairs.old }
{
    match found {
        Ok(position) => pairs[position] = pair,
        Err(position) => put_in_gap(pairs, rows, position, pair),
    }
}

/// Puts a pair into the gap for it: over a pair beside the gap that doesn't count, or between the
/// two.
#[inline(always)]
fn put_in_gap(pairs: &mut Vec<(Key, u32)>, rows: &Rows, position: usize, pair: (Key, u32))
    // requires sorted { T (map.is_sorted handle_cmp pairs.old.items) }
    // requires gap { IsGapFor handle_cmp pairs.old.items pair.0 position }
    // requires room { vec_len pairs.old < vec_capacity pairs.old }
    // ensures sorted { T (map.is_sorted handle_cmp pairs.new.items) }
    // ensures placed { map.get (map.from_sorted {R = handle_cmp} pairs.new.items) pair.0
    //     ≡ Some pair.1 }
    // ensures kept { Keeps pair.0 (counted rows.now.places (map.from_sorted pairs.old.items))
    //     (map.from_sorted pairs.new.items) }
    // ensures capacity { vec_capacity pairs.new ≡ vec_capacity pairs.old }
{
    match taken_over(pairs, rows, position, pair.0.handle()) {
        Some(other) => pairs[other] = pair,
        None if position == pairs.len() => pairs.push_reserved(pair),
        None => {
            let _ = pairs.insert_fallibly(position, pair);
        }
    }
}

/// Where the pair is that a new one takes over: beside the gap at the position, and it doesn't
/// count.
///
/// The pair of the same slot comes first, so that the slots' pairs stay at their numbers. At the
/// end a new pair moves nothing, so it takes over no other slot's.
#[inline(always)]
fn taken_over(pairs: &[(Key, u32)], rows: &Rows, position: usize, handle: Handle) -> Option<usize>
    // ensures beside { IfSome result (λ other. (other ≤ position) × (position ≤ other + 1)) }
    // ensures free { IfSome result (λ other. IsFree rows.now.places pairs.now other) }
{
    let before = position.saturating_sub(1);
    if is_own(pairs, rows, before, handle) {
        return Some(before);
    }
    if position == pairs.len() {
        return None;
    }
    if is_own(pairs, rows, position, handle) {
        return Some(position);
    }
    if is_free(pairs, rows, before) {
        return Some(before);
    }
    if is_free(pairs, rows, position) {
        Some(position)
    } else {
        None
    }
}

/// Whether there is a pair of the handle's slot that doesn't count. The slot is compared first, so
/// that no entity of another slot is looked at.
#[inline]
fn is_own(pairs: &[(Key, u32)], rows: &Rows, position: usize, handle: Handle) -> bool
    // ensures { IsTrue result → IsFree rows.now.places pairs.now position }
{
    position < pairs.len()
        && pairs[position].0.index() == handle.index()
        && is_free(pairs, rows, position)
}

/// Whether there is a pair that doesn't count.
#[inline]
fn is_free(pairs: &[(Key, u32)], rows: &Rows, position: usize) -> bool
    // ensures { IsTrue result → IsFree rows.now.places pairs.now position }
{
    if position >= pairs.len() {
        return false;
    }
    let (key, place) = pairs[position];
    !rows.has_key_at(key, place as usize)
}
