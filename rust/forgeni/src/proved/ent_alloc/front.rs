// Made of crates/ent_alloc/src/front.rt by rust/erase. It isn't edited by hand.

//! What was used of portions of the pool's front, and what is left of them.

use alloc::vec::Vec;
use crate::kit::vec::FallibleVec;
use crate::allocator::entities::Entities;
use crate::allocator::packed_slot::PackedSlot;
use crate::allocator::portion::Portion;
use crate::allocator::slots::Slots;
use crate::handles::OutOfMemory;

/// Makes `count` slots, which wait after all others. There is room in both lists.
#[inline]
fn make_waiting(records: &mut Vec<PackedSlot>, pending: &mut Vec<u32>, count: u32)
    // requires room { vec_len records.old + count ≤ vec_capacity records.old }
    // requires list_room { vec_len pending.old + count ≤ vec_capacity pending.old }
    // requires indices { vec_len records.old + count < 2 ^ 32 }
    // requires positions { vec_len pending.old ≤ vec_len records.old }
    // ensures records { records.new.items
    //     ≡ records.old.items ++ new_waiting (vec_len pending.old) count }
    // ensures listed { pending.new.items
    //     ≡ pending.old.items ++ range_with_len (vec_len records.old) count }
{
    let made = records.len() as u32;
    let waiting = pending.len() as u32;
    for more in 0..count {
        records.push_reserved(PackedSlot::pending(1, waiting + more));
        pending.push_reserved(made + more);
    }
}

/// Writes these at the end of a list, the first one last.
#[inline]
fn place_last(pending: &mut [u32], order: &[u32])
    // requires few { length order.now ≤ length pending.old }
    // ensures { pending.new ≡ placed pending.old (length pending.old) order.now }
{
    // As one piece, so that no item takes a test of its place.
    let kept = pending.len() - order.len();
    let places = &mut pending[kept..];
    places.copy_from_slice(order);
    places.reverse();
}

/// Lets these slots, which wait, wait after all others, the first one last.
#[inline]
fn wait_last(records: &mut [PackedSlot], pending: &mut [u32], order: &[u32])
    // requires made { All (λ i. i < length records.old) order.now }
    // requires waiting { All (λ i. is_pending_from (record_at records.old i).occupancy 0 ≡ true)
    //     order.now }
    // requires few { length order.now ≤ length pending.old }
    // requires positions { length pending.old < 2 ^ 32 }
    // ensures records { records.new ≡ moved records.old (length pending.old) order.now }
    // ensures listed { pending.new ≡ placed pending.old (length pending.old) order.now }
{
    place_last(pending, order);
    let mut position = pending.len() as u32;
    for index in order {
        position -= 1;
        records[*index as usize].wait_at(position);
    }
}

impl Slots {
    /// Makes slots that wait after all others for their first occupants. All room is asked for
    /// first: if memory runs out, nothing has changed.
    #[inline]
    pub(super) fn make_waiting(&mut self, count: u32) -> Result<(), OutOfMemory>
        // requires { self.old.made + count ≤ self.old.limits.slots }
        // ensures ok { OnOk result (self.new ≡ record self.old {
        //   pending = self.old.pending ++ fresh_handles self.old.made count;
        //   made = self.old.made + count;
        // }) }
        // ensures err { OnErr result (self.new ≡ self.old) }
        // ensures memory { OnErr result (0 < count) }
    {
        self.records.reserve_fallibly(count as usize)?;
        self.pending.reserve_fallibly(count as usize)?;
        make_waiting(&mut self.records, &mut self.pending, count);
        Ok(())
    }

    /// Lets the slots that wait last wait in another order: the first of these last.
    #[inline]
    pub(super) fn wait_last(&mut self, order: &[u32])
        // requires few { length order.now ≤ length self.old.pending }
        // requires same { AreSlotsOf
        //     (drop (length self.old.pending - length order.now) self.old.pending) order.now }
        // ensures { let kept = length self.old.pending - length order.now in
        //     (slots : AreSlotsOf (drop kept self.old.pending) order.now)
        //     → self.new ≡ record self.old {
        //       pending = take kept self.old.pending ++ reverse slots.front;
        //     } }
    {
        wait_last(&mut self.records, &mut self.pending, order);
    }

    /// Appends `count` slots of what there is to give, from a position on. There is room for them.
    #[inline]
    fn append_slots(&self, order: &mut Vec<u32>, from: u32, count: u32)
        // requires within { from + count ≤ length (idle self.now) }
        // requires few { from + count < 2 ^ 32 }
        // requires room { vec_len order.old + count ≤ vec_capacity order.old }
        // ensures items { order.new.items
        //     ≡ order.old.items ++ take count (drop from (slots_of (idle self.now))) }
        // ensures len { vec_len order.new ≡ vec_len order.old + count }
        // ensures capacity { vec_capacity order.old ≤ vec_capacity order.new }
    {
        let waiting = lesser(count, self.waiting().saturating_sub(from));
        self.append_waiting(order, from, waiting);
        self.append_fresh(order, from + waiting, count - waiting);
    }

    /// The same of slots that wait.
    #[inline]
    fn append_waiting(&self, order: &mut Vec<u32>, from: u32, count: u32)
        // requires within { count ≤ length self.now.pending - from }
        // requires room { vec_len order.old + count ≤ vec_capacity order.old }
        // ensures items { order.new.items
        //     ≡ order.old.items ++ take count (drop from (slots_of (idle self.now))) }
        // ensures len { vec_len order.new ≡ vec_len order.old + count }
        // ensures capacity { vec_capacity order.old ≤ vec_capacity order.new }
    {
        let end = self.pending.len().saturating_sub(from as usize);
        append_turned(order, &self.pending[end - count as usize..end]);
    }

    /// The same of slots that aren't made yet.
    #[inline]
    fn append_fresh(&self, order: &mut Vec<u32>, from: u32, count: u32)
        // requires past { 0 < count → length self.now.pending ≤ from }
        // requires within { from + count ≤ length (idle self.now) }
        // requires room { vec_len order.old + count ≤ vec_capacity order.old }
        // ensures items { order.new.items
        //     ≡ order.old.items ++ take count (drop from (slots_of (idle self.now))) }
        // ensures len { vec_len order.new ≡ vec_len order.old + count }
        // ensures capacity { vec_capacity order.old ≤ vec_capacity order.new }
    {
        let first = self.made() + from.saturating_sub(self.waiting());
        append_run(order, first, count);
    }

    /// Appends the slots of what was used.
    #[inline]
    fn append_used(&self, order: &mut Vec<u32>, portions: &[Portion])
        // requires used { AreUsed portions.now }
        // requires within { size_of portions.now ≤ length (idle self.now) }
        // requires few { size_of portions.now < 2 ^ 32 }
        // requires room { vec_len order.old + count_of portions.now ≤ vec_capacity order.old }
        // ensures items { order.new.items
        //     ≡ order.old.items ++ used_of (slots_of (idle self.now)) portions.now }
        // ensures len { vec_len order.new ≡ vec_len order.old + count_of portions.now }
        // ensures capacity { vec_capacity order.old ≤ vec_capacity order.new }
    {
        let mut before = 0;
        for portion in portions {
            self.append_slots(order, before, portion.used);
            before += portion.size;
        }
    }

    /// Appends the slots of the first so many that are left.
    #[inline]
    fn append_left(&self, order: &mut Vec<u32>, portions: &[Portion], count: u32)
        // requires used { AreUsed portions.now }
        // requires within { size_of portions.now ≤ length (idle self.now) }
        // requires few { size_of portions.now < 2 ^ 32 }
        // requires enough { count_of portions.now + count ≤ size_of portions.now }
        // requires room { vec_len order.old + count ≤ vec_capacity order.old }
        // ensures items { order.new.items
        //     ≡ order.old.items ++ take count (left_of (slots_of (idle self.now)) portions.now) }
    {
        let mut before = 0;
        let mut more = count;
        for portion in portions {
            let count = lesser(portion.size - portion.used, more);
            self.append_slots(order, before + portion.used, count);
            more -= count;
            before += portion.size;
        }
    }

    /// The slots of what was used, and then of what is left before the last one that was used.
    #[inline]
    fn order_of(
        &self,
        portions: &[Portion],
        count: u32,
        reach: u32,
    ) -> Result<Vec<u32>, OutOfMemory>
        // requires used { AreUsed portions.now }
        // requires within { size_of portions.now ≤ length (idle self.now) }
        // requires few { size_of portions.now < 2 ^ 32 }
        // requires count { count ≡ count_of portions.now }
        // requires reach { reach ≡ reach_of portions.now }
        // ensures { IfOk result (λ order.
        //     order.items ≡ front_of (slots_of (idle self.now)) portions.now) }
    {
        let mut order = Vec::with_capacity_fallibly(reach as usize)?;
        self.append_used(&mut order, portions);
        self.append_left(&mut order, portions, reach - count);
        Ok(order)
    }
}

/// Appends these in reverse order. There is room for them.
#[inline]
fn append_turned(list: &mut Vec<u32>, items: &[u32])
    // requires { vec_len list.old + length items.now ≤ vec_capacity list.old }
    // ensures items { list.new.items ≡ list.old.items ++ reverse items.now }
    // ensures len { vec_len list.new ≡ vec_len list.old + length items.now }
    // ensures capacity { vec_capacity list.old ≤ vec_capacity list.new }
{
    // As one piece, so that no item takes a test for room.
    let start = list.len();
    list.extend_from_slice_fallibly(items).unwrap();
    list[start..].reverse();
}

/// Appends that many numbers, from one on. There is room for them.
#[inline]
fn append_run(list: &mut Vec<u32>, first: u32, count: u32)
    // requires room { vec_len list.old + count ≤ vec_capacity list.old }
    // requires numbers { first + count < 2 ^ 32 }
    // ensures items { list.new.items ≡ list.old.items ++ range_with_len first count }
    // ensures len { vec_len list.new ≡ vec_len list.old + count }
    // ensures capacity { vec_capacity list.old ≤ vec_capacity list.new }
{
    // As one piece, so that no item takes a test for room.
    let start = list.len();
    list.resize_fallibly(start + count as usize, 0).unwrap();
    number_from(&mut list[start..], first);
}

/// Numbers these places, from one on.
#[inline]
fn number_from(places: &mut [u32], first: u32)
    // requires { first + length places.old < 2 ^ 32 }
    // ensures { places.new ≡ range_with_len first (length places.old) }
{
    for position in 0..places.len() {
        places[position] = first + position as u32;
    }
}

#[inline]
fn lesser(m: u32, n: u32) -> u32
    // ensures { result ≡ min m n }
{
    if m <= n { m } else { n }
}

/// How many handles were used of these portions.
#[inline]
fn count_of(portions: &[Portion]) -> u32
    // requires used { AreUsed portions.now }
    // requires few { size_of portions.now < 2 ^ 32 }
    // ensures { result ≡ count_of portions.now }
{
    let mut count = 0;
    for portion in portions {
        count += portion.used;
    }
    count
}

/// How many handles there are up to the last one that was used.
#[inline]
fn reach_of(portions: &[Portion]) -> u32
    // requires used { AreUsed portions.now }
    // requires few { size_of portions.now < 2 ^ 32 }
    // ensures { result ≡ reach_of portions.now }
{
    let mut reach = 0;
    let mut before = 0;
    for portion in portions {
        reach = reach_with(reach, before, portion.used);
        before += portion.size;
    }
    reach
}

/// How far it is to the last handle that was used, with a portion that begins after so many.
#[inline]
fn reach_with(reach: u32, before: u32, used: u32) -> u32
    // requires { before + used < 2 ^ 32 }
    // ensures { result ≡ (if used == 0 then reach else before + used) }
{
    if used == 0 { reach } else { before + used }
}

impl Entities {
    /// Makes the pool begin with the handles of these slots, in this order. They are those that it
    /// begins with already.
    #[inline]
    fn set_front(&mut self, front: &[u32]) -> Result<(), OutOfMemory>
        // requires flushed { self.old.allocator.asked ≡ 0 }
        // requires few { length front.now ≤ length self.old.allocator.pool }
        // requires same { AreSlotsOf (take (length front.now) self.old.allocator.pool) front.now }
        // ensures ok { OnOk result
        //     ((slots : AreSlotsOf (take (length front.now) self.old.allocator.pool) front.now)
        //     → self.new.allocator ≡ with_front self.old.allocator slots.front) }
        // ensures rows { self.new.rows ≡ self.old.rows }
        // ensures rows_of_living { HasRowsOfLiving self.new }
        // ensures err { OnErr result (self.new ≡ self.old) }
        // ensures memory { OnErr result (top self.old.allocator < length front.now) }
    {
        let waiting = self.slots.waiting();
        let more = (front.len() as u32).saturating_sub(waiting);
        self.slots.make_waiting(more)?;
        self.slots.wait_last(front);
        Ok(())
    }

    /// Takes what was used of these portions, of which the first begins at the pool's front, and
    /// each other one where the portion before it ends. What is left of them can be given again, in
    /// the same order. The next flush brings to life what is taken.
    ///
    /// Nothing may have been requested since the last flush. It takes time for each portion. If
    /// something is left before the last handle that was used, it also takes time and memory for
    /// each handle up to that one, and makes the slots of the fresh ones among these.
    ///
    /// # Errors
    ///
    /// [`OutOfMemory`] if there isn't enough memory for that. Nothing has changed then.
    #[inline]
    pub(crate) fn take_portions(&mut self, portions: &[Portion]) -> Result<(), OutOfMemory>
        // requires flushed { self.old.allocator.asked ≡ 0 }
        // requires used { AreUsed portions.now }
        // requires within { size_of portions.now ≤ length self.old.allocator.pool }
        // ensures ok { OnOk result
        //     (self.new.allocator ≡ after_portions self.old.allocator portions.now) }
        // ensures rows { self.new.rows ≡ self.old.rows }
        // ensures rows_of_living { HasRowsOfLiving self.new }
        // ensures err { OnErr result (self.new ≡ self.old) }
        // ensures memory { OnErr result (count_of portions.now < reach_of portions.now) }
    {
        // Its contract says that the state is sound.
        let _cursor = self.cursor();
        let _left = self.left();
        let count = count_of(portions);
        self.arrange(portions, count)?;
        let _span = self.lower(count);
        Ok(())
    }

    /// Makes the pool begin with what was used, if something is left before the last one of it.
    #[inline]
    fn arrange(&mut self, portions: &[Portion], count: u32) -> Result<(), OutOfMemory>
        // requires flushed { self.old.allocator.asked ≡ 0 }
        // requires used { AreUsed portions.now }
        // requires within { size_of portions.now ≤ length self.old.allocator.pool }
        // requires few { size_of portions.now < 2 ^ 32 }
        // requires count { count ≡ count_of portions.now }
        // ensures ok { OnOk result (self.new.allocator ≡ arranged self.old.allocator portions.now) }
        // ensures rows { self.new.rows ≡ self.old.rows }
        // ensures rows_of_living { HasRowsOfLiving self.new }
        // ensures err { OnErr result (self.new ≡ self.old) }
        // ensures memory { OnErr result (count_of portions.now < reach_of portions.now) }
    {
        // Its contract says that rows are kept of the living alone.
        let _cursor = self.cursor();
        let reach = reach_of(portions);
        if count == reach {
            return Ok(());
        }
        let order = self.slots.order_of(portions, count, reach)?;
        self.set_front(&order)?;
        Ok(())
    }
}
