// Made of crates/ent_storage/src/handle_map/retaining.rt by rust/erase. It isn't edited by hand.

use alloc::vec::Vec;
use crate::components::handle_map::slot::Slot;
use crate::handles::Handle;

/// Calls `keep` at each value, in slot order. Where it returns `false`, the slot is vacant then.
/// `len` is always how many values there are.
#[inline]
pub(super) fn retain_slots<T, F: FnMut(Handle, &mut T) -> bool>(
    slots: &mut Vec<Slot<T>>,
    len: &mut usize,
    mut keep: F,
)
    // requires callable { F.IsAlwaysCallable keep }
    // requires counted { AreCounted 0 slots.old.items len.old }
    // ensures counted { AreCounted 0 slots.new.items len.new }
    // ensures retained { Retains F.step keep (entries_from 0 slots.old.items)
    //     (entries_from 0 slots.new.items) }
    // ensures len { vec_len slots.new ≡ vec_len slots.old }
    // ensures capacity { vec_capacity slots.new ≡ vec_capacity slots.old }
{
    for index in 0..slots.len() {
        keep = retain_slot(&mut slots[index], index as u32, len, keep);
    }
}

/// Calls `keep` at the value of a slot, if it has one. `len` counts that value. Returns `keep`
/// after that.
#[inline]
fn retain_slot<T, F: FnMut(Handle, &mut T) -> bool>(
    slot: &mut Slot<T>,
    index: u32,
    len: &mut usize,
    mut keep: F,
) -> F
    // requires callable { F.IsAlwaysCallable keep }
    // requires in_range { index < 2 ^ 32 - 1 }
    // requires counted { count_at slot.old ≤ len.old }
    // ensures kept { RetainsSlot F.step keep index slot.old slot.new result }
    // ensures counted { len.new + count_at slot.old ≡ len.old + count_at slot.new }
    // ensures callable { F.IsAlwaysCallable result }
{
    let Some(handle) = slot.handle(index) else {
        return keep;
    };
    if keep(handle, slot.value_mut()) {
        return keep;
    }
    *len -= 1;
    *slot = Slot::Vacant;
    keep
}
