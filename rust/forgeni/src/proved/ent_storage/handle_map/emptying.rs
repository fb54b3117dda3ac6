// Made of crates/ent_storage/src/handle_map/emptying.rt by rust/erase. It isn't edited by hand.

use alloc::vec::Vec;
use crate::kit::vec::FallibleVec;
use crate::components::handle_map::slot::Slot;
use crate::handles::Handle;

/// Moves all values to the end of a list that has room for them, in slot order. There are so many.
#[inline]
pub(super) fn move_values<T>(slots: Vec<Slot<T>>, len: usize, out: &mut Vec<(Handle, T)>)
    // requires counted { AreCounted 0 slots.items len }
    // requires room { vec_len out.old + len ≤ vec_capacity out.old }
    // ensures { out.new.items ≡ out.old.items ++ entries_from 0 slots.items }
{
    let mut index = 0;
    let mut rest = slots.into_iter();
    while let Some(slot) = rest.next() {
        if let Slot::Occupied { generation, value } = slot {
            out.push_reserved((generation.handle(index), value));
        }
        index += 1;
    }
}
