// Made of crates/ent_storage/src/lists.rt by rust/erase. It isn't edited by hand.

//! A list that takes over the items of another.

use alloc::vec::Vec;
use crate::kit::vec::FallibleVec;

/// Makes a list one of these items. There is room for them.
#[inline]
pub(crate) fn overwrite<T: Copy>(list: &mut Vec<T>, items: &[T])
    // requires { length items.now ≤ vec_capacity list.old }
    // ensures items { list.new.items ≡ items.now }
    // ensures room { vec_capacity list.old ≤ vec_capacity list.new }
{
    list.clear();
    list.extend_from_slice_fallibly(items).unwrap();
}
