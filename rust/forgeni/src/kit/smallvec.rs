//! The kit's `smallvec`: a list whose first items stand in itself.
//!
//! The contracts are those of the kit's `smallvec/src/small_vec.rt` and `edits.rt`.

use super::alloc::{AllocError, AllocFailed};
use super::vec::FallibleVec;
use ::alloc::vec::Vec;
use core::ops::{Deref, DerefMut};

/// A list that takes memory only if it has more than `N` items. In safe code the places that are
/// not in use have to hold something, so an item is `Copy` and has a default.
///
/// The contract: there is room for `N` items from the beginning.
pub enum SmallVec<T, const N: usize> {
    Inline { len: usize, items: [T; N] },
    Heap(Vec<T>),
}

impl<T: Copy + Default, const N: usize> SmallVec<T, N> {
    /// The contract: no items. It doesn't allocate.
    #[inline]
    pub fn new() -> Self {
        SmallVec::Inline {
            len: 0,
            items: [T::default(); N],
        }
    }

    /// The contract: no items, and room for that many. It succeeds if `count` is at most `N`.
    #[inline]
    pub fn with_capacity(count: usize) -> Result<Self, AllocError> {
        if count <= N {
            return Ok(SmallVec::new());
        }
        Ok(SmallVec::Heap(Vec::with_capacity_fallibly(count)?))
    }

    #[inline]
    pub fn as_slice(&self) -> &[T] {
        self
    }

    /// The contract: the value stands at `at`, which is at most the length, and the later items
    /// after it; or it comes back, and all is as before. It succeeds if there are fewer than `N`
    /// items.
    #[inline(always)]
    pub fn insert(&mut self, at: usize, value: T) -> Result<(), AllocFailed<T>> {
        match self {
            SmallVec::Inline { len, items } if *len < N => {
                // Most items come last. A call that moves nothing would cost more than they do.
                if at < *len {
                    items.copy_within(at..*len, at + 1);
                }
                items[at] = value;
                *len += 1;
                Ok(())
            }
            _ => self.insert_with_memory(at, value),
        }
    }

    /// `insert` for a list whose items are on the heap, or are moved there by this one.
    #[inline(never)]
    fn insert_with_memory(&mut self, at: usize, value: T) -> Result<(), AllocFailed<T>> {
        match self {
            SmallVec::Inline { items, .. } => {
                let list = spill(items, at, value).ok_or(AllocFailed { value })?;
                *self = SmallVec::Heap(list);
                Ok(())
            }
            SmallVec::Heap(list) => list.insert_fallibly(at, value),
        }
    }
}

/// The items with the value among them, in a list with room for as many more.
#[cold]
fn spill<T: Copy>(items: &[T], at: usize, value: T) -> Option<Vec<T>> {
    let mut list = Vec::with_capacity_fallibly(2 * items.len() + 1).ok()?;
    list.extend_from_slice_fallibly(items).ok()?;
    list.insert_fallibly(at, value).ok()?;
    Some(list)
}

impl<T, const N: usize> Deref for SmallVec<T, N> {
    type Target = [T];

    #[inline]
    fn deref(&self) -> &[T] {
        match self {
            SmallVec::Inline { len, items } => &items[..*len],
            SmallVec::Heap(list) => list,
        }
    }
}

impl<T, const N: usize> DerefMut for SmallVec<T, N> {
    #[inline]
    fn deref_mut(&mut self) -> &mut [T] {
        match self {
            SmallVec::Inline { len, items } => &mut items[..*len],
            SmallVec::Heap(list) => list,
        }
    }
}

#[cfg(test)]
mod tests {
    use super::super::refusing::refuse;
    use super::*;

    fn inline(items: &[u32]) -> SmallVec<u32, 4> {
        let mut list = SmallVec::new();
        for (at, item) in items.iter().enumerate() {
            refuse(|| list.insert(at, *item)).expect("there is room");
        }
        list
    }

    #[test]
    fn it_begins_empty() {
        assert!(SmallVec::<u32, 4>::new().is_empty());
        assert!(SmallVec::<u32, 0>::new().as_slice().is_empty());
    }

    #[test]
    fn more_room_than_its_own_takes_memory() {
        let of = |count| SmallVec::<u32, 4>::with_capacity(count);
        assert!(refuse(|| of(4)).is_ok_and(|list| list.is_empty()));
        assert!(refuse(|| of(5)).is_err());
        let mut list = of(5).expect("memory");
        for item in 0..5 {
            refuse(|| list.insert(0, item)).expect("there is room");
        }
        assert_eq!(list.as_slice(), [4, 3, 2, 1, 0]);
    }

    #[test]
    fn insert_at_each_place() {
        for at in 0..=3 {
            let mut list = inline(&[1, 2, 3]);
            list.insert(at, 9).expect("there is room");
            let mut wanted = std::vec![1, 2, 3];
            wanted.insert(at, 9);
            assert_eq!(list.as_slice(), wanted);
        }
    }

    #[test]
    fn the_fifth_item_takes_memory_or_comes_back() {
        for at in 0..=4 {
            let mut list = inline(&[1, 2, 3, 4]);
            assert_eq!(refuse(|| list.insert(at, 9)), Err(AllocFailed { value: 9 }));
            assert_eq!(list.as_slice(), [1, 2, 3, 4]);
            list.insert(at, 9).expect("memory");
            let mut wanted = std::vec![1, 2, 3, 4];
            wanted.insert(at, 9);
            assert_eq!(list.as_slice(), wanted);
        }
    }

    #[test]
    fn a_list_on_the_heap_grows_on() {
        let mut list = inline(&[]);
        for item in 0..100 {
            list.insert(0, item).expect("memory");
        }
        assert!((0..100).rev().eq(list.iter().copied()));
        list[99] = 7;
        assert_eq!(list[99], 7);
    }

    #[test]
    fn without_room_of_its_own_the_first_item_takes_memory() {
        let mut list = SmallVec::<u32, 0>::new();
        assert_eq!(refuse(|| list.insert(0, 1)), Err(AllocFailed { value: 1 }));
        list.insert(0, 1).expect("memory");
        assert_eq!(list.as_slice(), [1]);
    }
}
