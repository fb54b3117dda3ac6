//! The calls of the kit's `Vec` that return a `Result`, for Rust's own.
//!
//! A list of the results is `alloc::vec::Vec`. What the kit's list does as Rust's, as `pop` or
//! `retain`, is that of Rust's. What may be refused in the kit has another name here, which no list
//! of Rust has: each ends in `_fallibly`.
//!
//! The contracts are those of the kit's `std_alloc/src/vec/methods.rt`, `ends.rt`, `edits.rt`,
//! `filters.rt`, `sorts.rt`, `copies.rt` and `collects.rt`.

use super::alloc::{AllocError, AllocFailed};
use super::sorting::{merge_sort, sort_in_cycles};
use ::alloc::vec::Vec;
use core::mem::take;

/// The calls.
///
/// The contract of each that returns an `Err`: the items and the capacity are as before, and it
/// never comes if there was room already. The capacity never shrinks.
pub trait FallibleVec<T>: Sized {
    /// In Rust, a list of values of size 0 has unlimited room; in the kit, the room that was asked
    /// for. No source has such a list, and a call of one doesn't compile.
    const HAVE_A_SIZE: () = assert!(
        size_of::<T>() > 0,
        "the room of a list of values without a size isn't what the kit says"
    );

    /// The contract: no items, and room for that many, of which none is too much. It succeeds if
    /// `count` is 0.
    fn with_capacity_fallibly(count: usize) -> Result<Self, AllocError>;

    /// The contract: the number of items for which there is room, with those that are there.
    fn sized_capacity(&self) -> usize;

    /// The contract: after an `Ok` there is room for that many more.
    fn reserve_fallibly(&mut self, additional: usize) -> Result<(), AllocError>;

    /// The contract: after an `Ok` there is room for that many more, and for no more than that or
    /// what there was.
    fn reserve_exact_fallibly(&mut self, additional: usize) -> Result<(), AllocError>;

    /// The contract: the room is no more than before, and none if there are no items. If there
    /// isn't enough memory to move the items to, the room stays. `shrink_to_fit` of Rust's ends the
    /// program instead.
    fn shrink_to_fit_fallibly(&mut self);

    /// The contract: the value stands at the end, or comes back.
    fn push_fallibly(&mut self, value: T) -> Result<(), AllocFailed<T>>;

    /// The contract: there is room, and the value stands at the end. Who calls it has asked for
    /// room. The test of it takes the place of Rust's own, so that the list doesn't grow here, and
    /// a loop of pushes has no call.
    fn push_reserved(&mut self, value: T);

    /// The contract: the value stands at `at`, which is at most the length, and the later items
    /// after it; or it comes back.
    fn insert_fallibly(&mut self, at: usize, value: T) -> Result<(), AllocFailed<T>>;

    /// The contract: clones of the items stand at the end, in their order. It is the kit's
    /// `extend_with_clones` too, in which a clone may run out of memory.
    fn extend_from_slice_fallibly(&mut self, items: &[T]) -> Result<(), AllocError>
    where
        T: Clone;

    /// The contract: the length is `count`. Items beyond it are gone, or those that were missing
    /// are the value.
    fn resize_fallibly(&mut self, count: usize, value: T) -> Result<(), AllocError>
    where
        T: Copy;

    /// The contract: the items rise by their keys, and those of one key keep their order. All
    /// memory is asked for before an item moves, and none for 20 items or fewer. `sort_by_key` of
    /// Rust's slices ends the program instead.
    fn sort_by_key_fallibly<K: Ord>(&mut self, key: impl Fn(&T) -> K) -> Result<(), AllocError>
    where
        T: Copy;

    /// The contract: the items rise by their keys, and those of one key keep their order. All
    /// memory is asked for before an item moves, and none for one item or for no items.
    fn sort_by_cached_key_fallibly<K: Ord>(
        &mut self,
        key: impl Fn(&T) -> K,
    ) -> Result<(), AllocError>;

    /// The contract: copies of the items.
    fn from_slice_fallibly(items: &[T]) -> Result<Self, AllocError>
    where
        T: Copy;

    /// The contract: the items rise, and equal ones keep their order. It is for the repository's
    /// own tests.
    #[cfg(test)]
    fn sort_fallibly(&mut self) -> Result<(), AllocError>
    where
        T: Ord + Copy;
}

impl<T> FallibleVec<T> for Vec<T> {
    #[inline]
    fn with_capacity_fallibly(count: usize) -> Result<Self, AllocError> {
        let () = Self::HAVE_A_SIZE;
        let mut list = Vec::new();
        if count > 0 {
            allow_growth()?;
            list.try_reserve_exact(count)?;
        }
        Ok(list)
    }

    #[inline]
    fn sized_capacity(&self) -> usize {
        let () = Self::HAVE_A_SIZE;
        self.capacity()
    }

    #[inline]
    fn reserve_fallibly(&mut self, additional: usize) -> Result<(), AllocError> {
        let () = Self::HAVE_A_SIZE;
        if additional <= self.capacity() - self.len() {
            return Ok(());
        }
        let (list, result) = grown(take(self), additional);
        *self = list;
        result
    }

    fn reserve_exact_fallibly(&mut self, additional: usize) -> Result<(), AllocError> {
        let () = Self::HAVE_A_SIZE;
        if additional > self.capacity() - self.len() {
            allow_growth()?;
            self.try_reserve_exact(additional)?;
        }
        Ok(())
    }

    fn shrink_to_fit_fallibly(&mut self) {
        let () = Self::HAVE_A_SIZE;
        if self.capacity() > self.len()
            && let Ok(mut fitting) = Self::with_capacity_fallibly(self.len())
        {
            fitting.append(self);
            *self = fitting;
        }
    }

    #[inline]
    fn push_fallibly(&mut self, value: T) -> Result<(), AllocFailed<T>> {
        if self.reserve_fallibly(1).is_err() {
            return Err(AllocFailed { value });
        }
        self.push_reserved(value);
        Ok(())
    }

    #[inline]
    fn push_reserved(&mut self, value: T) {
        assert!(self.len() != self.capacity(), "no room was asked for");
        self.push(value);
    }

    #[inline]
    fn insert_fallibly(&mut self, at: usize, value: T) -> Result<(), AllocFailed<T>> {
        if self.reserve_fallibly(1).is_err() {
            return Err(AllocFailed { value });
        }
        self.insert(at, value);
        Ok(())
    }

    #[inline]
    fn extend_from_slice_fallibly(&mut self, items: &[T]) -> Result<(), AllocError>
    where
        T: Clone,
    {
        self.reserve_fallibly(items.len())?;
        self.extend_from_slice(items);
        Ok(())
    }

    #[inline]
    fn resize_fallibly(&mut self, count: usize, value: T) -> Result<(), AllocError>
    where
        T: Copy,
    {
        self.reserve_fallibly(count.saturating_sub(self.len()))?;
        self.resize(count, value);
        Ok(())
    }

    fn sort_by_key_fallibly<K: Ord>(&mut self, key: impl Fn(&T) -> K) -> Result<(), AllocError>
    where
        T: Copy,
    {
        merge_sort(self, &key)
    }

    fn sort_by_cached_key_fallibly<K: Ord>(
        &mut self,
        key: impl Fn(&T) -> K,
    ) -> Result<(), AllocError> {
        sort_in_cycles(self, &key)
    }

    #[inline]
    fn from_slice_fallibly(items: &[T]) -> Result<Self, AllocError>
    where
        T: Copy,
    {
        let mut list = Vec::with_capacity_fallibly(items.len())?;
        list.extend_from_slice(items);
        Ok(list)
    }

    #[cfg(test)]
    fn sort_fallibly(&mut self) -> Result<(), AllocError>
    where
        T: Ord + Copy,
    {
        self.sort_by_key_fallibly(|item| *item)
    }
}

/// The list, after an `Ok` with room for that many more. It is apart, so that where there is room
/// only the test is in line. The list is passed by its value: if its address left the caller, the
/// compiler would read its length from memory at each step of the caller's loop.
#[cold]
#[inline(never)]
fn grown<T>(mut list: Vec<T>, additional: usize) -> (Vec<T>, Result<(), AllocError>) {
    let result = allow_growth().and_then(|()| Ok(list.try_reserve(additional)?));
    (list, result)
}

/// In tests, whether a growth is to be refused now. Else it is up to the allocator alone.
#[inline]
fn allow_growth() -> Result<(), AllocError> {
    #[cfg(test)]
    super::refusing::ask()?;
    Ok(())
}

/// The kit's `collect`.
pub trait CollectIn: Iterator + Sized {
    /// The contract: all that the iterator yields, in its order, and no memory if that is nothing.
    /// First it asks for as many places as the iterator says that there are items. If that fails,
    /// memory may still suffice for what comes, so it asks for one place.
    #[inline]
    fn collect_in(mut self) -> Result<Vec<Self::Item>, AllocError> {
        let Some(first) = self.next() else {
            return Ok(Vec::new());
        };
        let count = self.size_hint().0.saturating_add(1);
        let mut list =
            Vec::with_capacity_fallibly(count).or_else(|_| Vec::with_capacity_fallibly(1))?;
        list.push_reserved(first);
        for item in self {
            list.push_fallibly(item)?;
        }
        Ok(list)
    }
}

impl<I: Iterator> CollectIn for I {}

#[cfg(test)]
mod tests {
    use super::super::refusing::refuse;
    use super::*;

    fn list(items: &[u32]) -> Vec<u32> {
        items.to_vec()
    }

    #[test]
    fn new_has_no_room_and_room_for_none_is_never_refused() {
        assert_eq!(Vec::<u32>::new().capacity(), 0);
        let list = refuse(|| Vec::<u32>::with_capacity_fallibly(0)).expect("nothing is asked for");
        assert_eq!((list.len(), list.capacity()), (0, 0));
    }

    #[test]
    fn capacity_is_what_was_asked_for() {
        for count in [1, 3, 1000] {
            let list = Vec::<u64>::with_capacity_fallibly(count).expect("memory");
            assert_eq!((list.len(), list.capacity()), (0, count));
        }
    }

    /// Lists of values of that size: with room for so many, with room for so many more, and without
    /// the room that they don't need.
    fn has_exact_room<T: Copy + Default>(count: usize) {
        let made = Vec::<T>::with_capacity_fallibly(count).expect("memory");
        assert_eq!((made.sized_capacity(), made.len()), (count, 0));
        for (has, more) in [(1, count), (count, 1), (count, count / 2 + 1)] {
            let mut list = std::vec![T::default(); has];
            list.shrink_to_fit_fallibly();
            assert_eq!(list.sized_capacity(), has);
            list.reserve_exact_fallibly(more).expect("memory");
            assert_eq!((list.sized_capacity(), list.len()), (has + more, has));
            list.shrink_to_fit_fallibly();
            assert_eq!((list.sized_capacity(), list.len()), (has, has));
        }
    }

    /// Std promises at least as much room as was asked for. The contracts say that it is exactly as
    /// much, as std's `Vec` has done: here for each count up to a thousand, and for counts around
    /// the powers of two up to a million.
    #[test]
    fn room_is_exactly_what_was_asked_for() {
        let around = |power: u32| (1 << power) - 1..=(1 << power) + 1;
        for count in (1..=1_000).chain((10..=20).flat_map(around)) {
            has_exact_room::<u8>(count);
            has_exact_room::<[u8; 3]>(count);
            has_exact_room::<u32>(count);
            has_exact_room::<u64>(count);
            has_exact_room::<[u32; 3]>(count);
            has_exact_room::<[u64; 5]>(count);
        }
    }

    #[test]
    fn more_than_there_can_be_is_refused() {
        assert_eq!(
            Vec::<u32>::with_capacity_fallibly(usize::MAX),
            Err(AllocError)
        );
        let mut three = list(&[1, 2, 3]);
        let capacity = three.capacity();
        assert_eq!(three.reserve_fallibly(usize::MAX), Err(AllocError));
        assert_eq!(three.reserve_exact_fallibly(usize::MAX), Err(AllocError));
        assert_eq!((&three[..], three.capacity()), (&[1, 2, 3][..], capacity));
        assert_eq!(three.reserve_exact_fallibly(100), Ok(()));
        assert_eq!((&three[..], three.capacity()), (&[1, 2, 3][..], 103));
        refuse(|| three.reserve_exact_fallibly(100)).expect("there is room");
        refuse(|| three.shrink_to_fit_fallibly());
        assert_eq!((&three[..], three.capacity()), (&[1, 2, 3][..], 103));
        three.shrink_to_fit_fallibly();
        assert_eq!((&three[..], three.capacity()), (&[1, 2, 3][..], 3));
        three.clear();
        refuse(|| three.shrink_to_fit_fallibly());
        assert_eq!(three.capacity(), 0);
    }

    #[test]
    fn push_at_capacity_grows_or_gives_the_value_back() {
        let mut list = Vec::with_capacity_fallibly(2).expect("memory");
        list.push_reserved(1);
        refuse(|| list.push_fallibly(2)).expect("there is room");
        assert_eq!(
            refuse(|| list.push_fallibly(3)),
            Err(AllocFailed { value: 3 })
        );
        assert_eq!((&list[..], list.capacity()), (&[1, 2][..], 2));
        list.push_fallibly(3).expect("memory");
        assert_eq!(&list[..], &[1, 2, 3]);
    }

    #[test]
    #[should_panic(expected = "no room was asked for")]
    fn push_reserved_without_room_is_found_out() {
        Vec::new().push_reserved(1);
    }

    #[test]
    fn insert_at_both_ends() {
        let mut list = Vec::with_capacity_fallibly(1).expect("memory");
        refuse(|| list.insert_fallibly(0, 2)).expect("there is room");
        assert_eq!(
            refuse(|| list.insert_fallibly(1, 3)),
            Err(AllocFailed { value: 3 })
        );
        assert_eq!(&list[..], &[2]);
        list.insert_fallibly(1, 3).expect("memory");
        list.insert_fallibly(0, 1).expect("memory");
        assert_eq!(&list[..], &[1, 2, 3]);
    }

    #[test]
    fn extending_by_nothing_asks_for_nothing() {
        let mut list = list(&[1]);
        refuse(|| list.extend_from_slice_fallibly(&[])).expect("nothing is asked for");
        let more = std::vec![2; list.capacity()];
        assert_eq!(
            refuse(|| list.extend_from_slice_fallibly(&more)),
            Err(AllocError)
        );
        assert_eq!(&list[..], &[1]);
        list.extend_from_slice_fallibly(&[2, 3]).expect("memory");
        assert_eq!(&list[..], &[1, 2, 3]);
    }

    #[test]
    fn resize_shrinks_and_grows() {
        let mut list = list(&[1, 2, 3]);
        refuse(|| list.resize_fallibly(1, 9)).expect("it shrinks");
        assert_eq!(&list[..], &[1]);
        let beyond = list.capacity() + 1;
        assert_eq!(refuse(|| list.resize_fallibly(beyond, 9)), Err(AllocError));
        list.resize_fallibly(3, 9).expect("memory");
        assert_eq!(&list[..], &[1, 9, 9]);
        list.resize_fallibly(0, 9).expect("it shrinks");
        assert_eq!(&list[..], &[0; 0]);
    }

    #[test]
    fn taking_items() {
        let mut list = list(&[1, 2, 3, 4, 5]);
        assert_eq!(list.swap_remove(0), 1);
        assert_eq!(list.swap_remove(3), 4);
        assert_eq!(list.remove(0), 5);
        assert_eq!(&list[..], &[2, 3]);
        assert_eq!(
            (list.pop(), list.pop(), list.pop()),
            (Some(3), Some(2), None)
        );
    }

    #[test]
    fn what_shrinks_a_list_keeps_its_room() {
        let mut list = list(&[1, 2, 3, 4]);
        let capacity = list.capacity();
        list.retain(|item| item % 2 == 0);
        assert_eq!(&list[..], &[2, 4]);
        list.truncate(3);
        assert_eq!(&list[..], &[2, 4]);
        list.truncate(1);
        assert_eq!(&list[..], &[2]);
        list.clear();
        assert_eq!((list.len(), list.capacity()), (0, capacity));
    }

    #[test]
    fn collecting_keeps_the_order_and_asks_first() {
        let numbers = || 0..100;
        assert_eq!(refuse(|| numbers().collect_in()), Err(AllocError));
        let list = numbers().collect_in().expect("memory");
        assert!(numbers().eq(list));
        let odd = numbers()
            .filter(|n| n % 2 == 1)
            .collect_in()
            .expect("memory");
        assert_eq!((odd.len(), odd[0], odd[49]), (50, 1, 99));
        let none = refuse(|| (0..0).collect_in()).expect("nothing is asked for");
        assert!(none.is_empty());
    }

    /// Yields the numbers below this one, and claims this length.
    struct Hinting(u8, usize);

    impl Iterator for Hinting {
        type Item = u8;

        fn next(&mut self) -> Option<u8> {
            self.0 = self.0.checked_sub(1)?;
            Some(self.0)
        }

        fn size_hint(&self) -> (usize, Option<usize>) {
            (self.1, None)
        }
    }

    #[test]
    fn a_wrong_hint_is_no_lack_of_memory() {
        for hint in [0, 1, 200, usize::MAX] {
            let list = Hinting(100, hint).collect_in().expect("memory");
            assert!(list.into_iter().eq((0..100).rev()), "{hint}");
            let none = refuse(|| Hinting(0, hint).collect_in());
            assert_eq!(none.map(|list| list.capacity()), Ok(0), "{hint}");
        }
    }

    #[test]
    fn one_item_is_sorted_by_its_key_without_memory() {
        for items in [&[][..], &[7]] {
            let mut few = list(items);
            assert_eq!(
                refuse(|| few.sort_by_cached_key_fallibly(|item| *item)),
                Ok(())
            );
            assert_eq!(&few[..], items);
        }
        let mut two = list(&[7, 6]);
        assert_eq!(
            refuse(|| two.sort_by_cached_key_fallibly(|item| *item)),
            Err(AllocError)
        );
        assert_eq!(&two[..], [7, 6]);
    }

    #[test]
    fn the_room_is_as_much_as_was_asked_for() {
        for count in [1, 2, 3, 5, 7, 1000, 4097, 1 << 20] {
            let bytes = Vec::<u8>::with_capacity_fallibly(count).expect("memory");
            let words = Vec::<[u64; 3]>::with_capacity_fallibly(count).expect("memory");
            assert_eq!((bytes.capacity(), words.capacity()), (count, count));
        }
    }
}
