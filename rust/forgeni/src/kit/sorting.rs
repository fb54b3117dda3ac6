//! Stable sorts that ask for their memory first.

use super::alloc::AllocError;
use super::vec::FallibleVec;
use ::alloc::vec::Vec;
use core::mem;

/// A list of at most this length is sorted in its place.
const FEW: usize = 20;

/// Sorts the items by their keys; those of one key keep their order. After an `Err` no item has
/// moved.
pub(super) fn merge_sort<T: Copy, K: Ord>(
    items: &mut [T],
    key: &impl Fn(&T) -> K,
) -> Result<(), AllocError> {
    if items.len() <= FEW {
        insertion_sort(items, key);
        return Ok(());
    }
    let mut buffer = Vec::with_capacity_fallibly(items.len() / 2)?;
    sort_with(items, &mut buffer, key);
    Ok(())
}

/// The buffer has room for half of the items.
fn sort_with<T: Copy, K: Ord>(items: &mut [T], buffer: &mut Vec<T>, key: &impl Fn(&T) -> K) {
    if items.len() <= FEW {
        return insertion_sort(items, key);
    }
    let middle = items.len() / 2;
    let (lower, upper) = items.split_at_mut(middle);
    sort_with(lower, buffer, key);
    sort_with(upper, buffer, key);
    if key(&items[middle]) < key(&items[middle - 1]) {
        merge(items, middle, buffer, key);
    }
}

/// Merges the items before `middle` with the others. Both are in order.
fn merge<T: Copy, K: Ord>(
    items: &mut [T],
    middle: usize,
    buffer: &mut Vec<T>,
    key: &impl Fn(&T) -> K,
) {
    buffer.clear();
    for item in &items[..middle] {
        buffer.push_reserved(*item);
    }
    let mut upper = middle;
    for (done, lower) in buffer.iter().enumerate() {
        // What has been written is all of the lower items so far, and the upper ones before
        // `upper`.
        while upper < items.len() && key(&items[upper]) < key(lower) {
            items[done + upper - middle] = items[upper];
            upper += 1;
        }
        items[done + upper - middle] = *lower;
    }
}

fn insertion_sort<T: Copy, K: Ord>(items: &mut [T], key: &impl Fn(&T) -> K) {
    for end in 1..items.len() {
        let (item, mut at) = (items[end], end);
        while at > 0 && key(&item) < key(&items[at - 1]) {
            items[at] = items[at - 1];
            at -= 1;
        }
        items[at] = item;
    }
}

/// Sorts items that may not be copied by their keys, of which each is computed once. Those of one
/// key keep their order. After an `Err` no item has moved. Fewer than two items are in order, and
/// take no memory.
pub(super) fn sort_in_cycles<T, K: Ord>(
    items: &mut [T],
    key: &impl Fn(&T) -> K,
) -> Result<(), AllocError> {
    if items.len() < 2 {
        return Ok(());
    }
    let mut order = Vec::with_capacity_fallibly(items.len())?;
    for (place, item) in items.iter().enumerate() {
        order.push_reserved((key(item), place));
    }
    // No two of these are equal, so this keeps the order of one key. It asks for no memory.
    order.sort_unstable();
    arrange(items, &mut order);
    Ok(())
}

/// Moves to each position the item whose place the order has there, one cycle after the other.
fn arrange<T, K>(items: &mut [T], order: &mut [(K, usize)]) {
    for first in 0..items.len() {
        let mut to = first;
        loop {
            // A position that has its item has itself in the order.
            let from = mem::replace(&mut order[to].1, to);
            if from == first {
                break;
            }
            items.swap(to, from);
            to = from;
        }
    }
}

#[cfg(test)]
mod tests {
    use super::super::refusing::refuse;
    use super::*;
    use ::alloc::string::ToString;

    /// Pairs with few keys, and each with its first position.
    fn pairs(count: u32, keys: u32) -> ::alloc::vec::Vec<(u32, u32)> {
        let mut seed = count + keys;
        let mut next = || {
            seed = seed.wrapping_mul(1_664_525).wrapping_add(1_013_904_223);
            (seed >> 16) % keys
        };
        (0..count).map(|at| (next(), at)).collect()
    }

    #[test]
    fn it_sorts_as_rust_does() {
        for count in [0, 1, 2, 19, 20, 21, 22, 40, 41, 43, 1000, 1023] {
            for keys in [1, 2, 7, 1000] {
                let mut ours = pairs(count, keys);
                let mut wanted = ours.clone();
                wanted.sort_by_key(|pair| pair.0);
                merge_sort(&mut ours, &|pair| pair.0).expect("memory");
                assert_eq!(ours, wanted, "{count} items with {keys} keys");
            }
        }
    }

    #[test]
    fn what_is_not_copied_is_sorted_as_rust_does() {
        for count in [0, 1, 2, 3, 20, 21, 1000] {
            for keys in [1, 2, 7, 1000] {
                let text = |pair: (u32, u32)| (pair.0, pair.1.to_string());
                let texts = || pairs(count, keys).into_iter().map(text);
                let mut ours: ::alloc::vec::Vec<_> = texts().collect();
                let mut wanted: ::alloc::vec::Vec<_> = texts().collect();
                wanted.sort_by_key(|pair| pair.0);
                sort_in_cycles(&mut ours, &|pair| pair.0).expect("memory");
                assert_eq!(ours, wanted, "{count} items with {keys} keys");
            }
        }
    }

    #[test]
    fn lists_that_fall_or_were_moved_by_one() {
        for count in [2, 3, 500_u32] {
            let lists: [::alloc::vec::Vec<u32>; 3] = [
                (0..count).rev().collect(),
                (0..count).map(|key| (key + 1) % count).collect(),
                (0..count).map(|key| (key + count - 1) % count).collect(),
            ];
            for mut list in lists {
                sort_in_cycles(&mut list, &|key| *key).expect("memory");
                assert!(list.into_iter().eq(0..count), "{count} items");
            }
        }
    }

    #[test]
    fn a_refused_sort_in_cycles_moves_nothing_and_no_items_need_none() {
        let mut items = pairs(5, 3);
        let before = items.clone();
        let refused = refuse(|| sort_in_cycles(&mut items, &|pair| pair.0));
        assert_eq!((refused, items), (Err(AllocError), before));
        let none: &mut [u32] = &mut [];
        refuse(|| sort_in_cycles(none, &|key| *key)).expect("nothing is asked for");
    }

    #[test]
    fn a_refused_sort_moves_nothing_and_few_items_need_none() {
        let mut items = pairs(21, 5);
        let before = items.clone();
        assert_eq!(
            refuse(|| merge_sort(&mut items, &|pair| pair.0)),
            Err(AllocError)
        );
        assert_eq!(items, before);
        refuse(|| merge_sort(&mut items[..20], &|pair| pair.0)).expect("nothing is asked for");
        assert!(items[..20].is_sorted_by_key(|pair| pair.0));
    }
}
