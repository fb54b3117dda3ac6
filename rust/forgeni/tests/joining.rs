//! Walks over several maps at once, beside look-ups of each handle. `FORGENI_SEEDS` sets how many
//! seeds are run, `FORGENI_SEED` runs one alone.

use crate::common::{handle, seeds, Numbers};
use forgeni::{AnyMap, Handle, HandleMap, JoinMaps, SparseMap};

/// Values of some of the handles of two generations of nine slots, mostly of few or of many.
fn some<M: AnyMap<Value = u64>>(numbers: &mut Numbers) -> M {
    let mut map = M::default();
    for number in 0..[2, 5, 30][numbers.below(3) as usize] {
        let one = handle(numbers.below(9) as u32, 1 + numbers.below(2) as u32);
        map.extend([(one, number)]);
    }
    map
}

/// The handles that have a value in all maps, with their values: in the order of the first map, or
/// by rising slot.
fn looked_up<const N: usize>(
    first: &impl AnyMap<Value = u64>,
    by_slot: bool,
    maps: [&dyn Fn(Handle) -> Option<u64>; N],
) -> Vec<(Handle, [u64; N])> {
    let mut handles: Vec<Handle> = first.iter().map(|(one, _)| one).collect();
    if by_slot {
        handles.sort_unstable();
    }
    let all = |one| {
        let values: Vec<u64> = maps.iter().filter_map(|map| map(one)).collect();
        Some((one, values.try_into().ok()?))
    };
    handles.into_iter().filter_map(all).collect()
}

/// Walks over three and over two maps of these kinds. A walk may begin with a mutable one.
macro_rules! walks {
    ($seed:expr, $numbers:expr, $First:ident $sorts_mut:literal, $Second:ident, $Third:ident) => {{
        let place = format!("seed {}, {}", $seed, stringify!($First $Second $Third));
        let mut first: $First<u64> = some($numbers);
        let (second, third): ($Second<u64>, $Third<u64>) = (some($numbers), some($numbers));
        let other = |one| second.get(one).copied();
        let last = |one| third.get(one).copied();
        let is_less = 2 * second.len().min(third.len()) < first.len();
        let three = |map: &$First<u64>, by_slot| {
            looked_up(map, by_slot, [&|one| map.get(one).copied(), &other, &last])
        };

        let told = (&first, &second, &third).join();
        let told = told.map(|(one, a, b, c)| (one, [*a, *b, *c]));
        assert_eq!(told.collect::<Vec<_>>(), three(&first, is_less), "{place}");

        let mut wanted = three(&first, is_less && $sorts_mut).into_iter();
        for (one, a, b, c) in (&mut first, &second, &third).join() {
            assert_eq!(Some((one, [*a, *b, *c])), wanted.next(), "{place}");
            *a += 100;
        }
        assert_eq!(wanted.next(), None, "{place}");
        assert!(first.iter().all(|(one, it)| {
            let changed = second.contains(one) && third.contains(one);
            (*it >= 100) == changed
        }));

        let is_less = 2 * second.len() < first.len();
        let own = |one| first.get(one).copied();
        let two = looked_up(&first, is_less && $sorts_mut, [&own, &other]);
        let mut told = vec![];
        (&mut first, &second).join().for_each(|(one, a, b)| told.push((one, [*a, *b])));
        assert_eq!(told, two, "{place}");
    }};
}

#[test]
fn walks_over_maps_of_either_kind() {
    seeds(1_000, |seed| {
        let numbers = &mut Numbers::of(seed);
        walks!(seed, numbers, HandleMap true, HandleMap, HandleMap);
        walks!(seed, numbers, HandleMap true, SparseMap, HandleMap);
        walks!(seed, numbers, HandleMap true, SparseMap, SparseMap);
        walks!(seed, numbers, SparseMap false, HandleMap, HandleMap);
        walks!(seed, numbers, SparseMap false, HandleMap, SparseMap);
        walks!(seed, numbers, SparseMap false, SparseMap, SparseMap);
    });
}

/// Six maps, of which each in turn has the fewest values.
#[test]
fn a_walk_over_six_maps() {
    for rare in 0..6u32 {
        let map = |number: u32| -> HandleMap<u32> {
            let slots = if number == rare { 5..7 } else { number..9 };
            slots
                .map(|index| (handle(index, 1), 10 * index + number))
                .collect()
        };
        let mut first = map(0);
        let (b, c, d, e, f) = (map(1), map(2), map(3), map(4), map(5));
        let walk = (&mut first, &b, &c, &d, &e, &f).join();
        let told: Vec<_> = walk
            .map(|(one, a, b, c, d, e, f)| (one, [*a, *b, *c, *d, *e, *f]))
            .collect();
        let wanted = (5..7).map(|index| {
            (
                handle(index, 1),
                [0, 1, 2, 3, 4, 5].map(|it| 10 * index + it),
            )
        });
        assert!(told.iter().copied().eq(wanted), "{rare}: {told:?}");
    }
}

/// Some slots of a map, and all of them: as one list from both ends, and cut anywhere.
#[test]
fn some_slots() {
    seeds(300, |seed| {
        let numbers = &mut Numbers::of(seed);
        let mut map: HandleMap<u64> = some(numbers);
        for (begin, end) in (0..12).flat_map(|begin| (0..12).map(move |end| (begin, end))) {
            let slots = begin..end;
            let all = map.iter().filter(|(one, _)| slots.contains(&one.index()));
            let wanted: Vec<(Handle, u64)> = all.map(|(one, it)| (one, *it)).collect();
            let told = map.iter_range(slots.clone()).map(|(one, it)| (one, *it));
            assert!(
                told.clone().eq(wanted.iter().copied()),
                "seed {seed}: {slots:?}"
            );
            assert!(
                told.rev().eq(wanted.iter().rev().copied()),
                "seed {seed}: {slots:?}"
            );
            let mut told = map.iter_range_mut(slots).map(|(one, it)| (one, *it));
            let mut ends = wanted.iter().copied();
            while numbers.below(9) > 0 {
                if numbers.below(2) == 0 {
                    assert_eq!(told.next(), ends.next(), "seed {seed}");
                } else {
                    assert_eq!(told.next_back(), ends.next_back(), "seed {seed}");
                }
            }
            assert!(told.eq(ends), "seed {seed}");
        }
        let count: u64 = (&mut map).into_iter().map(|(_, it)| *it).sum();
        assert_eq!(count, map.values().sum(), "seed {seed}");
        let end = map.slots() as u32;
        let (low, high) = map.split_at_mut(4);
        assert_eq!(
            (low.slots(), high.slots()),
            (0..end.min(4), end.min(4)..end)
        );
    });
}
