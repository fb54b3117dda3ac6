//! Entries of maps by handle, and several of their values lent at once, beside a `BTreeMap`: of
//! both kinds of maps. `FORGENI_SEEDS` sets how many seeds are run, `FORGENI_SEED` runs one alone.

use crate::common::{handle, seeds, Numbers};
use forgeni::{Handle, HandleMap, InsertError, SparseMap};
use std::collections::{btree_map, BTreeMap};
use std::mem;
use std::panic::{catch_unwind, resume_unwind, AssertUnwindSafe};
use std::rc::Rc;
use std::thread;

/// The tests that both kinds of maps have.
macro_rules! of_a_map {
    ($module:ident, $Map:ident) => {
        mod $module {
            use super::*;
            use forgeni::$module::Entry;

            /// A map with a value for each of the first slots, ten times its index.
            fn tens(count: u32) -> $Map<u32> {
                (0..count)
                    .map(|index| (handle(index, 1), 10 * index))
                    .collect()
            }

            /// All that it has, by rising handle.
            fn sorted<T: Clone>(map: &$Map<T>) -> Vec<(Handle, T)> {
                let all: BTreeMap<_, _> = map.iter().map(|(one, it)| (one, it.clone())).collect();
                assert_eq!(all.len(), map.len());
                all.into_iter().collect()
            }

            /// An entry of the map does what one of a `BTreeMap` does, as long as no other occupant
            /// of its slot has a value. If a later one has, it is refused. If an earlier one has,
            /// that one goes.
            #[test]
            fn entries_beside_std() {
                seeds(2_000, |seed| {
                    let mut numbers = Numbers::of(seed);
                    let mut map: $Map<String> = $Map::new();
                    let mut model: BTreeMap<Handle, String> = BTreeMap::new();
                    for step in 0..80 {
                        let place = format!("seed {seed}, step {step}");
                        let one = handle(numbers.below(6) as u32, 1 + numbers.below(3) as u32);
                        let value = format!("value {step}");
                        let mut others = model.keys().filter(|it| it.index() == one.index());
                        let other = others.find(|it| **it != one).copied();
                        let refused = other.is_some_and(|other| other > one);
                        let entry = map.entry(one);
                        assert_eq!(entry.handle(), one, "{place}");
                        match (entry, numbers.below(6)) {
                            (entry, 0..=2) => {
                                let wanted = if refused {
                                    Err((value.clone(), InsertError::Later))
                                } else {
                                    model.retain(|it, _| Some(*it) != other);
                                    let entry = model.entry(one).and_modify(|it| it.push('+'));
                                    Ok(entry.or_insert_with(|| value.clone()).clone())
                                };
                                let entry = entry.and_modify(|it| it.push('+'));
                                let given = match step % 2 {
                                    0 => entry.or_insert(value),
                                    _ => entry.or_insert_with(|| value),
                                };
                                let given = given.map(|it| it.clone());
                                assert_eq!(given.map_err(|it| it.into_parts()), wanted, "{place}");
                            }
                            (Entry::Occupied(mut entry), choice) => {
                                let btree_map::Entry::Occupied(mut wanted) = model.entry(one)
                                else {
                                    panic!("{place}: {one} has no value");
                                };
                                assert_eq!((entry.handle(), entry.get()), (one, wanted.get()));
                                match choice {
                                    3 => assert_eq!(entry.remove(), wanted.remove(), "{place}"),
                                    4 => {
                                        assert_eq!(entry.get_mut(), wanted.get_mut(), "{place}");
                                        let before = wanted.insert(value.clone());
                                        assert_eq!(entry.insert(value), before, "{place}");
                                    }
                                    _ => {
                                        *entry.into_mut() = value.clone();
                                        *wanted.into_mut() = value;
                                    }
                                }
                            }
                            (Entry::Vacant(entry), _) => {
                                assert!(!model.contains_key(&one), "{place}: {one} has a value");
                                assert_eq!(entry.handle(), one, "{place}");
                                let given = entry.insert(value.clone()).map(|it| it.clone());
                                let given = given.map_err(|it| it.into_parts().1);
                                if refused {
                                    assert_eq!(given, Err(InsertError::Later), "{place}");
                                } else {
                                    assert_eq!(given, Ok(value.clone()), "{place}");
                                    model.retain(|it, _| Some(*it) != other);
                                    model.insert(one, value);
                                }
                            }
                        }
                        let all: Vec<_> = model.clone().into_iter().collect();
                        assert_eq!(sorted(&map), all, "{place}");
                    }
                });
            }

            /// A handle that the map doesn't take is vacant, and its value comes back.
            #[test]
            fn an_entry_above_the_limit() {
                let mut map: $Map<u32> = $Map::with_limit(5);
                for one in [handle(5, 1), Handle::PLACEHOLDER] {
                    assert!(matches!(map.entry(one), Entry::Vacant(_)));
                    let refused = map.entry(one).or_insert(7).expect_err("above the limit");
                    assert_eq!(refused.into_parts(), (7, InsertError::Limit));
                }
                assert_eq!((map.len(), map.slots()), (0, 0));
                *map.entry(handle(4, 1)).or_insert(7).expect("below") += 1;
                assert_eq!(map[handle(4, 1)], 8);
            }

            /// The closures are called where they have to be, and a panic leaves the map right.
            #[test]
            fn closures_of_an_entry() {
                let mut map = tens(3);
                let [first, other] = [handle(1, 1), handle(9, 1)];
                let value = map.entry(first).or_insert_with(|| panic!("it has one"));
                assert_eq!(value, Ok(&mut 10));
                let entry = map.entry(other).and_modify(|_| panic!("it has none"));
                assert!(matches!(entry, Entry::Vacant(_)));
                let ran = catch_unwind(AssertUnwindSafe(|| {
                    let _ = map
                        .entry(other)
                        .or_insert_with(|| resume_unwind(Box::new(1)));
                }));
                assert!(ran.is_err());
                let ran = catch_unwind(AssertUnwindSafe(|| {
                    let _ = map.entry(first).and_modify(|it| {
                        *it = 99;
                        resume_unwind(Box::new(1))
                    });
                }));
                assert!(ran.is_err());
                let values: Vec<u32> = sorted(&map).into_iter().map(|(_, it)| it).collect();
                assert_eq!(values, [0, 99, 20]);
            }

            /// A walk lends each value once, and so it does from the back.
            #[test]
            fn walks_that_change() {
                for count in [0, 1, 9, 70_001] {
                    let mut map = tens(count);
                    for index in (0..count).step_by(3) {
                        map.remove(handle(index, 1));
                    }
                    let order: Vec<Handle> = map.iter().map(|(one, _)| one).collect();
                    let lent: Vec<Handle> = map.iter_mut().map(|(one, _)| one).collect();
                    let turned: Vec<Handle> = map.iter_mut().rev().map(|(one, _)| one).collect();
                    assert_eq!(lent, order);
                    assert!(turned.iter().rev().eq(&order));
                    for (one, it) in map.iter_mut() {
                        assert_eq!(*it, 10 * one.index());
                        *it += 1;
                    }
                    map.values_mut().for_each(|it| *it += 1);
                    map.for_each_mut(|_, it| *it += 1);
                    assert!(map.iter().all(|(one, it)| *it == 10 * one.index() + 3));
                    assert_eq!(map.len(), order.len());
                }
            }

            /// What a drain doesn't come to is dropped with it, and the room stays. One that is
            /// forgotten leaves a map without values.
            #[test]
            fn drains() {
                for (count, taken) in [(0, 1), (1, 1), (6, 0), (6, 2), (6, 9), (70_001, 40_000)] {
                    let value = Rc::new(7);
                    let values = (0..count).map(|index| (handle(index, 2), Rc::clone(&value)));
                    let mut map: $Map<Rc<i32>> = values.collect();
                    let room = map.capacity();
                    let order: Vec<Handle> = map.iter().map(|(one, _)| one).collect();
                    let out: Vec<_> = map.drain().take(taken).collect();
                    let had = taken.min(count as usize);
                    assert!(out
                        .iter()
                        .map(|(one, _)| *one)
                        .eq(order[..had].iter().copied()));
                    assert_eq!(Rc::strong_count(&value), 1 + had);
                    assert_eq!(
                        (map.len(), map.iter().count(), map.capacity()),
                        (0, 0, room)
                    );
                    assert!(order.iter().all(|one| !map.contains(*one)));
                    // It is as a new one.
                    let one = handle(0, 1);
                    assert!(map.insert(one, Rc::clone(&value)).is_ok());
                    assert_eq!((map.len(), map.get(one)), (1, Some(&value)));
                }
                let mut map = tens(6);
                let backwards: Vec<Handle> = map.drain().rev().map(|(one, _)| one).collect();
                assert_eq!(backwards.len(), 6);
                assert_eq!((backwards[0], backwards[5]), (handle(5, 1), handle(0, 1)));
                let mut map = tens(6);
                mem::forget(map.drain());
                assert_eq!(
                    (map.len(), map.iter().next(), map.get(handle(1, 1))),
                    (0, None, None)
                );
                map.insert(handle(1, 1), 5).expect("memory");
                assert_eq!(sorted(&map), [(handle(1, 1), 5)]);
            }

            /// Each handle once, and each with its value. With one that has none, or twice, there
            /// is nothing.
            #[test]
            fn disjoint_values() {
                let mut map = tens(70_001);
                map.remove(handle(3, 1));
                let all = [handle(70_000, 1), handle(0, 1), handle(5, 1)];
                let [one, two, three] = map.get_disjoint_mut(all).expect("all have one");
                assert_eq!((*one, *two, *three), (700_000, 0, 50));
                mem::swap(one, three);
                *two = 1;
                assert_eq!(all.map(|it| map[it]), [50, 1, 700_000]);
                assert_eq!(map.get_disjoint_mut([]), Some([]));
                assert_eq!(map.get_disjoint_mut([handle(5, 1)]), Some([&mut 700_000]));
                for other in [handle(0, 1), handle(3, 1), handle(0, 2), handle(70_001, 1)] {
                    assert_eq!(map.get_disjoint_mut([handle(0, 1), other]), None);
                    assert_eq!(map.get_disjoint_mut([other, handle(0, 1)]), None);
                }
            }
        }
    };
}

of_a_map!(handle_map, HandleMap);
of_a_map!(sparse_map, SparseMap);

/// The parts have each slot once, wherever the cuts are, and a part has no value of another part's
/// slot.
#[test]
fn parts_have_each_slot_once() {
    for count in [0, 1, 10] {
        for low in 0..12 {
            for high in 0..12 {
                let values = (0..count).map(|index| (handle(2 * index, 3), index));
                let mut map: HandleMap<u32> = values.collect();
                let all: Vec<Handle> = map.keys().collect();
                let (below, above) = map.split_at_mut(2 * low);
                let (middle, above) = above.split_at_mut(2 * high);
                let mut parts = [below, middle, above];
                for one in all {
                    let at = match one.index() / 2 {
                        at if at < low => 0,
                        at if at < high => 1,
                        _ => 2,
                    };
                    for (number, part) in parts.iter_mut().enumerate() {
                        let wanted = (number == at).then_some(one.index() / 2);
                        assert_eq!(part.get_mut(one).copied(), wanted);
                        assert_eq!(part.get_mut(handle(one.index(), 2)), None);
                        assert_eq!(part.get_mut(handle(one.index() + 1, 3)), None);
                        assert_eq!(part.iter_mut().any(|(it, _)| it == one), number == at);
                    }
                }
                for part in &mut parts {
                    part.iter_mut().rev().for_each(|(_, it)| *it += 1);
                }
                assert!(map.values().copied().eq(1..=count));
            }
        }
    }
}

/// Four threads write to one map, each to its own slots.
#[test]
fn threads_write_to_one_map() {
    let count = 70_001;
    let mut map: HandleMap<u64> = (0..count).map(|index| (handle(index, 1), 0)).collect();
    let (low, high) = map.split_at_mut(count / 2);
    let parts = [
        low.split_at_mut(count / 4),
        high.split_at_mut(3 * (count / 4)),
    ];
    let parts = parts.into_iter().flat_map(|(below, above)| [below, above]);
    thread::scope(|scope| {
        for (mut part, number) in parts.zip(1..) {
            scope.spawn(move || {
                part.iter_mut()
                    .for_each(|(one, it)| *it = number + u64::from(one.index()))
            });
        }
    });
    let cuts = [count / 4, count / 2, 3 * (count / 4)];
    assert_eq!(map.len(), count as usize);
    for (one, it) in map.iter() {
        let number = 1 + cuts.iter().filter(|cut| **cut <= one.index()).count() as u64;
        assert_eq!(*it, number + u64::from(one.index()));
    }
}
