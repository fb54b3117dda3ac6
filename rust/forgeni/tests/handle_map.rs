//! Maps from handles beside `HashMap`: random calls, at three types of values, each of which is
//! dropped exactly once. `FORGENI_SEEDS` sets how many seeds are run, `FORGENI_SEED` runs one
//! alone.

use crate::common::{handle, seeds, Numbers};
use forgeni::{HandedBack, Handle, HandleMap, InsertError};
use std::cell::Cell;
use std::collections::{HashMap, HashSet, VecDeque};
use std::fmt::Debug;
use std::panic::{catch_unwind, resume_unwind, AssertUnwindSafe};
use std::rc::Rc;

/// A type of values.
trait Value: Clone + PartialEq + Debug {
    /// The value of a number.
    fn of(number: u32) -> Self;
}

/// It owns memory.
impl Value for String {
    fn of(number: u32) -> Self {
        format!("value {number}")
    }
}

/// It has no size.
impl Value for () {
    fn of(_: u32) -> Self {}
}

/// It is `Copy`.
impl Value for u64 {
    fn of(number: u32) -> Self {
        u64::from(number) << 40
    }
}

/// A `HashMap`, with at most one handle of a slot.
#[derive(Clone)]
struct Model<T>(HashMap<Handle, T>);

impl<T: Value> Model<T> {
    /// The handle of the slot that has a value.
    fn occupant(&self, index: u32) -> Option<Handle> {
        self.0.keys().copied().find(|one| one.index() == index)
    }

    fn insert(&mut self, one: Handle, value: T) -> Result<Option<T>, (T, InsertError)> {
        if let Some(there) = self.occupant(one.index()) {
            if there > one {
                return Err((value, InsertError::Later));
            }
            if there < one {
                self.0.remove(&there);
            }
        }
        Ok(self.0.insert(one, value))
    }

    /// All that it has, in slot order.
    fn all(&self) -> Vec<(Handle, T)> {
        let mut all: Vec<_> = self.0.clone().into_iter().collect();
        all.sort_by_key(|(one, _)| *one);
        all
    }

    /// Compares all that can be told of the map.
    fn expect(&self, map: &HandleMap<T>, place: &str) {
        let all = self.all();
        assert_eq!(
            (map.len(), map.is_empty()),
            (all.len(), all.is_empty()),
            "{place}"
        );
        assert_eq!(map.iter().len(), all.len(), "{place}");
        let told = map.iter().map(|(one, value)| (one, value.clone()));
        assert_eq!(told.collect::<Vec<_>>(), all, "{place}");
        assert!(map.keys().eq(all.iter().map(|(one, _)| *one)), "{place}");
        assert!(
            map.values().eq(all.iter().map(|(_, value)| value)),
            "{place}"
        );
        let (keys, values) = (map.keys().rev(), map.values().rev());
        assert!(keys.zip(values).eq(map.iter().rev()), "{place}");
        assert!(map.slots() <= map.capacity(), "{place}");
        let last = map.keys().next_back();
        assert!(last.is_none_or(|last| (last.index() as usize) < map.slots()));
        for index in 0..10 {
            for generation in 1..5 {
                let one = handle(index, generation);
                assert_eq!(map.get(one), self.0.get(&one), "{place}: {one}");
                assert_eq!(
                    map.contains(one),
                    self.0.contains_key(&one),
                    "{place}: {one}"
                );
            }
        }
    }
}

fn run<T: Value>(seed: u64) {
    let mut numbers = Numbers::of(seed);
    let mut model = Model(HashMap::new());
    let mut map: HandleMap<T> = HandleMap::new();
    for step in 0..60 {
        let place = format!("seed {seed}, step {step}");
        let one = handle(numbers.below(10) as u32, 1 + numbers.below(4) as u32);
        let value = T::of(numbers.below(1000) as u32);
        match numbers.below(21) {
            0..=9 => {
                let inserted = map.insert(one, value.clone());
                let told = inserted.map_err(|refused| refused.into_parts());
                assert_eq!(told, model.insert(one, value), "{place}: insert {one}");
            }
            10..=13 => {
                assert_eq!(
                    map.remove(one),
                    model.0.remove(&one),
                    "{place}: remove {one}"
                );
            }
            14 | 15 => {
                let (here, there) = (map.get_mut(one), model.0.get_mut(&one));
                assert_eq!(here, there, "{place}: get_mut {one}");
                for slot in here.into_iter().chain(there) {
                    *slot = value.clone();
                }
            }
            16 => {
                map.for_each_mut(|one, slot| *slot = T::of(one.index()));
                for (one, slot) in &mut model.0 {
                    *slot = T::of(one.index());
                }
            }
            17 => {
                let clone = map.clone();
                assert_eq!(clone, map, "{place}: clone");
                map = clone.into_iter().collect();
            }
            20 => {
                let odd = numbers.below(2) as u32;
                let mut told = vec![];
                map.retain(|one, slot| {
                    told.push((one, slot.clone()));
                    *slot = T::of(one.generation());
                    (one.index() + one.generation()) % 2 == odd
                });
                assert_eq!(told, model.all(), "{place}: retain");
                model.0.retain(|one, slot| {
                    *slot = T::of(one.generation());
                    (one.index() + one.generation()) % 2 == odd
                });
            }
            18 if numbers.below(4) == 0 => {
                map.clear();
                model.0.clear();
            }
            18 => {
                let slots = numbers.below(30) as usize;
                map.reserve(slots).expect("memory");
                assert!(map.capacity() >= map.slots() + slots, "{place}: reserve");
            }
            _ => {
                let count = numbers.below(4);
                let some: Vec<(Handle, T)> = (0..count)
                    .map(|at| {
                        (
                            handle(at as u32, 1 + numbers.below(4) as u32),
                            value.clone(),
                        )
                    })
                    .collect();
                map.extend(some.clone());
                for (one, value) in some {
                    let _ = model.insert(one, value);
                }
            }
        }
        assert_eq!(map.get(one), model.0.get(&one), "{place}: {one}");
        assert_eq!(map.len(), model.0.len(), "{place}: len");
        if step % 10 == 0 {
            model.expect(&map, &place);
        }
    }
    model.expect(&map, &format!("seed {seed}"));
    assert_eq!(
        map.into_iter().collect::<Vec<_>>(),
        model.all(),
        "seed {seed}"
    );
}

#[test]
fn random_calls_with_values_that_own_memory() {
    seeds(5_000, run::<String>);
}

#[test]
fn random_calls_with_values_of_no_size() {
    seeds(5_000, run::<()>);
}

#[test]
fn random_calls_with_values_that_are_copied() {
    seeds(5_000, run::<u64>);
}

/// A value that counts how often it is dropped: the count of its number.
struct Counted(Rc<Vec<Cell<u32>>>, usize);

impl Drop for Counted {
    fn drop(&mut self) {
        let count = &self.0[self.1];
        count.set(count.get() + 1);
    }
}

/// Of random calls, whatever they do with a value: in the end each was dropped exactly once.
#[test]
fn each_value_is_dropped_once() {
    seeds(2_000, |seed| {
        let mut numbers = Numbers::of(seed);
        let drops = Rc::new(vec![Cell::new(0); 200]);
        let mut made = 0..200;
        let mut map = HandleMap::new();
        let mut kept = vec![];
        for _ in 0..100 {
            let one = handle(numbers.below(8) as u32, 1 + numbers.below(3) as u32);
            let mut value = || Counted(Rc::clone(&drops), made.next().expect("there are enough"));
            match numbers.below(12) {
                0..=6 => {
                    // What comes back is kept or dropped here.
                    let back = match map.insert(one, value()) {
                        Ok(before) => before,
                        Err(refused) => Some(refused.into_parts().0),
                    };
                    if numbers.below(2) == 0 {
                        kept.extend(back);
                    }
                }
                7 | 8 => kept.extend(map.remove(one)),
                9 => map.extend([(one, value())]),
                10 => {
                    if let Some(slot) = map.get_mut(one) {
                        *slot = value();
                    }
                }
                _ if numbers.below(6) == 0 => map.clear(),
                _ if numbers.below(3) == 0 => map.retain(|one, _| one.index() % 3 > 0),
                _ => {
                    let mut all = map.into_iter();
                    kept.extend(all.next().map(|(_, value)| value));
                    map = all.take(5).collect();
                }
            }
            let living = map.len() + kept.len();
            let dropped: u32 = drops.iter().map(Cell::get).sum();
            assert_eq!(living + dropped as usize, made.start, "seed {seed}");
        }
        drop(map);
        drop(kept);
        let count = made.start;
        assert!(
            drops[..count].iter().all(|count| count.get() == 1),
            "seed {seed}"
        );
        assert!(
            drops[count..].iter().all(|count| count.get() == 0),
            "seed {seed}"
        );
    });
}

/// What another map is cloned into drops its own values, whether it has room or not.
#[test]
fn a_clone_drops_what_was_there() {
    let map = |value: &Rc<u32>, count| -> HandleMap<Rc<u32>> {
        let values = (0..count).map(|index| (handle(index, 1), Rc::clone(value)));
        values.collect()
    };
    for (before, after) in [(9, 5), (5, 5), (5, 900), (0, 3), (3, 0)] {
        let (old, new) = (Rc::new(1), Rc::new(2));
        let (mut target, source) = (map(&old, before), map(&new, after));
        target.try_clone_from(&source).expect("memory");
        let counts = || (Rc::strong_count(&old), Rc::strong_count(&new));
        let after = after as usize;
        assert_eq!((target.len(), counts()), (after, (1, 1 + 2 * after)));
        assert!(target == source && target.values().all(|value| **value == 2));
        drop(source);
        assert_eq!(counts(), (1, 1 + after));
        drop(target);
        assert_eq!(counts(), (1, 1));
    }
}

/// A value whose clone panics if its number is 3.
struct Unclonable(u32);

impl Clone for Unclonable {
    fn clone(&self) -> Self {
        if self.0 == 3 {
            // This panic prints nothing.
            resume_unwind(Box::new(3));
        }
        Unclonable(self.0)
    }
}

/// A panic of a value's clone is handed on. A map with room for the source is empty then, and a map
/// without it is as it was.
#[test]
fn a_clone_that_panics() {
    let map = |count| -> HandleMap<Unclonable> {
        let values = (0..count).map(|index| (handle(index, 1), Unclonable(index + 2)));
        values.collect()
    };
    for (before, after) in [(9, 0), (1, 1)] {
        let (mut target, source) = (map(before), map(6));
        let cloned = catch_unwind(AssertUnwindSafe(|| target.try_clone_from(&source)));
        assert!(cloned.is_err());
        assert_eq!((target.len(), target.iter().count()), (after, after));
        assert_eq!(target.get(handle(0, 1)).is_some(), after > 0);
        let value = Unclonable(8);
        assert!(target.insert(handle(7, 1), value).is_ok());
        assert_eq!(
            (target.len(), target.iter().count()),
            (after + 1, after + 1)
        );
        assert_eq!((source.len(), source.iter().count()), (6, 6));
    }
}

/// A map that outgrows its room many times keeps all that it has.
#[test]
fn growth_keeps_all() {
    let mut map = HandleMap::new();
    for index in 0..5_000 {
        assert_eq!(map.insert(handle(index, 1), index).expect("memory"), None);
        assert_eq!(map.len(), index as usize + 1);
    }
    let told = map.iter().map(|(one, value)| (one, *value));
    assert!(told.eq((0..5_000).map(|index| (handle(index, 1), index))));
    // From the end to the front, and with holes.
    let mut map = HandleMap::new();
    for index in (0..5_000).rev().step_by(7) {
        map.insert(handle(index, 2), index.to_string())
            .expect("memory");
    }
    assert!(map
        .iter()
        .all(|(one, value)| one.index().to_string() == *value));
    assert_eq!((map.len(), map.iter().count()), (715, 715));
}

/// A value of a slot's earlier occupant isn't that of the new one, and goes when that gets one.
#[test]
fn occupants_of_one_slot() {
    let mut map = HandleMap::new();
    let [first, second] = [handle(3, 1), handle(3, 2)];
    map.insert(first, "first").expect("memory");
    assert!(map.get(second).is_none() && map.remove(second).is_none());
    assert_eq!(map.get_mut(second), None);
    assert_eq!(map.insert(second, "second").expect("memory"), None);
    assert_eq!((map.len(), map.get(first)), (1, None));
    let refused = map
        .insert(first, "again")
        .expect_err("it is an earlier one");
    assert_eq!(
        refused.to_string(),
        "a later occupant of the slot has a value"
    );
    let other = HandedBack::new("again", InsertError::Memory);
    assert_eq!(HashSet::from([refused, other, refused]).len(), 2);
    assert_eq!(refused.into_parts(), ("again", InsertError::Later));
    assert_eq!(map[second], "second");
    // With the later one gone the earlier one may come again.
    assert_eq!(map.remove(second), Some("second"));
    assert_eq!(map.insert(first, "again").expect("memory"), None);
}

#[test]
fn capacity_and_room() {
    let mut map: HandleMap<u8> = HandleMap::new();
    assert_eq!(map.capacity(), 0);
    map.reserve(100).expect("memory");
    let room = map.capacity();
    assert!(room >= 100);
    map.insert(handle(99, 1), 1).expect("memory");
    assert_eq!((map.capacity(), map.slots()), (room, 100));
    map.reserve(room - 100).expect("there is room");
    assert_eq!(map.capacity(), room);
    // As of a vector, it is room for more than is there.
    let mut more = map.clone();
    more.reserve(100).expect("memory");
    assert!(more.capacity() >= 200 && more.slots() == 100);
    assert_eq!(map.remove(handle(99, 1)), Some(1));
    assert_eq!(map.slots(), 100);
    map.clear();
    assert_eq!(map.slots(), 0);
    assert_eq!(
        (map.capacity(), map.len(), map.iter().next()),
        (room, 0, None)
    );
    assert!(
        HandleMap::<u8>::with_capacity(50)
            .expect("memory")
            .capacity()
            >= 50
    );
    // More slots than there can be.
    assert!(HandleMap::<u64>::with_capacity(usize::MAX).is_err());
    assert!(map.reserve(usize::MAX).is_err());
    assert_eq!(map.capacity(), room);
    // Room that no slot needs is given back.
    more.shrink_to_fit();
    assert_eq!((more.capacity(), more.slots(), more.len()), (100, 100, 1));
    map.shrink_to_fit();
    assert_eq!((map.capacity(), map.slots()), (0, 0));
}

#[test]
fn a_value_that_is_made_only_if_there_is_none() {
    let mut map: HandleMap<u32> = HandleMap::with_limit(5);
    let one = handle(4, 2);
    *map.get_or_insert_with(one, || 7).expect("memory") += 1;
    *map.get_or_insert_with(one, || unreachable!())
        .expect("it has one") += 1;
    assert_eq!(map[one], 9);
    let mut refused = |one| map.get_or_insert_with(one, || 3).map(|it| *it).unwrap_err();
    assert_eq!(refused(handle(5, 1)).into_parts(), (3, InsertError::Limit));
    assert_eq!(refused(handle(4, 1)).into_parts(), (3, InsertError::Later));
}

/// No map takes the placeholder, and a map with a limit takes no handle of a slot at or above it.
/// Neither refusal asks for memory.
#[test]
fn limits() {
    let refused = |map: &mut HandleMap<u8>, one| {
        let room = map.capacity();
        let refused = map.insert(one, 7).expect_err("above the limit");
        assert_eq!(refused.into_parts(), (7, InsertError::Limit));
        assert_eq!(map.capacity(), room);
    };
    let mut map = HandleMap::new();
    refused(&mut map, Handle::PLACEHOLDER);
    assert_eq!((map.len(), map.limit()), (0, u32::MAX));

    for limit in [0, 1, 5, u32::MAX - 1] {
        let mut map = HandleMap::with_limit(limit);
        assert_eq!((map.limit(), map.capacity()), (limit, 0));
        refused(&mut map, handle(limit, 1));
        refused(&mut map, handle(limit.max(u32::MAX - 2), (1 << 31) - 1));
        refused(&mut map, Handle::PLACEHOLDER);
        if (1..10).contains(&limit) {
            let last = handle(limit - 1, (1 << 31) - 1);
            assert_eq!(map.insert(last, 1).expect("below the limit"), None);
        }
    }
    assert_eq!(HandleMap::<u8>::with_limit(u32::MAX).limit(), u32::MAX);

    // The values that are there stay, and can be found, changed and taken out.
    let mut map: HandleMap<u8> = (0..4).map(|index| (handle(index, 2), 1)).collect();
    map.set_limit(2);
    assert_eq!((map.limit(), map.len(), map[handle(3, 2)]), (2, 4, 1));
    refused(&mut map, handle(3, 2));
    refused(&mut map, handle(2, 3));
    assert_eq!(map.insert(handle(1, 2), 5).expect("below"), Some(1));
    assert_eq!(map.remove(handle(3, 2)), Some(1));
    // A clone has the same limit, and equality ignores it. `extend` leaves out what it refuses.
    let mut clone = map.clone();
    refused(&mut clone, handle(2, 2));
    clone.set_limit(9);
    assert_eq!((clone == map, clone.limit(), map.limit()), (true, 9, 2));
    let mut target: HandleMap<u8> = [(handle(7, 1), 6)].into_iter().collect();
    target.clone_from(&map);
    assert_eq!((target == map, target.limit()), (true, 2));
    clone.extend([
        (handle(9, 1), 3),
        (handle(8, 1), 4),
        (Handle::PLACEHOLDER, 5),
    ]);
    assert!(clone.keys().skip(3).eq([handle(8, 1)]));
    assert_eq!(
        InsertError::Limit.to_string(),
        "the handle is above the map's limit"
    );
}

/// Iterators are taken from both ends, and a clone of one goes on from where that one is.
#[test]
fn both_ends() {
    seeds(500, |seed| {
        let mut numbers = Numbers::of(seed);
        let map: HandleMap<u64> = (0..numbers.below(8))
            .map(|number| (handle(numbers.below(20) as u32, 1), number))
            .collect();
        let mut left: VecDeque<(Handle, u64)> = map.iter().map(|(one, it)| (one, *it)).collect();
        let (mut all, mut owned) = (map.iter(), map.clone().into_iter());
        let (mut keys, mut values) = (map.keys(), map.values());
        for _ in 0..=left.len() {
            let is_front = numbers.below(2) == 0;
            let (wanted, item, given, key, value) = if is_front {
                let wanted = left.pop_front();
                let ends = (keys.next(), values.next());
                (wanted, all.next(), owned.next(), ends.0, ends.1)
            } else {
                let wanted = left.pop_back();
                let ends = (keys.next_back(), values.next_back());
                (wanted, all.next_back(), owned.next_back(), ends.0, ends.1)
            };
            assert_eq!(item.map(|(one, it)| (one, *it)), wanted, "seed {seed}");
            assert_eq!(given, wanted, "seed {seed}");
            assert_eq!(key.zip(value.copied()), wanted, "seed {seed}");
            let lens = [all.len(), owned.len(), keys.len(), values.len()];
            assert_eq!(lens, [left.len(); 4], "seed {seed}");
            assert!(all.clone().eq(keys.clone().zip(values.clone())));
            assert!(owned.clone().eq(left.iter().copied()), "seed {seed}");
        }
        assert_eq!(
            (all.next(), keys.next_back(), values.next()),
            (None, None, None)
        );
    });
}

#[test]
fn indexing() {
    let mut map: HandleMap<Vec<u32>> = [(handle(1, 1), vec![1])].into_iter().collect();
    map[handle(1, 1)].push(2);
    assert_eq!(map[handle(1, 1)], [1, 2]);
    let panic = catch_unwind(|| map[handle(1, 2)].len()).expect_err("it has none");
    assert_eq!(
        panic.downcast_ref::<String>().expect("a text"),
        "1v2 has no value"
    );
}

#[test]
fn what_it_prints() {
    let map: HandleMap<&str> = [(handle(7, 2), "b"), (handle(0, 1), "a")]
        .into_iter()
        .collect();
    assert_eq!(format!("{map:?}"), "{0v1: \"a\", 7v2: \"b\"}");
    assert_eq!(format!("{:?}", HandleMap::<u8>::default()), "{}");
    assert_eq!(format!("{:?}", map.iter()), "{0v1: \"a\", 7v2: \"b\"}");
    assert_eq!(format!("{:?}", map.keys()), "[0v1, 7v2]");
    assert_eq!(format!("{:?}", map.values()), "[\"a\", \"b\"]");
}

/// Maps that are equal have the same handles with equal values, whatever room they have.
#[test]
fn equality() {
    let pairs = [(handle(0, 1), 1), (handle(5, 2), 2)];
    let map: HandleMap<u32> = pairs.into_iter().collect();
    let mut other = HandleMap::with_capacity(100).expect("memory");
    other.extend(pairs.into_iter().rev());
    assert_eq!(map, other);
    other[handle(5, 2)] = 3;
    assert_ne!(map, other);
    other.remove(handle(5, 2));
    assert_ne!(map, other);
    other.insert(handle(5, 3), 2).expect("memory");
    assert_ne!(map, other);
}

/// A map of values that may go to other threads may go there too, and be read by many.
#[test]
fn threads() {
    let map: HandleMap<u32> = (0..100).map(|index| (handle(index, 1), index)).collect();
    std::thread::scope(|scope| {
        for from in 0..4 {
            let map = &map;
            scope.spawn(move || {
                for index in (from..100).step_by(4) {
                    assert_eq!(map[handle(index, 1)], index);
                }
            });
        }
    });
    let ended = std::thread::spawn(move || map.len()).join();
    assert_eq!(ended.expect("no panic"), 100);
    static EMPTY: HandleMap<u32> = HandleMap::new();
    assert!(EMPTY.is_empty());
}

/// Panics as it is dropped, if it is told to.
struct Loud<'a>(&'a Cell<u32>, bool);

impl Drop for Loud<'_> {
    fn drop(&mut self) {
        self.0.set(self.0.get() + 1);
        if self.1 && !std::thread::panicking() {
            resume_unwind(Box::new("dropped"));
        }
    }
}

/// A value that panics as it is dropped leaves a map with the others, and all its numbers right.
#[test]
fn a_drop_that_panics() {
    let drops = Cell::new(0);
    let full = || {
        let mut map = HandleMap::new();
        for index in 0..5 {
            let value = Loud(&drops, index == 2);
            assert!(map.insert(handle(index, 1), value).is_ok());
        }
        map
    };
    let right = |map: &HandleMap<Loud<'_>>| {
        assert_eq!(
            (map.len(), map.iter().len()),
            (map.iter().count(), map.iter().count())
        );
        assert_eq!(map.is_empty(), map.iter().next().is_none());
    };
    // The value of an earlier occupant goes.
    let mut map = full();
    let next = Loud(&drops, false);
    let ran = catch_unwind(AssertUnwindSafe(|| map.insert(handle(2, 2), next).is_ok()));
    assert!(ran.is_err());
    right(&map);
    assert_eq!(drops.get(), 1);
    assert!(map.contains(handle(2, 2)) && map.len() == 5);
    drop(map);
    assert_eq!(drops.get(), 6);

    // All go.
    let mut map = full();
    assert!(catch_unwind(AssertUnwindSafe(|| map.clear())).is_err());
    right(&map);
    assert!(map.insert(handle(9, 1), Loud(&drops, false)).is_ok());
    right(&map);
    drop(map);
    assert_eq!(drops.get(), 12);

    let map = full();
    assert!(catch_unwind(AssertUnwindSafe(|| drop(map))).is_err());
    assert_eq!(drops.get(), 17);

    // Some go.
    let mut map = full();
    let none = catch_unwind(AssertUnwindSafe(|| map.retain(|_, _| false)));
    assert!(none.is_err());
    right(&map);
    assert!(map.keys().eq([handle(3, 1), handle(4, 1)]));
    assert_eq!(drops.get(), 20);
}

/// A closure that panics: what it was called at before is kept or gone as it said.
#[test]
fn a_closure_that_panics() {
    let mut map: HandleMap<u32> = (0..5).map(|index| (handle(index, 1), index)).collect();
    let ran = catch_unwind(AssertUnwindSafe(|| {
        map.retain(|_, value| {
            if *value == 3 {
                resume_unwind(Box::new("stopped"));
            }
            *value += 10;
            *value != 11
        })
    }));
    assert!(ran.is_err());
    assert_eq!(map.len(), 4);
    assert!(map.values().eq(&[10, 12, 3, 4]));
    map.for_each_mut(|_, value| *value += 1);
    assert!(map.values().eq(&[11, 13, 4, 5]));

    // The value on which it panics stays, as it was changed.
    let ran = catch_unwind(AssertUnwindSafe(|| {
        map.retain(|_, value| {
            *value = 99;
            resume_unwind(Box::new("stopped"))
        })
    }));
    assert!(ran.is_err());
    assert!(map.values().eq(&[99, 13, 4, 5]));
}

/// Each value is inserted in its turn, and a refused one doesn't keep the others out.
#[test]
fn extending() {
    let pairs = [
        (handle(3, 2), "a"),
        (handle(3, 1), "refused"),
        (handle(0, 1), "b"),
        (Handle::PLACEHOLDER, "refused"),
        (handle(0, 1), "c"),
        (handle(3, 5), "d"),
        (handle(1, 1), "e"),
    ];
    let wanted = [
        (handle(0, 1), "c"),
        (handle(1, 1), "e"),
        (handle(3, 5), "d"),
    ];
    let collected: HandleMap<&str> = pairs.into_iter().collect();
    let mut extended = HandleMap::new();
    extended.extend(pairs);
    for map in [collected, extended] {
        assert_eq!(map.len(), 3);
        assert!(map.into_iter().eq(wanted));
    }
}

/// Maps are equal if the same handles have equal values, whatever else they have.
#[test]
fn equal_maps() {
    fn all<M: FromIterator<(Handle, u8)> + PartialEq + std::fmt::Debug>() {
        let of = |all: &[(u32, u32, u8)]| -> M {
            let all = all.iter();
            all.map(|(index, generation, value)| (handle(*index, *generation), *value))
                .collect()
        };
        let one = of(&[(0, 1, 7)]);
        assert_eq!(one, of(&[(0, 1, 7)]));
        assert_eq!(of(&[(0, 1, 7), (5, 2, 8)]), of(&[(5, 2, 8), (0, 1, 7)]));
        for other in [
            of(&[]),
            // It has all that the first one has, and one more.
            of(&[(0, 1, 7), (5, 2, 8)]),
            of(&[(0, 1, 8)]),
            of(&[(0, 2, 7)]),
            of(&[(1, 1, 7)]),
        ] {
            assert_ne!(one, other);
            assert_ne!(other, one);
        }
    }

    all::<HandleMap<u8>>();
    all::<forgeni::SparseMap<u8>>();
    let mut limited = HandleMap::with_limit(9);
    assert_eq!(limited, HandleMap::new());
    limited.insert(handle(0, 1), 7).expect("memory");
    assert_eq!(limited, HandleMap::from_iter([(handle(0, 1), 7)]));
}
