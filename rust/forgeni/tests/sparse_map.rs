//! Sparse maps from handles beside `HandleMap`: random calls, at three types of values.
//! `FORGENI_SEEDS` sets how many seeds are run, `FORGENI_SEED` runs one alone.

use crate::common::{handle, seeds, Numbers};
use forgeni::{AnyMap, Follows, Handle, HandleMap, InsertError, SparseMap};
use std::cell::Cell;
use std::collections::BTreeMap;
use std::fmt::Debug;
use std::hash::{DefaultHasher, Hash, Hasher};
use std::panic::{catch_unwind, resume_unwind, AssertUnwindSafe};
use std::rc::Rc;

/// All that a map has, in slot order.
fn sorted<T: Clone>(map: &SparseMap<T>) -> Vec<(Handle, T)> {
    let all: BTreeMap<Handle, T> = map.iter().map(|(one, it)| (one, it.clone())).collect();
    assert_eq!(all.len(), map.len());
    all.into_iter().collect()
}

/// Compares all that can be told of the map with what the other kind of map says.
fn expect<T: Clone + PartialEq + Debug>(map: &SparseMap<T>, model: &HandleMap<T>, place: &str) {
    let all: Vec<(Handle, T)> = model.iter().map(|(one, it)| (one, it.clone())).collect();
    assert_eq!(sorted(map), all, "{place}");
    assert_eq!((map.len(), map.is_empty()), (all.len(), all.is_empty()));
    assert_eq!(map.entries().len(), all.len(), "{place}");
    assert_eq!(map.iter().len(), all.len(), "{place}");
    let entries = map.entries().iter().map(|(one, it)| (*one, it));
    assert!(map.iter().eq(entries), "{place}");
    assert!(map
        .iter()
        .rev()
        .eq(map.entries().iter().rev().map(|(one, it)| (*one, it))));
    assert!(map.len() <= map.capacity(), "{place}");
    assert!(map
        .iter()
        .all(|(one, _)| (one.index() as usize) < map.slots()));
    for index in 0..10 {
        for generation in 1..5 {
            let one = handle(index, generation);
            assert_eq!(map.get(one), model.get(one), "{place}: {one}");
            assert_eq!(map.contains(one), model.contains(one), "{place}: {one}");
        }
    }
}

fn run<T: Clone + PartialEq + Debug>(seed: u64, value_of: fn(u32) -> T) {
    let mut numbers = Numbers::of(seed);
    let mut model: HandleMap<T> = HandleMap::new();
    let mut map: SparseMap<T> = SparseMap::new();
    for step in 0..60 {
        let place = format!("seed {seed}, step {step}");
        let one = handle(numbers.below(10) as u32, 1 + numbers.below(4) as u32);
        let value = value_of(numbers.below(1000) as u32);
        match numbers.below(20) {
            0..=9 => {
                let told = map.insert(one, value.clone()).map_err(|it| it.into_parts());
                let wanted = model.insert(one, value).map_err(|it| it.into_parts());
                assert_eq!(told, wanted, "{place}: insert {one}");
            }
            10..=13 => {
                assert_eq!(map.remove(one), model.remove(one), "{place}: remove {one}");
            }
            14 => {
                let (here, there) = (map.get_mut(one), model.get_mut(one));
                assert_eq!(here, there, "{place}: get_mut {one}");
                for slot in here.into_iter().chain(there) {
                    *slot = value.clone();
                }
            }
            15 => {
                map.for_each_mut(|one, slot| *slot = value_of(one.index()));
                model.for_each_mut(|one, slot| *slot = value_of(one.index()));
            }
            16 => {
                let clone = map.clone();
                assert_eq!(clone, map, "{place}: clone");
                assert_eq!((clone.slots(), clone.limit()), (map.slots(), map.limit()));
                map = clone.into_iter().collect();
            }
            17 => {
                let mut target: SparseMap<T> = [(one, value)].into_iter().collect();
                target.clone_from(&map);
                assert_eq!(target, map, "{place}: clone_from");
                map = target;
            }
            18 if numbers.below(4) == 0 => {
                map.clear();
                model.clear();
            }
            _ => {
                let odd = numbers.below(2) as u32;
                let mut told = vec![];
                map.retain(|one, slot| {
                    told.push((one, slot.clone()));
                    *slot = value_of(one.generation());
                    (one.index() + one.generation()) % 2 == odd
                });
                told.sort_by_key(|(one, _)| *one);
                let all = model.iter().map(|(one, it)| (one, it.clone()));
                assert!(all.eq(told), "{place}: retain");
                model.retain(|one, slot| {
                    *slot = value_of(one.generation());
                    (one.index() + one.generation()) % 2 == odd
                });
            }
        }
        if step % 10 == 0 {
            expect(&map, &model, &place);
        }
    }
    expect(&map, &model, &format!("seed {seed}"));
}

#[test]
fn random_calls_with_values_that_own_memory() {
    seeds(5_000, |seed| run(seed, |number| format!("value {number}")));
}

#[test]
fn random_calls_with_values_of_no_size() {
    seeds(5_000, |seed| run(seed, |_| ()));
}

#[test]
fn random_calls_with_values_that_are_copied() {
    seeds(5_000, |seed| run(seed, |number| u64::from(number) << 40));
}

/// A value that counts how often it is dropped.
struct Counted(Rc<Vec<Cell<u32>>>, usize);

impl Drop for Counted {
    fn drop(&mut self) {
        let count = &self.0[self.1];
        count.set(count.get() + 1);
    }
}

/// Whatever calls do with a value: in the end each was dropped exactly once.
#[test]
fn each_value_is_dropped_once() {
    seeds(2_000, |seed| {
        let mut numbers = Numbers::of(seed);
        let drops = Rc::new(vec![Cell::new(0); 200]);
        let mut made = 0..200;
        let mut map = SparseMap::new();
        let mut kept = vec![];
        for _ in 0..100 {
            let one = handle(numbers.below(8) as u32, 1 + numbers.below(3) as u32);
            let mut value = || Counted(Rc::clone(&drops), made.next().expect("there are enough"));
            match numbers.below(12) {
                0..=6 => {
                    let back = match map.insert(one, value()) {
                        Ok(before) => before,
                        Err(refused) => Some(refused.into_parts().0),
                    };
                    if numbers.below(2) == 0 {
                        kept.extend(back);
                    }
                }
                7 | 8 => kept.extend(map.remove(one)),
                9 => map.extend([(one, value())]),
                10 if numbers.below(6) == 0 => map.clear(),
                10 => map.retain(|one, _| one.index() % 3 > 0),
                _ => {
                    let mut all = map.into_iter();
                    kept.extend(all.next().map(|(_, value)| value));
                    map = all.take(5).collect();
                }
            }
            let living = map.len() + kept.len();
            let dropped: u32 = drops.iter().map(Cell::get).sum();
            assert_eq!(living + dropped as usize, made.start, "seed {seed}");
        }
        drop((map, kept));
        let count = made.start;
        assert!(drops[..count].iter().all(|count| count.get() == 1));
        assert!(drops[count..].iter().all(|count| count.get() == 0));
    });
}

/// No map takes the placeholder, and a map with a limit takes no handle of a slot at or above it.
#[test]
fn limits() {
    let refused = |map: &mut SparseMap<u8>, one| {
        let room = (map.capacity(), map.slots());
        let refused = map.insert(one, 7).expect_err("above the limit");
        assert_eq!(refused.into_parts(), (7, InsertError::Limit));
        assert_eq!((map.capacity(), map.slots()), room);
    };
    let mut map = SparseMap::new();
    refused(&mut map, Handle::PLACEHOLDER);
    assert_eq!((map.len(), map.limit()), (0, u32::MAX));
    for limit in [0, 1, 5, u32::MAX - 1] {
        let mut map = SparseMap::with_limit(limit);
        assert_eq!((map.limit(), map.capacity(), map.slots()), (limit, 0, 0));
        refused(&mut map, handle(limit, 1));
        refused(&mut map, Handle::PLACEHOLDER);
        if (1..10).contains(&limit) {
            let last = handle(limit - 1, (1 << 31) - 1);
            assert_eq!(map.insert(last, 1).expect("below the limit"), None);
        }
    }
    let mut map: SparseMap<u8> = (0..4).map(|index| (handle(index, 2), 1)).collect();
    map.set_limit(2);
    assert_eq!((map.limit(), map.len(), map[handle(3, 2)]), (2, 4, 1));
    refused(&mut map, handle(3, 2));
    assert_eq!(map.insert(handle(1, 2), 5).expect("below"), Some(1));
    assert_eq!(map.remove(handle(3, 2)), Some(1));
    let mut target: SparseMap<u8> = [(handle(7, 1), 6)].into_iter().collect();
    target.clone_from(&map);
    assert_eq!((target == map, target.limit()), (true, 2));
}

/// What one map has, in another order and in the other kind of map.
#[test]
fn both_kinds_have_the_same_calls() {
    fn hash(map: &impl Hash) -> u64 {
        let mut state = DefaultHasher::new();
        map.hash(&mut state);
        state.finish()
    }

    /// Calls that both kinds have, by the trait. The values are those of slots 1 and 7.
    fn expect<M: AnyMap<Value = u32> + Hash>(mut map: M) -> u64 {
        let [one, other] = [handle(1, 1), handle(7, 2)];
        let hashed = hash(&map);
        assert_eq!(
            (map.len(), map.is_empty(), map[one], map[other]),
            (2, false, 10, 70)
        );
        assert_eq!((map.get(handle(7, 1)), map.contains(other)), (None, true));
        let refused = map
            .insert(handle(7, 1), 5)
            .expect_err("a later one has a value");
        assert_eq!(refused.into_parts(), (5, InsertError::Later));
        assert_eq!(map.insert(one, 11).expect("memory"), Some(10));
        assert_ne!(hash(&map), hashed);
        map[one] += 1;
        map.iter_mut().for_each(|(_, it)| *it += 1);
        *map.get_mut(other).expect("a value") += 1;
        assert_eq!(map.iter().map(|(_, it)| *it).sum::<u32>(), 13 + 72);
        map.retain(|_, it| *it > 70);
        assert_eq!(
            (map.len(), map.remove(other), map.remove(other)),
            (1, Some(72), None)
        );
        map.extend([(one, 1), (other, 2)]);
        Follows::forget(&mut map, one);
        assert_eq!((map.get(one), map.get(other)), (None, Some(&2)));
        map.clear();
        assert_eq!(
            (map.into_iter().count(), hash(&M::default())),
            (0, hash(&M::default()))
        );
        hashed
    }

    let entries = [(handle(7, 2), 70), (handle(1, 1), 10)];
    let (mut map, mut sparse) = (HandleMap::from(entries), SparseMap::from(entries));
    assert!(sparse.keys().eq([handle(7, 2), handle(1, 1)]) && sparse.keys().len() == 2);
    assert!(sparse.values().rev().eq(&[10, 70]));
    for (_, it) in &mut sparse {
        *it += 1;
    }
    for (_, it) in &mut map {
        *it += 1;
    }
    assert!(sparse.values_mut().eq(&mut [71, 11]) && map.values_mut().eq(&mut [11, 71]));
    sparse.for_each_mut(|_, it| *it -= 1);
    map.for_each_mut(|_, it| *it -= 1);
    assert!(map.try_reserve(100).is_ok() && map.capacity() >= 108);
    assert!(sparse.try_reserve(100).is_ok() && sparse.capacity() >= 102);
    assert!(sparse.try_reserve(usize::MAX / 8).is_err());
    assert!(SparseMap::<u8>::with_capacity(usize::MAX / 4).is_err());

    let mut roomy = SparseMap::with_capacity(2).expect("memory");
    assert_eq!(
        (roomy.len(), roomy.slots(), roomy.limit()),
        (0, 0, u32::MAX)
    );
    roomy.extend([entries[1], entries[0]]);
    assert_eq!(roomy.capacity(), 2);
    // The order of the values counts neither for `==` nor for the hash.
    assert_eq!((&roomy, hash(&roomy)), (&sparse, hash(&sparse)));
    assert_eq!(expect(map), expect(sparse));
}

/// A panic names the line that looked.
#[test]
#[cfg(feature = "std")]
fn where_an_index_panics() {
    let (mut map, mut sparse) = (HandleMap::<u8>::new(), SparseMap::<u8>::new());
    let lines = std::sync::Arc::new(std::sync::Mutex::new(vec![]));
    let (before, seen) = (std::panic::take_hook(), lines.clone());
    let this = std::thread::current().id();
    std::panic::set_hook(Box::new(move |panic| {
        if std::thread::current().id() == this {
            let place = panic.location().expect("a place");
            seen.lock()
                .expect("no panic")
                .push((place.file().to_owned(), place.line()));
        } else {
            before(panic);
        }
    }));
    let first = line!() + 1;
    let _ = catch_unwind(AssertUnwindSafe(|| map[handle(0, 1)]));
    let _ = catch_unwind(AssertUnwindSafe(|| map[handle(0, 1)] = 1));
    let _ = catch_unwind(AssertUnwindSafe(|| sparse[handle(0, 1)]));
    let _ = catch_unwind(AssertUnwindSafe(|| sparse[handle(0, 1)] = 1));
    drop(std::panic::take_hook());
    let told = lines.lock().expect("no panic").clone();
    assert!(told
        .into_iter()
        .eq((first..first + 4).map(|line| (file!().to_owned(), line))));
}

/// More slots than a request of memory may have at once, in each order.
#[test]
fn many_slots() {
    let count = 70_001;
    let rising: SparseMap<u32> = (0..count).map(|index| (handle(index, 1), index)).collect();
    let falling: SparseMap<u32> = (0..count)
        .rev()
        .map(|index| (handle(index, 1), index))
        .collect();
    assert_eq!(rising, falling);
    assert!(rising.slots() >= count as usize && falling.slots() < 2 * count as usize);
    let mut map = rising.clone();
    for index in (0..count).step_by(2) {
        assert_eq!(map.remove(handle(index, 1)), Some(index));
    }
    assert_eq!(map.len(), count as usize / 2);
    assert!((0..count).all(|index| map.contains(handle(index, 1)) == (index % 2 == 1)));
    map.retain(|_, value| *value % 3 == 0);
    assert!((0..count).all(|index| map.contains(handle(index, 1)) == (index % 6 == 3)));
}

#[test]
fn what_it_prints() {
    let map: SparseMap<&str> = [(handle(7, 2), "b"), (handle(0, 1), "a")]
        .into_iter()
        .collect();
    assert_eq!(format!("{map:?}"), "{7v2: \"b\", 0v1: \"a\"}");
    assert_eq!(format!("{:?}", SparseMap::<u8>::default()), "{}");
    assert_eq!(format!("{:?}", map.iter()), "{7v2: \"b\", 0v1: \"a\"}");
    let panic = catch_unwind(|| map[handle(0, 2)].len()).expect_err("it has none");
    assert_eq!(
        panic.downcast_ref::<String>().expect("a text"),
        "0v2 has no value"
    );
}

/// A closure that panics: what it was called at before is kept or gone as it said.
#[test]
fn a_closure_that_panics() {
    let mut map: SparseMap<u32> = (0..5).map(|index| (handle(index, 1), index)).collect();
    let ran = catch_unwind(AssertUnwindSafe(|| {
        map.retain(|_, value| {
            if *value == 1 {
                resume_unwind(Box::new("stopped"));
            }
            *value += 10;
            *value != 13
        })
    }));
    assert!(ran.is_err());
    let left = sorted(&map).into_iter().map(|(_, value)| value);
    assert!(left.eq([0, 1, 12, 14]));
}

/// A value whose clone panics if its number is 3.
struct Unclonable(u32);

impl Clone for Unclonable {
    fn clone(&self) -> Self {
        if self.0 == 3 {
            // This panic prints nothing.
            resume_unwind(Box::new(3));
        }
        Unclonable(self.0)
    }
}

/// A panic of a value's clone is handed on. A map with room for the source is empty then, and a map
/// without it is as it was. Either takes and gives values as any other map does.
#[test]
fn a_clone_that_panics() {
    let map = |count| -> SparseMap<Unclonable> {
        let values = (0..count).map(|index| (handle(index, 1), Unclonable(index + 2)));
        values.collect()
    };
    for (before, left) in [(9, 0), (1, 1)] {
        let (mut target, source) = (map(before), map(6));
        target.set_limit(50);
        let cloned = catch_unwind(AssertUnwindSafe(|| target.try_clone_from(&source)));
        assert!(cloned.is_err());
        let numbers = |map: &SparseMap<Unclonable>| -> Vec<u32> {
            map.iter().map(|(_, value)| value.0).collect()
        };
        assert_eq!(numbers(&target), [2, 3][..left].to_vec());
        assert_eq!((target.len(), target.limit()), (left, 50));
        for index in 0..9 {
            let has = target.get(handle(index, 1)).map(|value| value.0);
            assert_eq!(has, (index < left as u32).then_some(2 + index), "{index}");
        }

        // Each slot takes a value, and gives it back.
        for index in (0..20).rev() {
            let before = target.insert(handle(index, 2), Unclonable(index)).ok();
            assert!(before.expect("memory").is_none());
        }
        assert_eq!((target.len(), target.iter().count()), (20, 20));
        for index in 0..20 {
            let value = target.remove(handle(index, 2)).map(|value| value.0);
            assert_eq!(value, Some(index));
        }
        assert!(target.is_empty());
        assert_eq!(numbers(&source), [2, 3, 4, 5, 6, 7]);
    }
}
