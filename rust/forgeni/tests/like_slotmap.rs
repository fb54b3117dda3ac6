//! What the tests of slotmap ask of its own maps and keys, asked of an `Entities` with a
//! `HandleMap`: the two together are a slot map, and the second one alone is a secondary map. Above
//! each test stands which behaviour of slotmap it shows, and where this package is meant to differ.

use crate::common::{handle, small, Numbers};
use forgeni::{Entities, FreeError, Handle, HandleMap, InsertError};
use std::collections::{HashMap, HashSet};
use std::mem::size_of;
use std::rc::Rc;

/// A slot map: who lives, and what each has.
#[derive(Default)]
struct SlotMap<T> {
    entities: Entities,
    values: HandleMap<T>,
}

impl<T> SlotMap<T> {
    fn insert(&mut self, value: T) -> Handle {
        let one = self.entities.alloc().expect("a handle");
        assert!(self.values.insert(one, value).is_ok());
        one
    }

    fn remove(&mut self, one: Handle) -> Option<T> {
        self.entities.free(one).ok()?;
        self.values.remove(one)
    }
}

/// slotmap: a key is 8 bytes, and so is an option of one.
#[test]
fn sizes_of_keys() {
    assert_eq!((size_of::<Handle>(), size_of::<Option<Handle>>()), (8, 8));
}

/// slotmap: a key goes to a number of 64 bits and comes back.
#[test]
fn keys_as_numbers() {
    let mut slots = SlotMap::default();
    for value in 0..100 {
        let one = slots.insert(value);
        assert_eq!(Handle::from_bits(one.to_bits()), Some(one));
    }
}

/// slotmap: the null key is never in a map.
#[test]
fn the_null_key() {
    let mut slots = SlotMap::default();
    slots.insert(7);
    assert_eq!(slots.values.get(Handle::PLACEHOLDER), None);
    assert_eq!(slots.remove(Handle::PLACEHOLDER), None);
    assert_eq!(slots.values.len(), 1);
}

/// slotmap: keys hash and compare.
#[test]
fn keys_in_sets() {
    let mut slots = SlotMap::default();
    let keys: Vec<Handle> = (0..50).map(|value| slots.insert(value)).collect();
    assert_eq!(keys.iter().collect::<HashSet<_>>().len(), 50);
    assert!(keys.is_sorted());
}

/// slotmap: what was removed can't be found, removed twice, or found by the key that its slot gives
/// next.
#[test]
fn removed_and_used_again() {
    let mut slots = SlotMap::default();
    let one = slots.insert("one");
    assert_eq!(slots.remove(one), Some("one"));
    assert_eq!((slots.remove(one), slots.values.get(one)), (None, None));
    assert_eq!(slots.entities.free(one), Err(FreeError::NotAlive));
    let two = slots.insert("two");
    assert_eq!((one.index(), two.index()), (0, 0));
    assert_ne!(one, two);
    assert_eq!(
        (slots.values.get(one), slots.values.get(two)),
        (None, Some(&"two"))
    );
}

/// slotmap: of 1,000 values each is dropped once, however it goes: removed, replaced, cleared,
/// moved out by an iterator that isn't asked for all, or with the map.
#[test]
fn drops_are_counted() {
    let alive = Rc::new(());
    let count = || Rc::strong_count(&alive) - 1;
    let mut slots = SlotMap::default();
    let keys: Vec<Handle> = (0..1000).map(|_| slots.insert(Rc::clone(&alive))).collect();
    assert_eq!(count(), 1000);
    for one in keys.iter().step_by(4) {
        slots.remove(*one);
    }
    assert_eq!((count(), slots.values.len()), (750, 750));
    let copy = slots.values.clone();
    assert_eq!(count(), 1500);
    let mut some = copy.into_iter();
    assert_eq!(some.by_ref().take(50).count(), 50);
    assert_eq!((count(), some.len()), (1450, 700));
    drop(some);
    assert_eq!(count(), 750);
    for one in &keys[..100] {
        let inserted = slots.values.insert(*one, Rc::clone(&alive));
        drop(inserted.expect("memory"));
    }
    assert_eq!((count(), slots.values.len()), (775, 775));
    slots.values.clear();
    assert_eq!(count(), 0);
    slots.insert(Rc::clone(&alive));
    drop(slots);
    assert_eq!(count(), 0);
}

/// slotmap: random inserts and removes, also of keys that were used up, beside a `HashMap`.
#[test]
fn beside_a_hash_map() {
    for seed in 0..300 {
        let mut numbers = Numbers::of(seed);
        let mut slots = SlotMap::default();
        let (mut model, mut keys) = (HashMap::new(), Vec::new());
        for value in 0..200_u32 {
            let any = |numbers: &mut Numbers, keys: &[Handle]| {
                let at = numbers.below(keys.len().max(1) as u64) as usize;
                keys.get(at).copied()
            };
            match numbers.below(5) {
                0..=2 => {
                    let one = slots.insert(value);
                    assert_eq!(model.insert(one, value), None, "{one} is given twice");
                    keys.push(one);
                }
                3 => {
                    if let Some(one) = any(&mut numbers, &keys) {
                        assert_eq!(slots.remove(one), model.remove(&one));
                    }
                }
                _ => {
                    if let Some(one) = any(&mut numbers, &keys) {
                        assert_eq!(slots.values.get(one), model.get(&one));
                        if let Some(there) = slots.values.get_mut(one) {
                            *there += 1000;
                        }
                        model.entry(one).and_modify(|there| *there += 1000);
                    }
                }
            }
            assert_eq!(slots.values.len(), model.len());
        }
        let told: HashMap<Handle, u32> = slots.values.into_iter().collect();
        assert_eq!(told, model);
        assert_eq!(
            slots.entities.iter().collect::<HashSet<_>>(),
            told.into_keys().collect()
        );
    }
}

/// slotmap: a secondary map has values for some keys of a slot map, and doesn't make keys.
#[test]
fn a_secondary_map() {
    let mut slots = SlotMap::default();
    let players: Vec<Handle> = ["ann", "bob", "eve"].map(|name| slots.insert(name)).into();
    let mut health = HandleMap::new();
    health.insert(players[0], 100).expect("memory");
    health.insert(players[2], 50).expect("memory");
    health[players[0]] -= 30;
    let told = players.iter().map(|one| health.get(*one).copied());
    assert!(told.eq([Some(70), None, Some(50)]));
    assert_eq!((health.len(), slots.values.len()), (2, 3));
}

/// slotmap: a secondary map's value goes when the next key of its slot gets one, and can't be found
/// by that before. An insert by an earlier key does nothing; here the value comes back too.
#[test]
fn a_secondary_map_with_older_keys() {
    let mut slots = SlotMap::default();
    let mut names = HandleMap::new();
    let old = slots.insert(());
    names.insert(old, "old").expect("memory");
    slots.remove(old);
    let new = slots.insert(());
    assert_eq!((names.get(new), names.get(old)), (None, Some(&"old")));
    assert_eq!(names.insert(new, "new").expect("memory"), None);
    assert_eq!(
        (names.get(new), names.get(old), names.len()),
        (Some(&"new"), None, 1)
    );
    let refused = names
        .insert(old, "late")
        .expect_err("it is of an earlier key");
    assert_eq!(refused.into_parts(), ("late", InsertError::Later));
    assert_eq!(names.remove(old), None);
    assert_eq!(names.remove(new), Some("new"));
}

/// slotmap: maps are walked by slot, to read, to write, and to move out, and the iterators know how
/// many are left.
#[test]
fn walks() {
    let mut slots = SlotMap::default();
    let keys: Vec<Handle> = (0..10).map(|value| slots.insert(value)).collect();
    for one in &keys[3..6] {
        slots.remove(*one);
    }
    for one in &slots.entities {
        slots.values[one] += 100 * u64::from(one.index());
    }
    let mut walk = slots.values.iter();
    for left in (0..7).rev() {
        assert!(walk.next().is_some());
        assert_eq!((walk.len(), walk.size_hint()), (left, (left, Some(left))));
    }
    assert!(walk.next().is_none() && walk.next().is_none());
    assert!(slots.values.keys().eq(slots.entities.iter()));
    assert!(slots
        .values
        .values()
        .copied()
        .eq([0, 101, 202, 606, 707, 808, 909]));
    slots.values.for_each_mut(|_, value| *value += 1);
    slots.values.retain(|one, _| one.index() > 0);
    let sum: u64 = slots.values.into_iter().map(|(_, value)| value).sum();
    assert_eq!(sum, 3339);
}

/// slotmap: a map is built of pairs, extended and compared.
#[test]
fn built_of_pairs() {
    let keys: Vec<Handle> = (0..5).map(|index| handle(index, 1)).collect();
    let mut map: HandleMap<usize> = keys.iter().copied().zip(0..).collect();
    map.extend(keys.iter().copied().zip(10..).take(2));
    let values: Vec<usize> = map.values().copied().collect();
    assert_eq!(values, [10, 11, 2, 3, 4]);
    assert_eq!(map, map.clone());
}

/// slotmap: with room for all, none of the inserts takes more.
#[test]
fn room_for_all() {
    let mut map = HandleMap::with_capacity(1000).expect("memory");
    let room = map.capacity();
    for index in 0..1000 {
        map.insert(handle(index, 1), [index; 3]).expect("room");
    }
    assert_eq!((map.len(), map.capacity()), (1000, room));
}

/// slotmap: when the versions of a slot are over they begin again, and an old key may be found to
/// live. Here the slot is retired.
#[test]
fn no_key_comes_again() {
    let mut entities = small(1, 50);
    let mut told = HashSet::new();
    while let Ok(one) = entities.alloc() {
        assert!(told.insert(one));
        entities.free(one).expect("alive");
    }
    assert_eq!(told.len(), 50);
}
