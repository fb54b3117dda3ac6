//! Random calls of a storage, compared with a map in plain Rust.

use crate::common::{handle, seeds, Numbers};
use crate::worlds::{any_birth, any_component, any_components, Components};
use forgeni::{Birth, Bundle, ComponentId, Handle, Storage, StorageError};
use std::collections::btree_map::{BTreeMap, Entry};
use std::collections::HashSet;

/// The handles and births of a storage: few, so that they meet often.
fn any_handle(numbers: &mut Numbers) -> Handle {
    handle(numbers.below(6) as u32, 1 + numbers.below(3) as u32)
}

fn run(seed: u64) {
    let mut numbers = Numbers::of(seed);
    let mut model: BTreeMap<Handle, (Birth, Components)> = BTreeMap::new();
    let mut storage = Storage::new();
    for step in 0..60 {
        let place = format!("seed {seed}, step {step}");
        let one = any_handle(&mut numbers);
        let id = any_component(&mut numbers);
        match numbers.below(8) {
            0 | 1 => {
                let birth = any_birth(&mut numbers);
                let wanted = match model.entry(one) {
                    Entry::Occupied(_) => Err(StorageError::Present),
                    Entry::Vacant(absent) => {
                        absent.insert((birth, Components::new()));
                        Ok(())
                    }
                };
                assert_eq!(storage.born(one, birth), wanted, "{place}: born {one}");
            }
            2 => {
                let wanted = model.remove(&one).map(|_| ()).ok_or(StorageError::Absent);
                assert_eq!(storage.despawn(one), wanted, "{place}: despawn {one}");
            }
            3 | 4 => {
                let components = any_components(&mut numbers);
                let wanted = match model.get_mut(&one) {
                    Some((_, held)) => {
                        held.extend(components.iter().copied());
                        Ok(())
                    }
                    None => Err(StorageError::Absent),
                };
                assert_eq!(storage.insert(one, &components), wanted, "{place}: insert");
            }
            // The clone goes on, and the original is dropped.
            5 => storage = storage.clone(),
            6 => {
                let slots = numbers.below(20) as usize;
                storage.reserve_slots(slots).expect("memory");
            }
            _ => {
                let wanted = match model.get_mut(&one) {
                    Some((_, held)) => Ok(held.remove(&id)),
                    None => Err(StorageError::Absent),
                };
                assert_eq!(storage.remove(one, id), wanted, "{place}: remove {id:?}");
            }
        }
        let there = model.get(&one);
        let value = there.and_then(|(_, held)| held.get(&id)).copied();
        assert_eq!(storage.get(one, id), value, "{place}: get {one} {id:?}");
        assert_eq!(storage.birth(one), there.map(|e| e.0), "{place}: birth");
        assert_eq!(storage.contains(one), there.is_some(), "{place}: contains");
        let items: Option<Vec<_>> =
            there.map(|(_, held)| held.iter().map(|(k, v)| (*k, *v)).collect());
        let told = storage.items(one);
        assert_eq!(
            told.as_ref().map(|it| it.len()),
            items.as_ref().map(Vec::len)
        );
        assert_eq!(
            told.map(|it| it.collect()),
            items,
            "{place}: items of {one}"
        );
        let with: Vec<Handle> = storage.with(id).expect("memory");
        let wanted = model.iter().filter(|(_, (_, held))| held.contains_key(&id));
        assert_eq!(with.len(), wanted.clone().count(), "{place}: with {id:?}");
        assert!(wanted.into_iter().all(|(one, _)| with.contains(one)));
        assert_eq!(storage.dense(id).len(), with.len(), "{place}: dense");
        assert_eq!(storage.len(), model.len(), "{place}: len");
        let mut order: Vec<(Birth, Handle)> = model.iter().map(|(h, e)| (e.0, *h)).collect();
        order.sort_unstable();
        let handles: Vec<Handle> = order.into_iter().map(|pair| pair.1).collect();
        assert_eq!(
            storage.by_birth().map(|it| it.to_vec()),
            Ok(handles),
            "{place}: by_birth"
        );
    }
}

#[test]
fn random_calls() {
    seeds(5_000, run);
}

#[test]
fn ends_of_the_ranges() {
    let mut storage = Storage::default();
    let last = handle(4_294_967_294, 2_147_483_647);
    let birth = Birth {
        frame: u64::MAX,
        system: u32::MAX,
        ordinal: u32::MAX,
    };
    assert_eq!(storage.born(last, birth), Ok(()));
    let values = [
        (ComponentId(255), i64::MIN),
        (ComponentId(0), i64::MAX),
        (ComponentId(255), -1),
    ];
    assert_eq!(storage.insert(last, &values), Ok(()));
    assert_eq!(storage.birth(last), Some(birth));
    let sorted = vec![(ComponentId(0), i64::MAX), (ComponentId(255), -1)];
    assert_eq!(storage.items(last).map(Vec::from_iter), Some(sorted));
    assert_eq!(
        storage.remove(last, ComponentId(0)),
        Ok(Some(9_223_372_036_854_775_807))
    );
    assert_eq!(storage.remove(last, ComponentId(0)), Ok(None));
    assert!(!storage.is_empty());
}

#[test]
fn all_components_of_one_entity() {
    let mut storage = Storage::new();
    let one = handle(0, 1);
    let birth = Birth {
        frame: 0,
        system: 0,
        ordinal: 0,
    };
    assert_eq!(storage.born(one, birth), Ok(()));
    let all: Vec<(ComponentId, i64)> = (0..=255)
        .map(|id| (ComponentId(id), -i64::from(id)))
        .collect();
    assert_eq!(storage.insert(one, &all), Ok(()));
    let items = storage.items(one).expect("there");
    let mut last = items.clone();
    assert_eq!(last.nth(253), Some((ComponentId(253), -253)));
    assert_eq!(
        format!("{last:?}"),
        "{ComponentId(254): -254, ComponentId(255): -255}"
    );
    assert!(last.eq([(ComponentId(254), -254), (ComponentId(255), -255)]));
    assert_eq!(items.collect::<Vec<_>>(), all);
}

/// There is room for so many entities, which are then born without memory.
#[test]
fn room_for_more() {
    let mut storage = Storage::new();
    assert_eq!(storage.spare(), 0);
    storage.reserve(100).expect("memory");
    let spare = storage.spare();
    assert!(spare >= 100);
    let birth = Birth {
        frame: 0,
        system: 0,
        ordinal: 0,
    };
    storage.born(handle(3, 1), birth).expect("room");
    assert_eq!(
        (storage.spare(), storage.place(handle(3, 1))),
        (spare - 1, Some(0))
    );
    storage.despawn(handle(3, 1)).expect("there");
    assert_eq!(
        (storage.spare(), storage.place(handle(3, 1))),
        (spare, None)
    );
    assert!(storage.reserve(usize::MAX).is_err());
}

/// Births by falling slot, and then those of the next occupants, in another order. With and without
/// room for all slots, each entity has the place of its birth.
#[test]
fn births_by_falling_slot() {
    let birth = Birth {
        frame: 0,
        system: 0,
        ordinal: 0,
    };
    for (count, room) in [1, 2, 3, 8, 9, 64, 1_000]
        .into_iter()
        .flat_map(|count| [0, count / 2, count, 2 * count].map(|room| (count, room)))
    {
        let mut storage = Storage::new();
        storage.reserve_slots(room as usize).expect("memory");
        for generation in 1..4 {
            let slot = |at| match generation {
                1 => count - 1 - at,
                2 => at,
                _ => at * 7 % count,
            };
            let all: Vec<Handle> = (0..count).map(|at| handle(slot(at), generation)).collect();
            for one in &all {
                assert_eq!(storage.place(*one), None);
                storage.born(*one, birth).expect("memory");
                assert_eq!(storage.born(*one, birth), Err(StorageError::Present));
            }
            for (place, one) in all.iter().enumerate() {
                assert_eq!(storage.place(*one), Some(place), "{one} of {count}");
            }
            assert_eq!(storage.len(), all.len());
            for one in all {
                storage.despawn(one).expect("there");
            }
        }
    }
    assert!(Storage::new().reserve_slots(usize::MAX).is_err());
}

/// A bundle has the last value of each component, in ascending order of number.
#[test]
fn bundles() {
    seeds(2_000, |seed| {
        let mut numbers = Numbers::of(seed);
        let (some, more) = (any_components(&mut numbers), any_components(&mut numbers));
        let mut model: Components = some.iter().copied().collect();
        let mut bundle = Bundle::of(&some).expect("memory");
        for (id, value) in more {
            bundle.put(id, value).expect("memory");
            model.insert(id, value);
        }
        let items: Vec<_> = model.into_iter().collect();
        assert_eq!(bundle.items(), items, "seed {seed}");
        assert_eq!(bundle.clone(), bundle, "seed {seed}");
        assert_eq!(bundle == Bundle::default(), items.is_empty(), "seed {seed}");
    });
    let bundle = Bundle::of(&[(ComponentId(7), 1), (ComponentId(2), -3)]).expect("memory");
    let text = "{ComponentId(2): -3, ComponentId(7): 1}";
    assert_eq!(format!("{bundle:?}"), text);
    assert!(Bundle::new().items().is_empty());
}

/// Of equal bundles one alone is in a set, also if one of them has had more components and lies on
/// the heap.
#[test]
fn equal_bundles_have_one_hash() {
    let many: Vec<_> = (0..9).map(|id| (ComponentId(id), 1)).collect();
    let each = many.iter().map(|one| Bundle::of(&[*one]).expect("memory"));
    let mut all: HashSet<Bundle> = each.collect();
    assert_eq!(all.len(), 9);
    for count in 0..many.len() {
        let bundle = Bundle::of(&many[..count]).expect("memory");
        let mut other = Bundle::default();
        for (id, value) in many[..count].iter().rev() {
            other.put(*id, value + 1).expect("memory");
            other.put(*id, *value).expect("memory");
        }
        assert_eq!(all.insert(bundle), count != 1, "{count}");
        assert!(!all.insert(other), "{count}");
    }
}

/// Bundles are equal if they have the same components with the same values: as many aren't enough.
#[test]
fn equal_bundles() {
    let of = |all: &[(u8, i64)]| {
        let all: Vec<_> = all
            .iter()
            .map(|(id, value)| (ComponentId(*id), *value))
            .collect();
        Bundle::of(&all).expect("memory")
    };
    assert_eq!(of(&[(1, 5), (2, 6)]), of(&[(2, 6), (1, 4), (1, 5)]));
    for (one, other) in [
        (of(&[(1, 5)]), of(&[(1, 6)])),
        (of(&[(1, 5)]), of(&[(2, 5)])),
        (of(&[(1, 5)]), of(&[])),
        (of(&[(1, 5), (2, 6)]), of(&[(1, 6), (2, 5)])),
        (of(&[(1, 5), (2, 6)]), of(&[(1, 5)])),
        (
            of(&[(0, 1), (1, 1), (2, 1), (3, 1), (4, 1)]),
            of(&[(0, 1), (1, 1), (2, 1), (3, 1), (4, 2)]),
        ),
    ] {
        assert_ne!(one, other);
    }
}
