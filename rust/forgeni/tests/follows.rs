//! Maps that follow their entities, in a struct, a tuple and a slice, beside lists of what is alive
//! and what has values. `FORGENI_SEEDS` sets how many seeds are run, `FORGENI_SEED` runs one alone.

use crate::common::counted::{Counted, Made, Panics};
use crate::common::{handle, seeds, Numbers};
use forgeni::{tables, AnyMap, Entities, Follows, FreeError, Handle, HandleMap, SparseMap};
use std::collections::BTreeMap;

tables! {
    /// Three components.
    #[derive(PartialEq)]
    struct Parts {
        first: HandleMap<Counted>,
        second: forgeni::HandleMap<Counted>,
        rare: SparseMap<Counted>,
    }
}

// Values that can be neither cloned nor written.
tables! {
    pub(crate) struct Others { pub threads: SparseMap<std::sync::Mutex<Vec<u8>>> }
}

/// The numbers of the values of a map, by handle.
fn numbers(map: &impl AnyMap<Value = Counted>) -> BTreeMap<Handle, u32> {
    map.iter().map(|(one, it)| (one, it.number)).collect()
}

type Model = [BTreeMap<Handle, u32>; 3];

fn all(parts: &Parts) -> Model {
    [
        numbers(&parts.first),
        numbers(&parts.second),
        numbers(&parts.rare),
    ]
}

/// Frees and forgets by a struct, a tuple, or a slice and a map.
fn despawn(
    way: u64,
    parts: &mut Parts,
    entities: &mut Entities,
    one: Handle,
) -> Result<(), FreeError> {
    let Parts {
        first,
        second,
        rare,
    } = parts;
    let freed = match way {
        0 => parts.despawn(entities, one)?,
        1 => (first, second, rare).despawn(entities, one)?,
        2 => ([first, second], rare).despawn(entities, one)?,
        _ => ([first, second].as_mut_slice(), rare).despawn(entities, one)?,
    };
    assert!(freed.next.is_some());
    Ok(())
}

#[test]
fn random_calls_whose_values_panic() {
    seeds(2_000, |seed| {
        let (made, mut numbers) = (Made::default(), Numbers::of(seed));
        let mut entities = Entities::new();
        let mut parts = Parts::default();
        let mut model = Model::default();
        let (mut living, mut saved) = (vec![], (Parts::default(), Model::default()));
        for step in 0..60 {
            let place = format!("seed {seed}, step {step}");
            let one = match living.len() as u64 {
                0 => handle(50, 1),
                count => living[numbers.below(count) as usize],
            };
            let panics = |numbers: &mut Numbers, one| Panics {
                drop: (numbers.below(3) == 0).then(|| 3 * one + numbers.below(3) as u32),
                clone: (numbers.below(3) == 0).then(|| 3 * one + numbers.below(3) as u32),
            };
            let panics = panics(&mut numbers, one.index());
            match numbers.below(12) {
                0..=2 => living.push(entities.alloc().expect("an entity")),
                3..=6 if one.index() < 50 => {
                    let (map, number) = (numbers.below(3), one.index() * 3);
                    let value = made.value(number + map as u32);
                    model[map as usize].insert(one, value.number);
                    let before = match map {
                        0 => parts.first.insert(one, value),
                        1 => parts.second.insert(one, value),
                        _ => parts.rare.insert(one, value),
                    };
                    assert!(before.is_ok(), "{place}");
                }
                7 | 8 => {
                    let way = numbers.below(4);
                    let call = || despawn(way, &mut parts, &mut entities, one);
                    let ended = made.with_panics(panics, call);
                    let lived = living.iter().position(|it| *it == one);
                    match lived.map(|at| living.swap_remove(at)) {
                        None => assert_eq!(ended, Some(Err(FreeError::NotAlive)), "{place}"),
                        Some(_) => model.iter_mut().for_each(|map| {
                            map.remove(&one);
                        }),
                    }
                    assert!(!entities.is_alive(one), "{place}");
                }
                9 => {
                    if entities.free(one).is_ok() {
                        living.retain(|it| *it != one);
                    }
                    let soon = entities.request().expect("a handle");
                    let value = made.value(500);
                    model[2].insert(soon, 500);
                    parts.rare.insert(soon, value).expect("memory");
                    while made
                        .with_panics(panics, || parts.sweep(&entities))
                        .is_none()
                    {}
                    entities.flush(&mut living).expect("memory");
                    model
                        .iter_mut()
                        .for_each(|map| map.retain(|one, _| living.contains(one)));
                }
                10 => {
                    let call = || saved.0.try_clone_from(&parts);
                    match made.with_panics(panics, call) {
                        Some(ended) => ended.expect("memory"),
                        None => saved.0.try_clone_from(&parts).expect("memory"),
                    }
                    saved.1 = model.clone();
                    let clone = made.with_panics(panics, || parts.try_clone());
                    assert!(clone.is_none_or(|clone| clone == Ok(parts.try_clone().unwrap())));
                }
                _ if numbers.below(4) == 0 => {
                    while made.with_panics(panics, || parts.clear()).is_none() {}
                    model = Model::default();
                }
                _ => {}
            }
            let names = ["first", "second", "rare"].into_iter();
            let stale = names.zip(&model).find_map(|(name, map)| {
                let gone = |one: &Handle| !entities.contains(*one);
                Some((name, map.keys().copied().filter(gone).collect::<Vec<_>>()))
                    .filter(|(_, gone)| !gone.is_empty())
            });
            match (parts.stale(&entities), stale) {
                (Some((name, one)), Some((map, gone))) => {
                    assert!(name == map && gone.contains(&one), "{place}");
                }
                (told, stale) => assert!(told.is_none() && stale.is_none(), "{place}"),
            }
            assert_eq!(all(&parts), model, "{place}");
            assert_eq!(all(&saved.0), saved.1, "{place}");
            let lens = [model[0].len(), model[1].len(), model[2].len()];
            assert_eq!(parts.lens().map(|(_, len)| len), lens, "{place}");
            let saved: usize = saved.1.iter().map(BTreeMap::len).sum();
            assert_eq!(made.left(), lens.iter().sum::<usize>() + saved, "{place}");
        }
        drop((parts, saved));
        assert_eq!(made.left(), 0, "seed {seed}");
    });
}

/// Whichever of a tuple's or a slice's values panics when it is dropped, all maps forget the
/// handle.
#[test]
fn each_map_forgets() {
    let one = handle(3, 1);
    for loud in 0..6 {
        let made = Made::default();
        let map =
            |number| HandleMap::from([(one, made.value(number)), (handle(4, 1), made.value(9))]);
        let (mut maps, mut slice) = ((map(0), map(1), map(2)), [map(3), map(4), map(5)]);
        let panics = Panics {
            drop: Some(loud),
            clone: None,
        };
        let ended = made.with_panics(panics, || (&mut maps, &mut slice).forget(one));
        assert_eq!((ended, made.left()), (None, 6), "{loud}");
        assert!(slice.iter().all(|map| map.len() == 1 && !map.contains(one)));
        let lens = (maps.0.len(), maps.1.len(), maps.2.len());
        assert_eq!(lens, (1, 1, 1), "{loud}");
    }
}

#[test]
fn nothing_is_forgotten_of_who_is_not_freed() {
    let (mut entities, mut names) = (Entities::new(), HandleMap::new());
    let one = entities.alloc().expect("an entity");
    names.insert(one, "Ada").expect("memory");
    entities.request().expect("a handle");
    assert_eq!(
        names.despawn(&mut entities, one),
        Err(FreeError::NeedsFlush)
    );
    assert_eq!((names[one], entities.is_alive(one)), ("Ada", true));

    let mut others = Others::default();
    others.threads.insert(one, vec![1].into()).expect("memory");
    entities.flush(&mut vec![]).expect("memory");
    assert!(others.despawn(&mut entities, one).is_ok());
    assert_eq!(others.lens(), [("threads", 0)]);
    others.sweep(&entities);
    others.clear();
}
