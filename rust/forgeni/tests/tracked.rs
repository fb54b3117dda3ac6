//! Tracked maps, beside a list of values and ticks. `FORGENI_SEEDS` sets how many seeds are run,
//! `FORGENI_SEED` runs one alone.

use crate::common::counted::{Counted, Made, Panics};
use crate::common::{handle, seeds, small, Numbers};
use forgeni::{tables, AnyMap, Entities, Follows, Handle, HandleMap, InsertError, JoinMaps};
use forgeni::{OutOfMemory, SparseMap, Tracked};
use std::collections::BTreeMap;
use std::panic::{catch_unwind, resume_unwind, AssertUnwindSafe};

tables! {
    #[derive(PartialEq)]
    struct Parts {
        dense: Tracked<HandleMap<Counted>>,
        rare: forgeni::map::Tracked<SparseMap<Counted>>,
        plain: HandleMap<u8>,
    }
}

// Values that can be neither cloned nor written.
tables! {
    struct Others { threads: Tracked<SparseMap<std::sync::Mutex<Vec<u8>>>> }
}

/// The number and the tick of each value, by slot, and the greatest tick so far.
#[derive(Clone, Default)]
struct Model {
    values: BTreeMap<Handle, (u32, u64)>,
    newest: u64,
}

impl Model {
    /// The tick that a call has.
    fn tick(&mut self, tick: u64) -> u64 {
        self.newest = self.newest.max(tick);
        self.newest
    }

    fn of_slot(&self, one: Handle) -> Option<Handle> {
        let mut all = self.values.keys().copied();
        all.find(|it| it.index() == one.index())
    }
}

/// One call on a tracked map and its model.
fn change<M>(map: &mut Tracked<M>, model: &mut Model, made: &Made, numbers: &mut Numbers, tick: u64)
where
    M: AnyMap<Value = Counted> + Clone,
    for<'a> &'a mut M: forgeni::map::Leads<Lent = &'a mut Counted>,
{
    // Five slots, far enough apart for several blocks of ticks.
    let one = handle(9 * numbers.below(5) as u32, 1 + numbers.below(3) as u32);
    let number = numbers.below(40) as u32;
    let stood = model.values.get(&one).copied();
    let some = model.values.values().nth(numbers.below(8) as usize);
    let panics = Panics {
        drop: some.map(|it| it.0).filter(|_| numbers.below(3) == 0),
        clone: None,
    };
    let mut value = Some(made.value(number));
    let mut value = || value.take().expect("once");
    match numbers.below(14) {
        0..=3 => {
            let before = model.of_slot(one);
            let done = made.with_panics(panics, || {
                let done = map.insert(one, value(), tick);
                done.map(drop).map_err(InsertError::from)
            });
            if before.is_some_and(|it| it > one) {
                assert!(done.is_none_or(|it| it == Err(InsertError::Later)));
            } else {
                assert!(done.is_none_or(|it| it.is_ok()));
                before.map(|it| model.values.remove(&it));
                let tick = model.tick(tick);
                model.values.insert(one, (number, tick));
            }
        }
        4 | 5 => {
            let done = made.with_panics(panics, || {
                let lent = map.get_mut(one, tick).expect("memory");
                lent.map(|it| *it = value())
            });
            assert!(done.is_none_or(|it| it.is_some() == stood.is_some()));
            if stood.is_some() {
                let tick = model.tick(tick);
                model.values.insert(one, (number, tick));
            }
        }
        6 => {
            let differs = stood.is_some_and(|it| it.0 != number);
            let done = made.with_panics(panics, || map.set_if_neq(one, value(), tick));
            assert!(done.is_none_or(|it| it.is_ok_and(|it| it == differs)));
            if differs {
                let tick = model.tick(tick);
                model.values.insert(one, (number, tick));
            }
        }
        7 => {
            // A closure that panics has had the value: it counts as changed.
            let _ended = catch_unwind(AssertUnwindSafe(|| {
                let lent = map.get_mut(one, tick).expect("memory");
                lent.into_iter().for_each(|it| it.number = 99);
                resume_unwind(Box::new("the closure"))
            }));
            if stood.is_some() {
                let tick = model.tick(tick);
                model.values.insert(one, (99, tick));
            }
        }
        8 => {
            let lent = map.get_mut_unseen(one);
            assert_eq!(lent.map(|it| it.number = number).is_some(), stood.is_some());
            let values = model.values.get_mut(&one).into_iter();
            values.for_each(|it| it.0 = number);
        }
        9 => {
            let done = made.with_panics(panics, || drop(map.remove(one)));
            assert!(done.is_some() || stood.is_some());
            model.values.remove(&one);
        }
        10 => {
            let kept = |one: Handle, it: u32| !(one.index() + it).is_multiple_of(3);
            let call = || map.retain(|one, it| kept(one, it.number));
            match made.with_panics(panics, call) {
                Some(()) => model.values.retain(|one, it| kept(*one, it.0)),
                // The others are as they were.
                None => model.values.retain(|one, _| map.contains(*one)),
            }
        }
        // All values are lent, and some go, come or change their places.
        11 => {
            let lent = map.map_mut(tick);
            let tick = model.tick(tick);
            let all = HandleMap::from_iter((0..40).map(|at| (handle(at, 1), at)));
            (&mut *lent, &all)
                .join()
                .for_each(|(_, it, at)| it.number += at);
            let values = model.values.iter_mut();
            values.for_each(|(one, it)| {
                *it = (it.0 + u32::from(one.generation() == 1) * one.index(), tick);
            });
        }
        12 => {
            let lent = map.map_mut(tick);
            let tick = model.tick(tick);
            let done = made.with_panics(panics, || {
                lent.retain(|one, _| one.index() % 2 > 0);
                lent.insert(one, value()).is_ok()
            });
            let is_later = |it: &Handle| it.index() == one.index() && *it > one;
            match done {
                Some(inserted) => {
                    let values = &mut model.values;
                    values.retain(|it, _| it.index() % 2 > 0);
                    assert_eq!(inserted, !values.keys().any(is_later));
                    if inserted {
                        values.retain(|it, _| it.index() != one.index());
                        values.insert(one, (number, 0));
                    }
                }
                None => {
                    let left = map.iter().map(|(one, it)| (one, (it.number, 0)));
                    model.values = left.collect();
                }
            }
            model.values.values_mut().for_each(|it| it.1 = tick);
        }
        _ if numbers.below(3) == 0 => {
            while made.with_panics(panics, || map.clear()).is_none() {}
            model.values.clear();
        }
        _ => {}
    }
}

/// Compares all that can be said of a map.
fn expect<M: AnyMap<Value = Counted>>(map: &Tracked<M>, model: &Model, place: &str) {
    for since in 0..model.newest + 3 {
        let all = model.values.iter().filter(|(_, it)| it.1 >= since);
        let wanted: BTreeMap<Handle, u32> = all.map(|(one, it)| (*one, it.0)).collect();
        let changed = map.changed_since(since);
        let order: Vec<Handle> = changed.clone().map(|(one, _)| one).collect();
        let mut back: Vec<Handle> = changed.clone().rev().map(|(one, _)| one).collect();
        back.reverse();
        assert_eq!(order, back, "{place}");
        let all = map.iter().map(|(one, _)| one);
        let all = all.filter(|one| map.is_changed_since(*one, since));
        assert!(all.eq(order), "{place}");
        let changed: BTreeMap<Handle, u32> = changed.map(|(one, it)| (one, it.number)).collect();
        assert_eq!(changed, wanted, "{place}, since {since}");
    }
    let all = map.iter().map(|(one, it)| (one, it.number));
    let ticks = all.map(|(one, it)| (one, (it, map.tick(one).expect("a value"))));
    assert_eq!(ticks.collect::<BTreeMap<_, _>>(), model.values, "{place}");
    for (index, generation) in (0..40).flat_map(|index| (1..5).map(move |it| (index, it))) {
        let one = handle(index, generation);
        let tick = model.values.get(&one).map(|it| it.1);
        assert_eq!(map.tick(one), tick, "{place}: {one}");
    }
}

#[test]
fn random_changes_whose_values_panic() {
    seeds(400, |seed| {
        let (made, mut numbers) = (Made::default(), Numbers::of(seed));
        let (mut parts, mut dense, mut rare) =
            (Parts::default(), Model::default(), Model::default());
        let mut saved = (Parts::default(), Model::default(), Model::default());
        for step in 0..60u64 {
            let place = format!("seed {seed}, step {step}");
            // Now and then a tick is less than one before.
            let tick = (step / 6).saturating_sub(numbers.below(6) / 4 * 3);
            match numbers.below(10) {
                0..=3 => change(&mut parts.dense, &mut dense, &made, &mut numbers, tick),
                4..=7 => change(&mut parts.rare, &mut rare, &made, &mut numbers, tick),
                8 => {
                    // A clone that panics is done again.
                    let clone = dense.values.values().chain(rare.values.values());
                    let clone = clone.map(|it| it.0).nth(numbers.below(12) as usize);
                    let panics = Panics { drop: None, clone };
                    let call = || saved.0.try_clone_from(&parts);
                    match made.with_panics(panics, call) {
                        Some(done) => done.expect("memory"),
                        None => saved.0.try_clone_from(&parts).expect("memory"),
                    }
                    (saved.1, saved.2) = (dense.clone(), rare.clone());
                    let same = parts.dense.clone() == saved.0.dense && saved.0 == parts;
                    assert!(
                        same && saved.0.try_clone().as_ref() == Ok(&parts),
                        "{place}"
                    );
                }
                _ => {
                    parts.try_clone_from(&saved.0).expect("memory");
                    (dense, rare) = (saved.1.clone(), saved.2.clone());
                }
            }
            expect(&parts.dense, &dense, &place);
            expect(&parts.rare, &rare, &place);
            expect(&saved.0.dense, &saved.1, &place);
            expect(&saved.0.rare, &saved.2, &place);
            let saved = saved.1.values.len() + saved.2.values.len();
            let left = dense.values.len() + rare.values.len() + saved;
            assert_eq!(made.left(), left, "{place}");
        }
        drop((parts, saved));
        assert_eq!(made.left(), 0, "seed {seed}");
    });
}

/// A value whose comparison panics.
#[derive(Clone, Copy)]
struct Loud;

impl PartialEq for Loud {
    fn eq(&self, _other: &Self) -> bool {
        resume_unwind(Box::new("the comparison"))
    }
}

#[test]
fn a_comparison_that_panics_changes_nothing() {
    let one = handle(3, 1);
    let mut map = Tracked::new(HandleMap::from([(one, Loud)]), 3);
    let ended = catch_unwind(AssertUnwindSafe(|| map.set_if_neq(one, Loud, 4).is_ok()));
    assert!(ended.is_err());
    assert_eq!((map.tick(one), map.changed_since(4).count()), (Some(3), 0));
    assert!(map.set_if_neq(handle(4, 1), Loud, 4).is_ok_and(|it| !it));
}

#[test]
fn ticks_go_up() {
    let [one, other] = [handle(3, 1), handle(5, 1)];
    let mut map = Tracked::new(SparseMap::from([(one, 5), (other, 6)]), 7);
    assert!(map.get_mut(one, 3).expect("memory").is_some());
    assert_eq!((map.tick(one), map.tick(other)), (Some(7), Some(7)));
    assert_eq!(map.set_if_neq(one, 8, u64::MAX).ok(), Some(true));
    assert_eq!((map.tick(one), map.tick(other)), (Some(u64::MAX), Some(7)));
    assert_eq!(map.changed_since(u64::MAX).count(), 1);
    assert_eq!(map.changed_since(8).count(), 1);
    assert_eq!(map.changed_since(7).count(), 2);
    map.map_mut(0);
    assert_eq!(map.changed_since(u64::MAX).count(), 2);
    let mut anew = Tracked::new(map.into_inner(), 1);
    assert_eq!(anew.changed_since(2).count(), 0);
    *anew.get_mut(other, 2).expect("memory").expect("a value") = 9;
    assert!(anew.changed_since(2).eq([(other, &9)]));
}

/// A value of another generation doesn't have the tick of the one before it, nor does one that was
/// removed and comes again.
#[test]
fn slots_that_are_used_again() {
    let mut entities = small(2, 9);
    let mut parts = Parts::default();
    let first = entities.alloc().expect("an entity");
    let made = Made::default();
    parts.dense.insert(first, made.value(1), 9).expect("memory");
    parts.rare.insert(first, made.value(1), 9).expect("memory");
    parts.despawn(&mut entities, first).expect("alive");
    assert_eq!(
        (parts.dense.tick(first), parts.rare.tick(first)),
        (None, None)
    );
    let second = entities.alloc().expect("an entity");
    assert_eq!(second.index(), first.index());
    parts
        .dense
        .map_mut(10)
        .insert(second, made.value(2))
        .expect("memory");
    parts
        .rare
        .insert(second, made.value(2), 11)
        .expect("memory");
    assert_eq!(parts.dense.tick(second), Some(10));
    assert_eq!(parts.rare.tick(second), Some(11));
    assert!(parts.dense.remove(second).is_some());
    parts
        .dense
        .insert(second, made.value(3), 12)
        .expect("memory");
    assert_eq!(parts.dense.tick(second), Some(12));

    assert_eq!(parts.stale(&entities), None);
    entities.free(second).expect("alive");
    assert_eq!(parts.stale(&entities), Some(("dense", second)));
    parts.sweep(&entities);
    assert_eq!(parts.lens(), [("dense", 0), ("rare", 0), ("plain", 0)]);
    assert!(parts == Parts::default() && made.left() == 0);
}

#[test]
fn as_the_map_itself() {
    let one = handle(3, 1);
    let mut places = Tracked::new(HandleMap::from([(one, 1)]), 0);
    let speeds = Tracked::new(HandleMap::from([(one, 10)]), 0);
    for (_, place, speed) in (places.map_mut(1), &*speeds).join() {
        *place += speed;
    }
    assert!(places.changed_since(1).eq([(one, &11)]) && speeds.changed_since(1).next().is_none());
    assert_eq!(
        (places.values().sum::<u32>(), places[one], places.len()),
        (11, 11, 1)
    );
    assert_eq!(format!("{places:?}"), format!("{{{one:?}: (11, 1)}}"));
    let mut other = Tracked::new(HandleMap::from([(one, 11)]), 0);
    assert_ne!(other, places);
    other.map_mut(1);
    assert_eq!(other, places);
    assert!(catch_unwind(|| other[handle(4, 1)]).is_err());

    let mut others = Others::default();
    let entities = Entities::new();
    let threads = others.threads.insert(one, vec![].into(), 0);
    assert!(threads.is_ok() && others.stale(&entities) == Some(("threads", one)));
    others.sweep(&entities);
    others.clear();
    assert_eq!(others.lens(), [("threads", 0)]);
    let limited = Tracked::<HandleMap<u8>>::with_limit(4);
    let mut clone = limited.try_clone().expect("memory");
    let refused = |one| clone.insert(one, 0, 1).map_err(InsertError::from);
    let all = [one, handle(4, 1), Handle::PLACEHOLDER].map(refused);
    assert_eq!(
        all,
        [Ok(None), Err(InsertError::Limit), Err(InsertError::Limit)]
    );
    let ended = Tracked::<SparseMap<u8>>::default().insert(Handle::PLACEHOLDER, 0, 1);
    assert_eq!(ended.map_err(InsertError::from), Err(InsertError::Limit));
    assert_eq!(clone.get_mut(handle(4, 1), 9), Ok::<_, OutOfMemory>(None));
}
