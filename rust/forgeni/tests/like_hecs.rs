//! What the tests of hecs ask of its own allocator, asked of this one. Above each test stands which
//! behaviour of hecs it shows, and where this allocator is meant to differ.

use crate::common::{flushed, handle, small, Numbers};
use forgeni::{Entities, FreeError, Handle, State};
use std::collections::{HashMap, HashSet};

/// hecs: bits go and come back, and bits without a generation are nobody's.
#[test]
fn bits() {
    let one = handle(0x0aad_f00d, 0x5ead_beef);
    assert_eq!(Handle::from_bits(one.to_bits()), Some(one));
    assert_eq!(Handle::from_bits(0xffff_0000), None);
}

/// hecs: random allocs and frees. A slot that waits is used before a new one, each handle is given
/// once, and `free` knows who lives.
#[test]
fn alloc_and_free() {
    for seed in 0..50 {
        let mut numbers = Numbers::of(seed);
        let mut entities = Entities::new();
        let mut generations: HashMap<u32, u32> = HashMap::new();
        let (mut waiting, mut first_unused) = (HashSet::new(), 0);
        for _ in 0..300 {
            if numbers.below(10) < 7 || first_unused == 0 {
                let one = entities.alloc().expect("room");
                if waiting.is_empty() {
                    assert_eq!(one.index(), first_unused);
                    first_unused += 1;
                } else {
                    assert!(waiting.remove(&one.index()));
                }
                assert_eq!(generations.insert(one.index(), one.generation()), None);
            } else {
                let index = numbers.below(u64::from(first_unused)) as u32;
                let generation = generations.remove(&index);
                let one = handle(index, generation.unwrap_or(1_000_000));
                assert_eq!(entities.free(one).is_ok(), generation.is_some());
                if generation.is_some() {
                    waiting.insert(index);
                }
            }
            assert_eq!(entities.len() as usize, generations.len());
        }
        let living = entities.iter().map(|one| (one.index(), one.generation()));
        assert_eq!(living.collect::<HashMap<_, _>>(), generations);
    }
}

/// hecs: nobody is contained in the beginning, a living one is, a freed one isn't, and neither is
/// the next one of its slot until it is given.
#[test]
fn contains() {
    let mut entities = Entities::new();
    assert!(!entities.contains(handle(0, 1)));
    let one = entities.alloc().expect("a handle");
    assert!(entities.contains(one));
    let next = entities
        .free(one)
        .expect("alive")
        .next
        .expect("not retired");
    assert!(!entities.contains(one) && !entities.contains(next));
    assert_eq!(entities.alloc(), Ok(next));
    assert!(!entities.contains(one) && entities.contains(next));
}

/// hecs: a reserved one is contained before the flush, of an old slot and of a new one.
#[test]
fn reserved_is_contained() {
    let mut entities = Entities::new();
    let gone = entities.alloc().expect("a handle");
    entities.free(gone).expect("alive");
    let reserved = entities.request_many(2).expect("handles");
    assert_eq!(reserved, [handle(0, 2), handle(1, 1)]);
    assert!(reserved.iter().all(|one| entities.contains(*one)));
    assert!(reserved.iter().all(|one| !entities.is_alive(*one)));
    assert!(!entities.contains(gone) && !entities.contains(handle(2, 1)));
}

/// hecs: a flush makes new slots for what was reserved.
#[test]
fn reserve_grows() {
    let mut entities = Entities::new();
    entities.request().expect("a handle");
    let mut told = Vec::new();
    entities.flush_with(|one| told.push(one)).expect("memory");
    assert_eq!((entities.len(), told), (1, vec![handle(0, 1)]));
}

/// hecs: a flush uses slots that wait, and makes new ones beside.
#[test]
fn reserve_grows_and_reuses() {
    let mut entities = Entities::new();
    let old = entities.alloc().expect("a handle");
    entities.free(old).expect("alive");
    entities.request().expect("a handle");
    entities.request().expect("a handle");
    let mut told = Vec::new();
    entities.flush_with(|one| told.push(one)).expect("memory");
    told.sort();
    assert_eq!(
        (entities.len(), told),
        (2, vec![handle(0, 2), handle(1, 1)])
    );
}

/// hecs: what is reserved can't be freed before the flush. There that is an assertion; here both
/// calls say what they need.
#[test]
fn a_flush_is_needed_first() {
    let mut entities = Entities::new();
    let one = entities.alloc().expect("a handle");
    let reserved = entities.request().expect("a handle");
    assert_eq!(entities.free(reserved), Err(FreeError::NeedsFlush));
    assert_eq!(entities.free(one), Err(FreeError::NeedsFlush));
    flushed(&mut entities);
    assert!(entities.free(one).is_ok() && entities.free(reserved).is_ok());
}

/// hecs: a handle of an earlier generation, of a later one, and of no slot at all is nobody's.
#[test]
fn handles_of_nobody() {
    let mut entities = Entities::new();
    let one = entities.alloc().expect("a handle");
    for nobody in [handle(0, 2), handle(1, 1), handle(4_000_000_000, 7)] {
        assert_eq!(entities.free(nobody), Err(FreeError::NotAlive));
        assert_eq!(entities.state(nobody), State::Gone);
        assert_eq!(entities.row(nobody), None);
    }
    assert!(entities.is_alive(one));
}

/// hecs: the location of a living entity is kept in its slot, and that of a new occupant is its
/// own.
#[test]
fn places() {
    let mut entities = Entities::new();
    let all = entities.alloc_many(5).expect("memory");
    for (row, one) in (0..).zip(&all) {
        entities.try_set_row(*one, row).expect("alive");
    }
    entities.try_set_row(all[3], 30).expect("alive");
    let rows: Vec<_> = all.iter().map(|one| entities.row(*one)).collect();
    assert_eq!(rows, [Some(0), Some(1), Some(2), Some(30), Some(4)]);
    entities.free(all[2]).expect("alive");
    let next = entities.alloc().expect("a slot that waits");
    assert_eq!((next.index(), entities.row(next)), (2, None));
}

/// hecs: threads reserve from one allocator at once, and all of them get their own.
#[test]
fn reserving_on_threads() {
    let mut entities = Entities::new();
    let told = entities.phase(4, |_, reservers| {
        std::thread::scope(|scope| {
            let running: Vec<_> = reservers
                .iter_mut()
                .map(|one| scope.spawn(move || one.reserve_many(1000).expect("handles")))
                .collect();
            let ended = running.into_iter().map(|thread| thread.join());
            ended.flat_map(|told| told.expect("no panic")).collect()
        })
    });
    let told: HashSet<Handle> = told.expect("shared");
    assert_eq!(told.len(), 4000);
    flushed(&mut entities);
    assert!(told.iter().all(|one| entities.is_alive(*one)));
}

/// hecs: all can be freed, and the slots come again. (There it is `clear`.)
#[test]
fn all_are_freed() {
    let mut entities = Entities::new();
    let first: HashSet<Handle> = entities
        .alloc_many(100)
        .expect("memory")
        .into_iter()
        .collect();
    let living: Vec<Handle> = entities.iter().collect();
    for one in living {
        entities.free(one).expect("alive");
    }
    assert!(entities.is_empty() && entities.iter().next().is_none());
    let second: HashSet<Handle> = entities
        .alloc_many(100)
        .expect("memory")
        .into_iter()
        .collect();
    assert!(first.is_disjoint(&second));
    assert_eq!(entities.total(), 100);
}

/// hecs: when the generations of a slot are over, they begin again. Here the slot is retired.
#[test]
fn generations_are_over() {
    let mut entities = small(1, 3);
    for generation in 1..=3 {
        assert_eq!(entities.alloc(), Ok(handle(0, generation)));
        entities.free(handle(0, generation)).expect("alive");
    }
    assert!(entities.alloc().is_err());
    assert_eq!(entities.retired(), 1);
}
