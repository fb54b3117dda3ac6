//! Threads that reserve at once. What they were told is put in one order, by the positions of the
//! pool, and a sequential allocator that serves the requests in that order says the same.
//! `FORGENI_SEEDS` sets how many seeds are run, `FORGENI_SEED` runs one alone.

use crate::common::{flushed, seeds, small, Model, Numbers};
use forgeni::{Entities, Handle, ReserveError, Reserver, State};
use std::collections::{HashMap, HashSet};
use std::sync::Barrier;

/// A request, and what it was told.
#[derive(Clone, Debug)]
struct Call {
    caller: usize,
    requested: u32,
    reply: Result<Vec<Handle>, ReserveError>,
}

/// Makes a caller's requests, one after the other. A request for one handle is a single one, or a
/// list of one.
fn reserve_all(reserver: &mut Reserver, requests: &[u32], singly: bool) -> Vec<Call> {
    let caller = reserver.number();
    let ask = |n: &u32| Call {
        caller,
        requested: *n,
        reply: if *n == 1 && singly {
            let one = reserver.reserve().map_err(ReserveError::from);
            one.map(|handle| vec![handle])
        } else {
            reserver.reserve_many(*n)
        },
    };
    requests.iter().map(ask).collect()
}

/// Each caller makes its requests on a thread of its own. All begin together.
fn side_by_side(reservers: &mut [Reserver], requests: &[Vec<u32>]) -> Vec<Vec<Call>> {
    let start = Barrier::new(reservers.len());
    std::thread::scope(|scope| {
        let threads: Vec<_> = reservers
            .iter_mut()
            .zip(requests)
            .map(|(reserver, requests)| {
                let start = &start;
                scope.spawn(move || {
                    let singly = reserver.number() % 2 == 0;
                    start.wait();
                    reserve_all(reserver, requests, singly)
                })
            })
            .collect();
        threads
            .into_iter()
            .map(|t| t.join().expect("it ends"))
            .collect()
    })
}

/// The calls in the order of their steps: what was served by its first position in the pool, then
/// the refusal that found something left, then the others.
fn in_order(pool: &[Handle], calls: &[Call]) -> Vec<Call> {
    let position: HashMap<Handle, usize> = pool.iter().copied().zip(0..).collect();
    let mut calls: Vec<Call> = calls.iter().filter(|c| c.requested > 0).cloned().collect();
    calls.sort_by_key(|call| match &call.reply {
        Ok(handles) => (0, handles.iter().map(|h| position[h]).min().expect("some")),
        Err(ReserveError::Space { left, .. }) => (1, usize::from(*left == 0)),
        Err(other) => panic!("{other}"),
    });
    calls
}

/// The sequential allocator gives the same replies, and each caller's own come in its order.
fn expect_one_history(model: &mut Model, by_caller: &[Vec<Call>], place: &str) {
    let calls = in_order(&model.pool(), &by_caller.concat());
    for call in &calls {
        assert_eq!(
            model.reserve(call.requested),
            call.reply,
            "{place}: {call:?}"
        );
    }
    for (caller, own) in by_caller.iter().enumerate() {
        let there: Vec<_> = calls.iter().filter(|c| c.caller == caller).collect();
        let own: Vec<_> = own.iter().filter(|c| c.requested > 0).collect();
        let served = |calls: &[&Call]| -> Vec<Vec<Handle>> {
            calls.iter().filter_map(|c| c.reply.clone().ok()).collect()
        };
        assert_eq!(
            served(&there),
            served(&own),
            "{place}: order of caller {caller}"
        );
        let refused = own
            .iter()
            .position(|c| c.reply.is_err())
            .unwrap_or(own.len());
        assert!(
            own[refused..].iter().all(|c| c.reply.is_err()),
            "{place}: caller {caller} was served after a refusal"
        );
    }
}

/// Some entities that live and some slots that wait.
fn some_life(numbers: &mut Numbers, slots: u32, generations: u32) -> (Entities, Model) {
    let mut model = Model::new(slots, generations);
    let mut entities = small(slots, generations);
    for _ in 0..numbers.below(2 * u64::from(slots)) {
        let live = model.live.len() as u64;
        if live > 0 && numbers.below(3) > 0 {
            let one = model.live[numbers.below(live) as usize];
            assert_eq!(entities.free(one), model.free(one));
        } else {
            assert_eq!(entities.alloc(), model.alloc());
        }
    }
    (entities, model)
}

/// A phase of two rounds, with meetings between them, then a flush.
fn phase(seed: u64, callers: usize, slots: u64, most: u64) {
    let mut numbers = Numbers::of(seed);
    let slots = 1 + numbers.below(slots) as u32;
    let generations = 1 + numbers.below(3) as u32;
    let (entities, mut model) = some_life(&mut numbers, slots, generations);
    let place = format!("seed {seed}, {callers} callers, {slots} slots");
    let (shared, mut reservers) = entities.share(callers).expect("shared");
    assert_eq!((shared.count(), reservers.len()), (callers, callers));

    let mut by_caller: Vec<Vec<Call>> = vec![vec![]; callers];
    for _round in 0..2 {
        let mut requests = |_| {
            (0..numbers.below(6))
                .map(|_| numbers.below(most) as u32)
                .collect()
        };
        let requests: Vec<Vec<u32>> = (0..callers).map(&mut requests).collect();
        for (all, new) in by_caller
            .iter_mut()
            .zip(side_by_side(&mut reservers, &requests))
        {
            all.extend(new);
        }
        let (first, others) = reservers.split_at_mut(1);
        for other in others {
            first[0].meet(other).expect("of one phase");
        }
    }

    for (reserver, calls) in reservers.iter().zip(&by_caller) {
        let requested: u64 = calls.iter().map(|c| u64::from(c.requested)).sum();
        assert_eq!(
            reserver.quota_left(),
            (1 << 40) - requested,
            "{place}: quota"
        );
    }
    // It doesn't matter in which order they come back.
    reservers.rotate_left(numbers.below(callers as u64) as usize);
    let mut entities = shared.close(reservers).expect("closed");
    expect_one_history(&mut model, &by_caller, &place);
    expect_flushed(&mut entities, &mut model, &by_caller, &place);
}

/// A flush brings to life exactly what was given, and nothing was given twice.
fn expect_flushed(entities: &mut Entities, model: &mut Model, told: &[Vec<Call>], place: &str) {
    model.expect(entities, place);
    let given: Vec<Handle> = told
        .iter()
        .flatten()
        .filter_map(|call| call.reply.clone().ok())
        .flatten()
        .collect();
    let once: HashSet<Handle> = given.iter().copied().collect();
    assert_eq!(once.len(), given.len(), "{place}: a handle was given twice");
    for one in &given {
        assert_eq!(entities.state(*one), State::Reserved, "{place}: {one}");
    }
    assert_eq!(flushed(entities), model.flush(), "{place}: flush");
    for one in &model.live {
        assert_eq!(entities.state(*one), State::Alive, "{place}: {one}");
    }
    assert!(
        once.iter().all(|one| entities.is_alive(*one)),
        "{place}: alive"
    );
    model.expect(entities, place);
}

#[test]
fn two_threads() {
    seeds(1500, |seed| phase(seed, 2, 20, 5));
}

#[test]
fn four_threads() {
    seeds(500, |seed| phase(seed, 4, 60, 7));
}

#[test]
fn sixteen_threads() {
    seeds(100, |seed| phase(seed, 16, 200, 9));
}

/// The phase in one thread is the same, and needs no thread to be so.
#[test]
fn one_thread() {
    seeds(4000, |seed| phase(seed, 1, 20, 5));
}

/// Phase after phase on one allocator, with calls between them.
#[test]
fn phases_in_a_row() {
    seeds(200, |seed| {
        let mut numbers = Numbers::of(seed);
        let (mut entities, mut model) = some_life(&mut numbers, 30, 4);
        for turn in 0..5 {
            let place = format!("seed {seed}, turn {turn}");
            let (shared, mut reservers) = entities.share(3).expect("shared");
            let requests = vec![vec![1, 2, 1], vec![2, 0, 3], vec![1; 4]];
            let told = side_by_side(&mut reservers, &requests);
            entities = shared.close(reservers).expect("closed");
            expect_one_history(&mut model, &told, &place);
            expect_flushed(&mut entities, &mut model, &told, &place);
            for _ in 0..numbers.below(20).min(model.live.len() as u64) {
                let one = model.live[numbers.below(model.live.len() as u64) as usize];
                assert_eq!(entities.free(one), model.free(one), "{place}: free {one}");
            }
        }
    });
}

/// Many handles, which overlap for long.
#[test]
fn many_handles() {
    let each = if std::env::var("FORGENI_SEEDS").is_ok() {
        100
    } else {
        50_000
    };
    let (shared, mut reservers) = Entities::new().share(4).expect("shared");
    let requests = vec![
        vec![1; each],
        vec![1; each],
        vec![16; each / 16],
        vec![16; each / 16],
    ];
    let told = side_by_side(&mut reservers, &requests);
    let mut entities = shared.close(reservers).expect("closed");
    let given: Vec<Handle> = told
        .iter()
        .flatten()
        .flat_map(|c| c.reply.clone().expect("room"))
        .collect();
    let all: HashSet<Handle> = given.iter().copied().collect();
    let count = 2 * each + 2 * (each / 16 * 16);
    assert_eq!((given.len(), all.len()), (count, count));
    assert_eq!(flushed(&mut entities).len(), count);
    assert_eq!(entities.len() as usize, count);
    assert!(all.iter().all(|one| entities.is_alive(*one)));
}
