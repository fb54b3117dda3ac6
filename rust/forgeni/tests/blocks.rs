//! Phases in blocks: which handles a caller gets follows from the sizes and from its own requests,
//! however the threads go. A model that keeps lists of handles says the same of each.
//! `FORGENI_PHASES` sets how many phases are run.

use crate::common::{flushed, handle, small, Model, Numbers};
use forgeni::{BlockSize, Blocks, CloseError, Entities, Handle, Phase, ReserveError, Reserver};
use forgeni::{Refused, ShareError};
use std::collections::HashSet;
use std::sync::Barrier;
use std::thread;

type Parts = (Phase<Blocks>, Vec<Reserver<Blocks>>);

fn opened(entities: Entities, sizes: &[u32]) -> Parts {
    entities.share_in::<Blocks>(sizes).expect("memory")
}

/// The allocator after a phase of which all reservers are here.
fn closed((phase, reservers): Parts) -> Entities {
    let ended = phase.close(reservers).expect("all are here");
    assert_eq!(ended.requested_past(), 0);
    ended.into_entities().expect("memory")
}

/// What a request got: the handles as they were listed, or what it wanted and what was left.
type Reply = Result<Vec<Handle>, ReserveError>;

/// The handles of each block, as the definition has them: the next ones of the pool.
pub fn dealt(model: &Model, sizes: &[u32]) -> Vec<Vec<Handle>> {
    let mut pool = model.pool().into_iter();
    let next = |size: &u32| pool.by_ref().take(*size as usize).collect();
    sizes.iter().map(next).collect()
}

/// A caller's requests on its own block: old handles in reverse order, then new ones.
fn replies(made: u32, block: &[Handle], requests: &[u32]) -> (usize, Vec<Reply>) {
    let mut used = 0;
    let mut reply = |n: u32| {
        let rest = &block[used..];
        let left = rest.len() as u32;
        if n > left {
            return Err(ReserveError::Space { wanted: n, left });
        }
        let given = &rest[..n as usize];
        used += n as usize;
        let is_old = |it: &&Handle| it.index() < made;
        let mut list: Vec<Handle> = given.iter().rev().filter(is_old).copied().collect();
        list.extend(given.iter().filter(|it| !is_old(it)));
        Ok(list)
    };
    let all = requests.iter().map(|n| reply(*n)).collect();
    (used, all)
}

/// The model after the phase and its flush: so many handles of each block are alive, and the others
/// come first in the pool.
pub fn close(model: &mut Model, blocks: &[Vec<Handle>], used: &[usize]) -> Vec<Handle> {
    let mut born: Vec<Handle> = vec![];
    let mut pool = vec![];
    for (block, used) in blocks.iter().zip(used) {
        born.extend(&block[..*used]);
        pool.extend(&block[*used..]);
    }
    let dealt = born.len() + pool.len();
    pool.extend(&model.pool()[dealt..]);
    let past = born.iter().map(|it| it.index() + 1);
    model.made = past.max().unwrap_or(0).max(model.made);
    model.waiting = pool.into_iter().rev().collect();
    model.waiting.retain(|it| it.index() < model.made);
    model.live.extend(&born);
    born
}

/// Makes a caller's requests. A request for one handle is a single one now and then.
fn reserve_all(reserver: &mut Reserver<Blocks>, requests: &[u32]) -> Vec<Reply> {
    let mut list = vec![handle(0, 1)];
    let mut reply = |(turn, n): (usize, &u32)| match (n, turn % 3) {
        (1, 0) => Ok(vec![reserver.reserve()?]),
        (n, 1) => {
            list.truncate(1);
            let told = reserver.reserve_into(&mut list, *n);
            assert_eq!(list[0], handle(0, 1));
            told.map(|()| list[1..].to_vec())
        }
        (n, _) => reserver.reserve_many(*n),
    };
    requests.iter().enumerate().map(&mut reply).collect()
}

/// Each caller on a thread of its own. All begin together.
fn side_by_side(reservers: &mut [Reserver<Blocks>], requests: &[Vec<u32>]) -> Vec<Vec<Reply>> {
    let start = &Barrier::new(reservers.len());
    thread::scope(|scope| {
        let callers = reservers.iter_mut().zip(requests);
        let threads: Vec<_> = callers
            .map(|(reserver, requests)| {
                scope.spawn(move || {
                    start.wait();
                    reserve_all(reserver, requests)
                })
            })
            .collect();
        let joined = threads.into_iter().map(|it| it.join().expect("it ends"));
        joined.collect()
    })
}

fn below(numbers: &mut Numbers, n: u64) -> u32 {
    numbers.below(n) as u32
}

/// One phase on threads, beside the model.
fn phase(entities: Entities, model: &mut Model, numbers: &mut Numbers) -> Entities {
    let callers = 1 + numbers.below(4) as usize;
    let sizes: Vec<u32> = (0..callers).map(|_| below(numbers, 9)).collect();
    let one = |numbers: &mut Numbers| (0..below(numbers, 6)).map(|_| below(numbers, 4)).collect();
    let requests: Vec<Vec<u32>> = (0..callers).map(|_| one(numbers)).collect();
    let lost: Vec<bool> = (0..callers).map(|_| numbers.below(16) == 0).collect();

    let handles = dealt(model, &sizes);
    let total = entities.total();
    let (phase, mut reservers) = opened(entities, &sizes);
    let told = side_by_side(&mut reservers, &requests);
    let mut used = vec![];
    for (caller, told) in told.iter().enumerate() {
        let (count, all) = replies(model.made, &handles[caller], &requests[caller]);
        assert_eq!(told, &all, "caller {caller}");
        assert_eq!(reservers[caller].used() as usize, count);
        used.push(if lost[caller] {
            handles[caller].len()
        } else {
            count
        });
    }
    assert_eq!(total, model.made);

    let mut at = 0..;
    reservers.retain(|_| !lost[at.next().expect("a caller")]);
    let ended = if lost.contains(&true) {
        phase.close_lost(reservers)
    } else {
        phase.close(reservers)
    };
    let ended = ended.expect("the others are here");
    let mut entities = ended.into_entities().expect("memory");
    let born = close(model, &handles, &used);
    let flushed: HashSet<Handle> = flushed(&mut entities).into_iter().collect();
    assert_eq!(flushed, born.iter().copied().collect());
    entities
}

/// Real threads in each of 10,000 phases, and single calls between them.
#[test]
fn phases_beside_a_model() {
    let said = std::env::var("FORGENI_PHASES").ok();
    let phases = said.and_then(|it| it.parse().ok()).unwrap_or(10_000);
    let mut numbers = Numbers::of(67);
    let mut done = 0;
    while done < phases {
        let (slots, generations) = (1 + below(&mut numbers, 60), 1 + below(&mut numbers, 4));
        let mut entities = small(slots, generations);
        let mut model = Model::new(slots, generations);
        let mut ever = HashSet::new();
        for _ in 0..50 {
            entities = phase(entities, &mut model, &mut numbers);
            done += 1;
            for _ in 0..numbers.below(20) {
                if numbers.below(3) == 0 {
                    assert_eq!(entities.alloc(), model.alloc());
                } else if !model.live.is_empty() {
                    let one = model.live[numbers.below(model.live.len() as u64) as usize];
                    assert!(ever.insert(one), "{one} was given twice");
                    assert_eq!(entities.free(one), model.free(one));
                }
            }
            model.expect(&entities, "after a phase");
        }
    }
}

/// The handles are the same, whoever runs the callers, and in whatever order.
#[test]
fn any_order_of_callers() {
    let run = |order: [usize; 3]| {
        let mut entities = small(100, 9);
        let all = entities.alloc_many(10).expect("memory");
        for one in &all[2..9] {
            entities.free(*one).expect("alive");
        }
        let (phase, mut reservers) = opened(entities, &[3, 6, 5]);
        let mut told = vec![vec![]; 3];
        for caller in order {
            let reserver = &mut reservers[caller];
            told[caller] = reserver.reserve_many(2).expect("room");
            told[caller].push(reserver.reserve().expect("room"));
        }
        let mut entities = closed((phase, reservers));
        (told, flushed(&mut entities), entities.total())
    };
    let first = run([0, 1, 2]);
    assert_eq!(first.0[0], [handle(7, 2), handle(8, 2), handle(6, 2)]);
    for order in [[0, 2, 1], [1, 0, 2], [1, 2, 0], [2, 0, 1], [2, 1, 0]] {
        assert_eq!(run(order), first);
    }
}

#[test]
fn a_block_that_is_used_up() {
    let (phase, mut reservers) = opened(small(5, 9), &[4, 4]);
    assert_eq!(
        (phase.count(), reservers[0].size(), reservers[1].size()),
        (2, 4, 1)
    );
    let refused = Err(ReserveError::Space { wanted: 2, left: 1 });
    assert_eq!(reservers[1].reserve_many(2), refused);
    assert_eq!(reservers[1].reserve(), Ok(handle(4, 1)));
    let refused = Err(Refused::Space { wanted: 1, left: 0 });
    assert_eq!(reservers[1].reserve(), refused);
    assert_eq!(reservers[1].reserve_many(0), Ok(vec![]));

    // The others are served as before, and nothing of the first block is lost.
    assert_eq!(reservers[0].reserve(), Ok(handle(0, 1)));
    let mut entities = closed((phase, reservers));
    assert_eq!(flushed(&mut entities).len(), 2);
    assert_eq!(entities.total(), 5);
    assert_eq!(entities.alloc(), Ok(handle(1, 1)));
}

/// New slots that nobody used are made only below one that was used.
#[test]
fn new_slots() {
    let entities = closed(opened(small(1_000_000_000, 9), &[500_000_000; 2]));
    assert_eq!((entities.total(), entities.asked()), (0, 0));

    let (phase, mut reservers) = opened(entities, &[3, 3, 3]);
    reservers[1].reserve_many(2).expect("room");
    let mut entities = closed((phase, reservers));
    assert_eq!((entities.total(), entities.reserved()), (5, 2));
    assert_eq!(flushed(&mut entities), [handle(4, 1), handle(3, 1)]);
    for index in [0, 1, 2, 5] {
        assert_eq!(entities.alloc(), Ok(handle(index, 1)));
    }
}

#[test]
fn a_phase_that_is_not_opened() {
    let mut entities = small(9, 9);
    entities.request().expect("a handle");
    let (entities, error) = entities.share_in::<Blocks>(&[1]).unwrap_err().into_parts();
    assert_eq!((error, entities.reserved()), (ShareError::NeedsFlush, 1));
}

/// A phase that isn't closed goes on, with all its reservers.
#[test]
fn a_phase_that_is_not_closed() {
    let (phase, mut reservers) = opened(small(9, 9), &[2, 2, 0, 2]);
    let (_other, mut strangers) = opened(small(9, 9), &[2, 2]);
    assert!(reservers[0].is_of(&phase) && !strangers[0].is_of(&phase));

    let used = reservers[3].reserve().expect("room");
    reservers.swap(0, 1);
    let ((mut phase, none), error) = phase.close(reservers).unwrap_err().into_parts();
    assert_eq!(
        (error, none.len(), phase.returned()),
        (CloseError::Order, 0, 4)
    );
    // The phase gives them back, the last one first.
    let mut reservers = vec![];
    while let Some(reserver) = phase.reserver().expect("few owners") {
        reservers.insert(0, reserver);
    }
    reservers.swap(0, 1);
    reservers.push(strangers.remove(1));
    let ((phase, mut reservers), error) = phase.close(reservers).unwrap_err().into_parts();
    assert_eq!((error, reservers.len()), (CloseError::OtherPhase, 5));
    reservers.pop();
    drop(reservers.remove(1));
    let ((phase, reservers), error) = phase.close(reservers).unwrap_err().into_parts();
    assert_eq!(error, CloseError::Missing { count: 1 });

    // What the lost one may have used is not given again.
    let ended = phase.close_lost(reservers).expect("the others are here");
    let mut entities = ended.into_entities().expect("memory");
    let born = flushed(&mut entities);
    assert_eq!(born, [used, handle(3, 1), handle(2, 1)]);
    assert_eq!(entities.alloc(), Ok(handle(0, 1)));
}

/// A size grows by what was wanted, although a bulk that is refused uses none of its block.
#[test]
fn a_refused_bulk_fits_the_next_block() {
    for (used, bulk) in [(0, 100), (0, 65), (30, 100), (64, 1), (63, 2), (1, 5000)] {
        let (mut entities, mut size) = (Entities::new(), BlockSize::new(100_000));
        for frame in 0..2 {
            let (phase, mut reservers) = opened(entities, &[size.size()]);
            reservers[0].reserve_many(used).expect("few");
            let served = reservers[0].reserve_many(bulk);
            assert_eq!(served.is_ok(), frame == 1, "{used} and then {bulk}");
            assert_eq!(reservers[0].wanted(), used + bulk);
            size.adapt(reservers[0].wanted());
            assert_eq!(size.size(), 2 * (used + bulk));
            entities = closed((phase, reservers));
            entities.flush(&mut vec![]).expect("memory");
        }
    }
}

/// A size that was saved is the same again, and no block is larger than its limit.
#[test]
fn a_block_may_begin_with_a_size() {
    for (size, limit, is) in [
        (0, 5, 0),
        (10, 20, 10),
        (20, 20, 20),
        (30, 20, 20),
        (900, u32::MAX, 900),
    ] {
        let begun = BlockSize::with_size(size, limit);
        assert_eq!((begun.size(), begun.limit()), (is, limit));
    }
    let mut adapted = BlockSize::new(1000);
    adapted.adapt(150);
    assert_eq!(
        BlockSize::with_size(adapted.size(), adapted.limit()),
        adapted
    );
}

/// The largest refused request counts, whichever call made it.
#[test]
fn a_reserver_remembers_the_largest_refused_request() {
    let (_phase, mut reservers) = opened(Entities::new(), &[10, 10]);
    let one = &mut reservers[0];
    assert_eq!((one.used(), one.wanted()), (0, 0));
    one.reserve_many(4).expect("few");
    assert_eq!(one.wanted(), 4);
    let mut list = vec![];
    assert!(one.reserve_into(&mut list, 30).is_err());
    assert!(one.reserve_many(20).is_err());
    assert_eq!((one.used(), one.wanted()), (4, 34));
    one.reserve_many(6).expect("few");
    assert!(one.reserve().is_err());
    assert_eq!((one.used(), one.wanted()), (10, 40));
    assert!(one.reserve_many(u32::MAX).is_err());
    assert_eq!((one.used(), one.wanted()), (10, u32::MAX));

    // At a limit, and at the largest number.
    for (limit, size) in [(15, 15), (70, 70), (u32::MAX, u32::MAX)] {
        let mut next = BlockSize::new(limit);
        next.adapt(one.wanted());
        assert_eq!((next.size(), next.limit()), (size, limit));
    }
    let two = &mut reservers[1];
    assert_eq!(two.wanted(), 0);
    for number in 1..=11 {
        assert_eq!(two.reserve().is_ok(), number <= 10);
        assert_eq!(two.wanted(), number);
    }
}
