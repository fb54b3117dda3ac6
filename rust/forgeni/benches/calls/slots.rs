//! Handles: given, freed, looked up, and reserved.

use crate::plain::allocator::{self as plain, Shared as PlainShared};
use crate::{line, peers, places, shift, timed, Run, BULK, COUNT};
use forgeni::{Entities, Handle, Phase, Reserver, State};
use std::hint::black_box;

pub fn lines() {
    let slots = peers::SLOTS;
    line(
        "`alloc`, then `free`",
        COUNT,
        places!(alloc_free),
        places!(plain_alloc_free),
        slots.alloc_free,
    );
    line(
        "`alloc`, then `free`, of all slots",
        COUNT,
        places!(alloc_all),
        places!(plain_alloc_all),
        slots.alloc_all,
    );
    line(
        "`alloc` of new slots",
        COUNT,
        places!(fresh),
        places!(plain_fresh),
        slots.fresh,
    );
    line(
        "`state`",
        COUNT,
        places!(state),
        places!(plain_contains),
        slots.contains,
    );
    line(
        "`contains`",
        COUNT,
        places!(contains),
        places!(plain_contains),
        slots.contains,
    );
    line(
        "`is_alive`",
        COUNT,
        places!(is_alive),
        places!(plain_contains),
        slots.contains,
    );
    line(
        "`Reserver::reserve`",
        COUNT,
        places!(reserve),
        places!(plain_reserve),
        None,
    );
    line(
        "`Reserver::reserve_into`, 64 at once",
        COUNT,
        places!(bulk),
        places!(plain_bulk),
        None,
    );
    line(
        "`request` to `flush` to `free`",
        COUNT,
        places!(requests),
        places!(plain_requests),
        None,
    );
    line(
        "A phase to `flush` to `free`, singly",
        COUNT,
        places!(phase),
        places!(plain_phase),
        None,
    );
    line(
        "The same, 64 at once",
        COUNT,
        places!(bulks),
        places!(plain_bulks),
        None,
    );
}

/// An allocator whose slots all have an entity, and their handles.
fn full() -> (Entities, Vec<Handle>) {
    let mut entities = Entities::new();
    let all = (0..COUNT)
        .map(|_| entities.alloc().expect("room"))
        .collect();
    (entities, all)
}

fn plain_full() -> (plain::Entities, Vec<plain::Handle>) {
    let mut entities = plain::Entities::default();
    let all = (0..COUNT)
        .map(|_| entities.alloc().ok().expect("room"))
        .collect();
    (entities, all)
}

/// An allocator whose slots were all used once and wait.
fn used() -> Entities {
    let (mut entities, all) = full();
    free_all(&mut entities, &all);
    entities
}

fn plain_used() -> plain::Entities {
    let (mut entities, all) = plain_full();
    plain_free_all(&mut entities, &all);
    entities
}

fn free_all(entities: &mut Entities, all: &[Handle]) -> u64 {
    all.iter().fold(0, |sum, one| {
        let freed = entities.free(*one).expect("alive");
        sum ^ freed.next.map_or(0, Handle::to_bits)
    })
}

fn plain_free_all(entities: &mut plain::Entities, all: &[plain::Handle]) -> u64 {
    all.iter().fold(0, |sum, one| {
        let freed = entities.free(*one).ok().expect("alive");
        sum ^ freed.next.map_or(0, plain::Handle::to_bits)
    })
}

fn alloc_free<const PLACE: usize>() -> Run {
    shift::<PLACE>();
    let mut entities = used();
    timed(|| {
        (0..COUNT).fold(0, |sum, _| {
            let one = black_box(&mut entities).alloc().expect("room");
            entities.free(one).expect("alive");
            sum ^ one.to_bits()
        })
    })
}

fn plain_alloc_free<const PLACE: usize>() -> Run {
    shift::<PLACE>();
    let mut entities = plain_used();
    timed(|| {
        (0..COUNT).fold(0, |sum, _| {
            let one = black_box(&mut entities).alloc().ok().expect("room");
            entities.free(one).ok().expect("alive");
            sum ^ one.to_bits()
        })
    })
}

fn alloc_all<const PLACE: usize>() -> Run {
    shift::<PLACE>();
    let mut entities = used();
    let mut all = Vec::with_capacity(COUNT as usize);
    timed(|| {
        for _ in 0..COUNT {
            all.push(black_box(&mut entities).alloc().expect("room"));
        }
        free_all(&mut entities, &all)
    })
}

fn plain_alloc_all<const PLACE: usize>() -> Run {
    shift::<PLACE>();
    let mut entities = plain_used();
    let mut all = Vec::with_capacity(COUNT as usize);
    timed(|| {
        for _ in 0..COUNT {
            all.push(black_box(&mut entities).alloc().ok().expect("room"));
        }
        plain_free_all(&mut entities, &all)
    })
}

fn fresh<const PLACE: usize>() -> Run {
    shift::<PLACE>();
    timed(|| {
        let mut entities = Entities::new();
        (0..COUNT).fold(0, |sum, _| sum ^ entities.alloc().expect("room").to_bits())
    })
}

fn plain_fresh<const PLACE: usize>() -> Run {
    shift::<PLACE>();
    timed(|| {
        let mut entities = plain::Entities::default();
        (0..COUNT).fold(0, |sum, _| {
            sum ^ entities.alloc().ok().expect("room").to_bits()
        })
    })
}

/// Every fourth entity is gone.
fn quarter_gone() -> (Entities, Vec<Handle>) {
    let (mut entities, all) = full();
    for one in all.iter().step_by(4) {
        entities.free(*one).expect("alive");
    }
    (entities, all)
}

fn state<const PLACE: usize>() -> Run {
    shift::<PLACE>();
    let (entities, all) = quarter_gone();
    timed(|| {
        let alive = |one: &&Handle| black_box(&entities).state(**one) == State::Alive;
        all.iter().filter(alive).count() as u64
    })
}

fn contains<const PLACE: usize>() -> Run {
    shift::<PLACE>();
    let (entities, all) = quarter_gone();
    timed(|| {
        let alive = |one: &&Handle| black_box(&entities).contains(**one);
        all.iter().filter(alive).count() as u64
    })
}

fn is_alive<const PLACE: usize>() -> Run {
    shift::<PLACE>();
    let (entities, all) = quarter_gone();
    timed(|| {
        let alive = |one: &&Handle| black_box(&entities).is_alive(**one);
        all.iter().filter(alive).count() as u64
    })
}

fn plain_contains<const PLACE: usize>() -> Run {
    shift::<PLACE>();
    let (mut entities, all) = plain_full();
    for one in all.iter().step_by(4) {
        entities.free(*one).ok().expect("alive");
    }
    timed(|| {
        let alive = |one: &&plain::Handle| black_box(&entities).contains(**one);
        all.iter().filter(alive).count() as u64
    })
}

fn share(entities: Entities) -> (Phase, Vec<Reserver>) {
    entities.share(1).expect("shared")
}

fn reserve_all(reserver: &mut Reserver) -> u64 {
    (0..COUNT).fold(0, |sum, _| {
        sum ^ reserver.reserve().expect("room").to_bits()
    })
}

fn reserve_bulks(reserver: &mut Reserver, list: &mut Vec<Handle>) -> u64 {
    (0..COUNT / BULK).fold(0, |sum, _| {
        list.clear();
        reserver.reserve_into(list, BULK).expect("room");
        list.iter().fold(sum, |sum, one| sum ^ one.to_bits())
    })
}

fn plain_reserve_all(shared: &PlainShared) -> u64 {
    let one = || black_box(shared).reserve().expect("room").to_bits();
    (0..COUNT).fold(0, |sum, _| sum ^ one())
}

fn plain_reserve_bulks(shared: &PlainShared, list: &mut Vec<plain::Handle>) -> u64 {
    (0..COUNT / BULK).fold(0, |sum, _| {
        list.clear();
        list.extend(black_box(shared).reserve_many(BULK).expect("room"));
        list.iter().fold(sum, |sum, one| sum ^ one.to_bits())
    })
}

fn reserve<const PLACE: usize>() -> Run {
    shift::<PLACE>();
    let (shared, mut reservers) = share(used());
    let run = timed(|| reserve_all(&mut reservers[0]));
    shared.close(reservers).expect("closed");
    run
}

fn plain_reserve<const PLACE: usize>() -> Run {
    shift::<PLACE>();
    let shared = plain_used().share();
    timed(|| plain_reserve_all(&shared))
}

fn bulk<const PLACE: usize>() -> Run {
    shift::<PLACE>();
    let (shared, mut reservers) = share(used());
    let mut list = Vec::with_capacity(BULK as usize);
    let run = timed(|| reserve_bulks(&mut reservers[0], &mut list));
    shared.close(reservers).expect("closed");
    run
}

fn plain_bulk<const PLACE: usize>() -> Run {
    shift::<PLACE>();
    let shared = plain_used().share();
    let mut list = Vec::with_capacity(BULK as usize);
    timed(|| plain_reserve_bulks(&shared, &mut list))
}

fn requests<const PLACE: usize>() -> Run {
    shift::<PLACE>();
    let mut entities = used();
    timed(|| {
        let sum = (0..COUNT).fold(0, |sum, _| {
            sum ^ black_box(&mut entities).request().expect("room").to_bits()
        });
        let mut born = Vec::new();
        entities.flush(&mut born).expect("memory");
        sum ^ free_all(&mut entities, &born)
    })
}

fn plain_requests<const PLACE: usize>() -> Run {
    shift::<PLACE>();
    let mut entities = plain_used();
    timed(|| {
        let sum = (0..COUNT).fold(0, |sum, _| {
            sum ^ black_box(&mut entities).reserve().expect("room").to_bits()
        });
        let mut born = Vec::new();
        entities.flush(&mut born);
        sum ^ plain_free_all(&mut entities, &born)
    })
}

fn phase<const PLACE: usize>() -> Run {
    shift::<PLACE>();
    let entities = used();
    timed(|| {
        let (shared, mut reservers) = share(entities);
        let sum = reserve_all(&mut reservers[0]);
        let mut entities = shared.close(reservers).expect("closed");
        let mut born = Vec::new();
        entities.flush(&mut born).expect("memory");
        sum ^ free_all(&mut entities, &born)
    })
}

fn plain_phase<const PLACE: usize>() -> Run {
    shift::<PLACE>();
    let entities = plain_used();
    timed(|| {
        let shared = entities.share();
        let sum = plain_reserve_all(&shared);
        let mut entities = shared.close();
        let mut born = Vec::new();
        entities.flush(&mut born);
        sum ^ plain_free_all(&mut entities, &born)
    })
}

fn bulks<const PLACE: usize>() -> Run {
    shift::<PLACE>();
    let entities = used();
    let mut list = Vec::with_capacity(BULK as usize);
    timed(|| {
        let (shared, mut reservers) = share(entities);
        let sum = reserve_bulks(&mut reservers[0], &mut list);
        let mut entities = shared.close(reservers).expect("closed");
        let mut born = Vec::new();
        entities.flush(&mut born).expect("memory");
        sum ^ free_all(&mut entities, &born)
    })
}

fn plain_bulks<const PLACE: usize>() -> Run {
    shift::<PLACE>();
    let entities = plain_used();
    let mut list = Vec::with_capacity(BULK as usize);
    timed(|| {
        let shared = entities.share();
        let sum = plain_reserve_bulks(&shared, &mut list);
        let mut entities = shared.close();
        let mut born = Vec::new();
        entities.flush(&mut born);
        sum ^ plain_free_all(&mut entities, &born)
    })
}
