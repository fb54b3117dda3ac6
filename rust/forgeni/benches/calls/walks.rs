//! Walks over maps, and a despawn from five of them, beside what a program writes by hand.

use crate::{line_of_two, places, rounds, shift, timed, Run, COUNT};
use forgeni::{tables, Entities, Follows, Handle, HandleMap, JoinMaps, SparseMap, Tracked};
use std::hint::black_box;

tables! {
    #[derive(Clone)]
    struct Parts {
        place: HandleMap<u64>,
        speed: HandleMap<u64>,
        mass: HandleMap<u64>,
        name: SparseMap<u64>,
        team: SparseMap<u64>,
    }
}

/// Each entity has a place and a speed, and every third one a mass.
fn parts() -> (Entities, Vec<Handle>, Parts) {
    let (mut entities, mut parts) = (Entities::new(), Parts::default());
    let all = entities.alloc_many(COUNT).expect("memory");
    for (number, one) in (0..).zip(&all) {
        parts.place.insert(*one, number).expect("memory");
        parts.speed.insert(*one, number % 7).expect("memory");
        parts.team.insert(*one, number % 2).expect("memory");
        parts.name.insert(*one, number).expect("memory");
        if number % 3 == 0 {
            parts.mass.insert(*one, 1 + number % 5).expect("memory");
        }
    }
    (entities, all, parts)
}

/// How often a walk goes over all.
const TIMES: u64 = 8;

macro_rules! walks {
    ($($work:ident, $by_hand:ident: |$parts:ident| $ours:expr, $plain:expr;)*) => {$(
        fn $work<const PLACE: usize>() -> Run {
            let (_, _, mut parts) = parts();
            shift::<PLACE>();
            timed(|| (0..TIMES).map(|_| {
                let $parts = black_box(&mut parts);
                $ours
            }).sum())
        }

        fn $by_hand<const PLACE: usize>() -> Run {
            let (_, _, mut parts) = parts();
            shift::<PLACE>();
            timed(|| (0..TIMES).map(|_| {
                let $parts = black_box(&mut parts);
                $plain
            }).sum())
        }
    )*};
}

walks! {
    join, join_by_hand: |parts| {
        let mut sum = 0;
        for (_, place, speed, team) in (&mut parts.place, &parts.speed, &parts.team).join() {
            *place += speed * team;
            sum += *place;
        }
        sum
    }, {
        let mut sum = 0;
        for (one, place) in parts.place.iter_mut() {
            if let (Some(speed), Some(team)) = (parts.speed.get(one), parts.team.get(one)) {
                *place += speed * team;
                sum += *place;
            }
        }
        sum
    };
    join_rare, join_rare_by_hand: |parts| {
        let mut sum = 0;
        for (_, place, speed, mass) in (&mut parts.place, &parts.speed, &parts.mass).join() {
            *place += speed * mass;
            sum += *place;
        }
        sum
    }, {
        let mut sum = 0;
        for (one, mass) in &parts.mass {
            if let (Some(place), Some(speed)) = (parts.place.get_mut(one), parts.speed.get(one)) {
                *place += speed * mass;
                sum += *place;
            }
        }
        sum
    };
    join_each, join_each_by_hand: |parts| {
        let mut sum = 0;
        let walk = (&parts.place, &parts.speed, &parts.team).join();
        walk.for_each(|(_, place, speed, team)| sum += place ^ (speed * team));
        sum
    }, {
        let mut sum = 0;
        for (one, place) in &parts.place {
            if let (Some(speed), Some(team)) = (parts.speed.get(one), parts.team.get(one)) {
                sum += place ^ (speed * team);
            }
        }
        sum
    };
    sum, sum_by_hand: |parts| parts.place.values().sum::<u64>(), {
        let mut sum = 0;
        for (_, it) in &parts.place {
            sum += it;
        }
        sum
    };
    sum_mut, sum_mut_by_hand: |parts| {
        parts.place.iter_mut().fold(0, |sum, (_, it)| {
            *it += 1;
            sum + *it
        })
    }, {
        let mut sum = 0;
        for (_, it) in &mut parts.place {
            *it += 1;
            sum += *it;
        }
        sum
    };
}

/// As `sum_mut_by_hand`, over a map that keeps the tick of each change.
fn tracked<const PLACE: usize>() -> Run {
    let (_, _, parts) = parts();
    let mut places = Tracked::new(parts.place, 0);
    shift::<PLACE>();
    timed(|| {
        let ticks = (1..=TIMES).map(|tick| {
            let mut sum = 0;
            for (_, it) in black_box(&mut places).map_mut(tick) {
                *it += 1;
                sum += *it;
            }
            sum
        });
        ticks.sum()
    })
}

/// As `sum_by_hand`.
fn tracked_sum<const PLACE: usize>() -> Run {
    let (_, _, parts) = parts();
    let mut places = Tracked::new(parts.place, 0);
    shift::<PLACE>();
    timed(|| {
        let sums = (0..TIMES).map(|_| {
            let mut sum = 0;
            for (_, it) in black_box(&mut places).iter() {
                sum += it;
            }
            sum
        });
        sums.sum()
    })
}

/// One by one.
fn tracked_each<const PLACE: usize>() -> Run {
    let (_, all, parts) = parts();
    let mut places = Tracked::new(parts.place, 0);
    places.reserve_ticks().expect("memory");
    shift::<PLACE>();
    timed(|| {
        let ticks = (1..=TIMES).map(|tick| {
            let mut sum = 0;
            for one in &all {
                let it = black_box(&mut places).get_mut(*one, tick);
                let it = it.expect("memory").expect("a value");
                *it += 1;
                sum += *it;
            }
            sum
        });
        ticks.sum()
    })
}

fn each_by_hand<const PLACE: usize>() -> Run {
    let (_, all, parts) = parts();
    let mut places = parts.place;
    shift::<PLACE>();
    timed(|| {
        let rounds = (0..TIMES).map(|_| {
            let mut sum = 0;
            for one in &all {
                let it = black_box(&mut places).get_mut(*one).expect("a value");
                *it += 1;
                sum += *it;
            }
            sum
        });
        rounds.sum()
    })
}

/// What has changed since a tick, where one in a hundred has, and a walk over all.
fn tracked_changed<const PLACE: usize>() -> Run {
    let (_, all, parts) = parts();
    let mut places = Tracked::new(parts.place, 0);
    for one in all.iter().step_by(100) {
        places.get_mut(*one, 1).expect("memory");
    }
    shift::<PLACE>();
    timed(|| {
        let sums = (0..TIMES).map(|_| {
            let mut sum = 0;
            for (_, it) in black_box(&mut places).changed_since(1) {
                sum += it;
            }
            sum
        });
        sums.sum()
    })
}

fn changed_by_hand<const PLACE: usize>() -> Run {
    let (_, _, mut parts) = parts();
    shift::<PLACE>();
    timed(|| {
        let sums = (0..TIMES).map(|_| {
            let mut sum = 0;
            for (one, it) in &black_box(&mut parts).place {
                sum += *it * u64::from(one.index() % 100 == 0);
            }
            sum
        });
        sums.sum()
    })
}

fn despawn<const PLACE: usize>() -> Run {
    let (mut entities, all, mut parts) = parts();
    shift::<PLACE>();
    timed(|| {
        for one in &all {
            let freed = parts.despawn(black_box(&mut entities), *one);
            freed.expect("alive");
        }
        all.len() as u64
    })
}

fn despawn_by_hand<const PLACE: usize>() -> Run {
    let (mut entities, all, mut parts) = parts();
    shift::<PLACE>();
    timed(|| {
        for one in &all {
            black_box(&mut entities).free(*one).expect("alive");
            parts.place.remove(*one);
            parts.speed.remove(*one);
            parts.mass.remove(*one);
            parts.name.remove(*one);
            parts.team.remove(*one);
        }
        all.len() as u64
    })
}

pub fn table() {
    println!("| Work over maps | Here | By hand | Ratio | By place |");
    println!("|---|---|---|---|---|");
    let (rounds, steps) = (rounds(), COUNT * TIMES as u32);
    let name = "despawn from five maps";
    line_of_two(
        rounds,
        name,
        COUNT,
        places!(despawn),
        places!(despawn_by_hand),
    );
    let name = "`join` of three maps, an entity";
    line_of_two(rounds, name, steps, places!(join), places!(join_by_hand));
    let name = "`join` by the map with a third of the values";
    line_of_two(
        rounds,
        name,
        steps,
        places!(join_rare),
        places!(join_rare_by_hand),
    );
    let name = "`join` and `for_each`";
    line_of_two(
        rounds,
        name,
        steps,
        places!(join_each),
        places!(join_each_by_hand),
    );
    let name = "`values().sum()`, beside a `for`";
    line_of_two(rounds, name, steps, places!(sum), places!(sum_by_hand));
    let name = "`iter_mut().fold()`, beside a `for`";
    line_of_two(
        rounds,
        name,
        steps,
        places!(sum_mut),
        places!(sum_mut_by_hand),
    );
    let name = "a change of tracked values, beside plain ones";
    line_of_two(
        rounds,
        name,
        steps,
        places!(tracked),
        places!(sum_mut_by_hand),
    );
    let name = "a `for` over tracked values, beside plain ones";
    line_of_two(
        rounds,
        name,
        steps,
        places!(tracked_sum),
        places!(sum_by_hand),
    );
    let name = "`get_mut` of each tracked value, beside plain ones";
    line_of_two(
        rounds,
        name,
        steps,
        places!(tracked_each),
        places!(each_by_hand),
    );
    let name = "`changed_since`, one in 100, beside a `for` over all";
    line_of_two(
        rounds,
        name,
        steps,
        places!(tracked_changed),
        places!(changed_by_hand),
    );
}
