//! The sync point of a queue with commands of all kinds, and of queues with one kind each.

use crate::entities::by_step;
use crate::plain::allocator::Handle as PlainHandle;
use crate::plain::bundle::Bundle;
use crate::plain::world::{Command, World as PlainWorld};
use crate::{line, line_of_two, places, rounds, shift, timed, Run, COUNT};
use forgeni::{ComponentId, Handle, World};
use std::hint::black_box;

/// How many entities the world has, and how many rounds of four commands are issued.
const ENTITIES: u32 = 65_536;
const COMMANDS: u32 = 100_000;

/// The component that every entity has, and the one that comes and goes.
const VALUE: u8 = 0;
const FLAG: u8 = 1;

/// Steps through all entities.
const RISING: u32 = 1;
const SCATTERED: u32 = 7_919;

pub fn lines() {
    line(
        "`apply`, a command, rising",
        COMMANDS,
        places!(rising),
        places!(plain_rising),
        None,
    );
    line(
        "`apply`, a command, scattered",
        COMMANDS,
        places!(scattered),
        places!(plain_scattered),
        None,
    );
}

/// What all commands of a queue do.
#[derive(Clone, Copy)]
enum Kind {
    Spawn,
    Respawn,
    Insert,
    Remove,
    Despawn,
}

/// The kinds. A work names its own by the number here.
const KINDS: [Kind; 5] = [
    Kind::Spawn,
    Kind::Respawn,
    Kind::Insert,
    Kind::Remove,
    Kind::Despawn,
];

/// A line of each kind and order. New slots have one order.
pub fn table() {
    println!("| Command of `apply` | Order | Here | Plain Rust | Ratio | By place |");
    println!("|---|---|---|---|---|---|");
    macro_rules! line_of {
        ($name:literal, $kind:literal, $step:ident) => {
            line_of_two(
                rounds(),
                $name,
                COUNT,
                places!(of_kind, $kind, $step),
                places!(plain_of_kind, $kind, $step),
            )
        };
    }
    line_of!("spawn in a new slot | rising", 0, RISING);
    line_of!("spawn in a slot that was left | rising", 1, RISING);
    line_of!("spawn in a slot that was left | scattered", 1, SCATTERED);
    line_of!("insert | rising", 2, RISING);
    line_of!("insert | scattered", 2, SCATTERED);
    line_of!("remove | rising", 3, RISING);
    line_of!("remove | scattered", 3, SCATTERED);
    line_of!("despawn | rising", 4, RISING);
    line_of!("despawn | scattered", 4, SCATTERED);
}

/// The index of the entity of a round.
fn target(round: u32, step: u32) -> u32 {
    (u64::from(round) * u64::from(step) % u64::from(ENTITIES)) as u32
}

fn rising<const PLACE: usize>() -> Run {
    shift::<PLACE>();
    applied(1)
}

fn scattered<const PLACE: usize>() -> Run {
    shift::<PLACE>();
    applied(SCATTERED)
}

#[inline(always)]
fn applied(step: u32) -> Run {
    let (value, flag) = (ComponentId(VALUE), ComponentId(FLAG));
    let mut world = World::new();
    for _ in 1..ENTITIES {
        world.spawn(&[(value, 7)]).expect("memory");
    }
    world.spawn(&[(value, 7), (flag, 1)]).expect("memory");
    let (open, mut systems) = world.open(1).expect("opened");
    let only = &mut systems[0];
    for round in 0..COMMANDS / 4 {
        let one = Handle::new(target(round, step), 1).expect("a handle");
        let spawned = only.spawn(&[(value, i64::from(round))]).expect("room");
        only.insert(one, &[(flag, i64::from(round))])
            .expect("memory");
        only.remove(one, flag).expect("memory");
        only.despawn(spawned).expect("memory");
    }
    let (mut world, queues) = open.close(systems).expect("closed");
    timed(|| {
        let report = black_box(&mut world).apply(queues).expect("memory");
        (report.born.len() + report.faults.len()) as u64
    })
}

fn plain_rising<const PLACE: usize>() -> Run {
    shift::<PLACE>();
    plain_applied(1)
}

fn plain_scattered<const PLACE: usize>() -> Run {
    shift::<PLACE>();
    plain_applied(SCATTERED)
}

fn bundle(id: u8, value: i64) -> Bundle {
    let mut bundle = Bundle::new();
    bundle.put(id, value);
    bundle
}

#[inline(always)]
fn plain_applied(step: u32) -> Run {
    let mut world = PlainWorld::default();
    let mut items = bundle(VALUE, 7);
    for ordinal in 1..ENTITIES {
        world.spawn(ordinal, items.items()).expect("a slot");
    }
    items.put(FLAG, 1);
    world.spawn(0, items.items()).expect("a slot");
    let mut queue = Vec::new();
    for round in 0..COMMANDS / 4 {
        let (index, generation) = (target(round, step), 1);
        let one = PlainHandle { index, generation };
        let spawned = world.entities.reserve().expect("a slot");
        queue.push(Command::Spawn(spawned, bundle(VALUE, i64::from(round))));
        queue.push(Command::Insert(one, bundle(FLAG, i64::from(round))));
        queue.push(Command::Remove(one, FLAG));
        queue.push(Command::Despawn(spawned));
    }
    let queues = [queue];
    timed(|| {
        let report = black_box(&mut world).apply(&queues);
        (report.born.len() + report.faults.len()) as u64
    })
}

/// Commands of one kind, one for each entity of a world.
fn of_kind<const KIND: usize, const STEP: u32, const PLACE: usize>() -> Run {
    shift::<PLACE>();
    let (value, flag) = (ComponentId(VALUE), ComponentId(FLAG));
    let mut world = World::new();
    let first = world.spawn(&[(value, 7), (flag, 1)]).expect("memory");
    let others = (1..COUNT).map(|_| world.spawn(&[(value, 7)]).expect("memory"));
    let all: Vec<Handle> = [first].into_iter().chain(others).collect();
    let targets = || by_step(STEP).map(|at| all[at as usize]);
    if let Kind::Respawn = KINDS[KIND] {
        for one in targets() {
            world.despawn(one).expect("alive");
        }
    }
    let (open, mut systems) = world.open(1).expect("opened");
    let only = &mut systems[0];
    for (number, one) in (0..).zip(targets()) {
        match KINDS[KIND] {
            Kind::Spawn | Kind::Respawn => only.spawn(&[(value, number)]).map(drop).expect("room"),
            Kind::Insert => only.insert(one, &[(flag, number)]).expect("memory"),
            Kind::Remove => only.remove(one, value).expect("memory"),
            Kind::Despawn => only.despawn(one).expect("memory"),
        }
    }
    let (mut world, queues) = open.close(systems).expect("closed");
    let run = timed(|| {
        let report = black_box(&mut world).apply(queues).expect("memory");
        (report.born.len() + report.faults.len()) as u64
    });
    let left = all
        .iter()
        .flat_map(|one| [value, flag].map(|id| world.get(*one, id)));
    seen(run, world.len(), left)
}

/// The same commands to a world in plain Rust.
fn plain_of_kind<const KIND: usize, const STEP: u32, const PLACE: usize>() -> Run {
    shift::<PLACE>();
    let mut world = PlainWorld::default();
    let mut items = bundle(VALUE, 7);
    items.put(FLAG, 1);
    let first = world.spawn(0, items.items()).expect("a slot");
    let items = bundle(VALUE, 7);
    let others = (1..COUNT).map(|ordinal| world.spawn(ordinal, items.items()).expect("a slot"));
    let all: Vec<PlainHandle> = [first].into_iter().chain(others).collect();
    let targets = || by_step(STEP).map(|at| all[at as usize]);
    if let Kind::Respawn = KINDS[KIND] {
        world.apply(&[targets().map(Command::Despawn).collect()]);
    }
    let mut queue = Vec::new();
    for (number, one) in (0..).zip(targets()) {
        queue.push(match KINDS[KIND] {
            Kind::Spawn | Kind::Respawn => {
                let spawned = world.entities.reserve().expect("a slot");
                Command::Spawn(spawned, bundle(VALUE, number))
            }
            Kind::Insert => Command::Insert(one, bundle(FLAG, number)),
            Kind::Remove => Command::Remove(one, VALUE),
            Kind::Despawn => Command::Despawn(one),
        });
    }
    let queues = [queue];
    let run = timed(|| {
        let report = black_box(&mut world).apply(&queues);
        (report.born.len() + report.faults.len()) as u64
    });
    let storage = &world.storage;
    let left = all
        .iter()
        .flat_map(|one| [VALUE, FLAG].map(|id| storage.get(*one, id)));
    seen(run, storage.len(), left)
}

/// The run, with how many live and the values of those of before in its sum.
fn seen(run: Run, living: usize, left: impl Iterator<Item = Option<i64>>) -> Run {
    let values = left.fold(0, |sum: u64, value| {
        sum.rotate_left(1) ^ value.map_or(u64::MAX, |value| value as u64)
    });
    let sum = (run.sum + living as u64).wrapping_add(values);
    Run { sum, ..run }
}
