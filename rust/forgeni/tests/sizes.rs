//! One run above 70,000 of each thing that grows. All memory is there, so a call that says there is
//! none says so in vain, and fails here. No contract tells the two apart.
//!
//! These tests are for optimised code: `cargo test --release --test sizes`, as
//! `examples/at_size.sh` runs them. Without optimisation they would take a minute.

use forgeni::trace::{Call, Checker, FreeReply, Recorder, Reservation};
use forgeni::{Birth, ComponentId, Entities, Fault, FaultKind};
use forgeni::{Freed, Handle, HandleMap, Limits, Queues, ReserveError, ShareError, State};
use forgeni::{OpenWorld, Reserver, Storage, World};

/// How many there are of most things.
const MANY: u32 = 70_001;

const HP: ComponentId = ComponentId(0);

fn handle(index: u32, generation: u32) -> Handle {
    Handle::new(index, generation).expect("a handle")
}

/// What a flush brings to life.
fn flushed(entities: &mut Entities) -> Vec<Handle> {
    let mut born = vec![];
    entities.flush(&mut born).expect("memory is ample");
    born
}

fn nth_birth(frame: u64, system: u32, ordinal: u32) -> Birth {
    Birth {
        frame,
        system,
        ordinal,
    }
}

/// An allocator whose slots all gave their first handle.
fn with_slots(count: u32) -> Entities {
    let mut entities = Entities::new();
    for index in 0..count {
        assert_eq!(entities.alloc(), Ok(handle(index, 1)));
    }
    entities
}

#[test]
#[cfg_attr(debug_assertions, ignore = "for optimised code")]
fn slots_and_waiting_slots() {
    let count = 1 << 23;
    let mut entities = with_slots(count);
    assert_eq!((entities.len(), entities.total()), (count, count));
    for index in 0..count {
        let next = Some(handle(index, 2));
        assert_eq!(entities.free(handle(index, 1)), Ok(Freed { next }));
    }
    assert_eq!((entities.len(), entities.top()), (0, count));
    // The slot that was freed last comes first.
    for index in (0..count).rev() {
        assert_eq!(entities.alloc(), Ok(handle(index, 2)));
    }
    assert_eq!((entities.len(), entities.top()), (count, 0));
}

#[test]
#[cfg_attr(debug_assertions, ignore = "for optimised code")]
fn values_by_handle() {
    let count = 1 << 22;
    let mut entities = Entities::new();
    let all = entities.alloc_many(count).expect("memory is ample");
    assert!(entities.iter().eq(all.iter().copied()));
    let mut map = HandleMap::new();
    for one in &all {
        let inserted = map.insert(*one, u64::from(one.index()));
        assert_eq!(inserted.expect("memory is ample"), None);
    }
    assert_eq!((map.len(), map.iter().len()), (all.len(), all.len()));
    map.retain(|one, value| {
        *value += 1;
        one.index() % 2 == 0
    });
    assert!(map.values().copied().eq((1..u64::from(count)).step_by(2)));
    // The next occupants get theirs, in the order in which the slots come.
    for one in &all {
        entities.free(*one).expect("memory is ample");
    }
    for one in entities.alloc_many(count).expect("memory is ample") {
        assert_eq!(map.insert(one, 7).expect("there is room"), None);
    }
    assert_eq!(map.len(), all.len());
    assert!(map
        .into_iter()
        .all(|(one, value)| one.generation() == 2 && value == 7));
}

/// Room for as many slots as may be asked for, and a value in a slot far behind all others.
#[test]
#[cfg_attr(debug_assertions, ignore = "for optimised code")]
fn room_for_values() {
    for slots in [100_001, 300_001, 1 << 22] {
        let map = HandleMap::<u64>::with_capacity(slots).expect("memory is ample");
        assert!(map.capacity() >= slots);
        let mut map = HandleMap::<u64>::new();
        map.reserve(slots).expect("memory is ample");
        map.reserve(2 * slots).expect("memory is ample");
        assert!(map.capacity() >= 2 * slots);
        let mut map = HandleMap::new();
        let last = handle(slots as u32 - 1, 1);
        assert_eq!(map.insert(last, 7).expect("memory is ample"), None);
        let mut clone = map.clone();
        clone.extend((0..slots as u32).map(|index| (handle(index, 1), 8)));
        assert_eq!((clone.len(), clone[last], map[last]), (slots, 8, 7));
        assert_eq!(clone.into_iter().len(), slots);
    }
}

/// A run with that many reservations, each of a caller of its own, and their flush.
#[test]
#[cfg_attr(debug_assertions, ignore = "for optimised code")]
fn runs_of_a_trace() {
    let run: Vec<Reservation> = (0..MANY)
        .map(|caller| Reservation::new(MANY - caller, 1, handle(caller, 1)))
        .collect();
    let all: Vec<Handle> = (0..MANY).map(|index| handle(index, 1)).collect();
    let mut checker = Checker::new(Limits::GREATEST);
    checker.run(run).expect("memory is ample");
    checker.flush(&all[..]).expect("memory is ample");
    checker.len(MANY).expect("it agrees");
    // One reservation of that many.
    let next: Vec<Handle> = (MANY..2 * MANY).map(|index| handle(index, 1)).collect();
    let one = checker.reserve(0, MANY, &next[..]);
    one.expect("memory is ample");
    checker.flush(&next[..]).expect("memory is ample");
    checker.finish().expect("it agrees");
}

/// That many calls, and differences after them, also of a flush of that many.
#[test]
#[cfg_attr(debug_assertions, ignore = "for optimised code")]
fn lines_of_a_trace() {
    let called = || {
        let mut checker = Checker::new(Limits::GREATEST);
        for index in 0..MANY {
            checker.alloc(handle(index, 1)).expect("memory is ample");
            checker.len(index + 1).expect("it agrees");
        }
        checker
    };
    let line = u64::from(2 * MANY + 1);
    let text = format!("differs line {line}: len => 1, expected {MANY}");
    let wrong = called().len(1).expect_err("there are more");
    assert_eq!(wrong.to_string(), text);

    let mut checker = called();
    for index in 0..MANY {
        let one = handle(index, 1);
        let next = FreeReply::Next(handle(index, 2));
        checker.free(one, next).expect("memory is ample");
        checker.state(one, State::Gone).expect("it agrees");
    }
    let mut told: Vec<Handle> = (0..MANY).rev().map(|index| handle(index, 2)).collect();
    for one in &told {
        checker.reserve(3, 1, *one).expect("memory is ample");
    }
    // The slot that was freed first, so given last, comes to life first.
    let wrong = checker.flush(&told[..]).expect_err("the other order");
    let difference = wrong.difference().expect("a difference");
    assert_eq!(difference.number, u64::from(5 * MANY + 1));
    assert_eq!(difference.told, Call::Flush(Some(told.clone().into())));
    told.reverse();
    assert_eq!(difference.expected, Call::Flush(Some(told.into())));
    let text = wrong.to_string();
    assert!(
        text.ends_with(&format!(" {}v2", MANY - 1)),
        "{}",
        text.len()
    );
}

/// Logs of that many reservations.
#[test]
#[cfg_attr(debug_assertions, ignore = "for optimised code")]
fn logs_of_a_trace() {
    let mut recorder = Recorder::new(Limits::GREATEST, 2).expect("memory is ample");
    for index in 0..2 * MANY {
        let log = &mut recorder.logs()[index as usize % 2];
        log.push(1, handle(index, 1)).expect("memory is ample");
    }
    recorder.len(0).expect("they agree");
    assert_eq!(recorder.calls(), u64::from(2 * MANY) + 1);
    recorder.finish().expect("they agree");
}

#[test]
#[cfg_attr(debug_assertions, ignore = "for optimised code")]
fn generations_and_retired_slots() {
    let mut entities = Entities::with_limits(Limits::new(1, MANY).expect("limits"));
    for generation in 1..=MANY {
        let one = entities.alloc().expect("a slot that waits");
        assert_eq!(one, handle(0, generation));
        let next = Handle::new(0, generation + 1).filter(|_| generation < MANY);
        assert_eq!(entities.free(one), Ok(Freed { next }));
    }
    assert_eq!(entities.retired(), 1);

    let mut entities = Entities::with_limits(Limits::new(MANY + 1, 1).expect("limits"));
    for index in 0..MANY {
        let one = entities.alloc().expect("a new slot");
        assert_eq!(one, handle(index, 1));
        assert_eq!(entities.free(one), Ok(Freed { next: None }));
    }
    assert_eq!((entities.retired(), entities.top()), (MANY, 0));
    assert_eq!(entities.alloc(), Ok(handle(MANY, 1)));
}

/// Of a flush, the handles of new slots come first, and then those of the slots that were freed,
/// the one first that was freed first.
#[test]
#[cfg_attr(debug_assertions, ignore = "for optimised code")]
fn reserved_at_one_flush() {
    let (waiting, fresh) = (1 << 22, 1 << 20);
    let mut entities = with_slots(waiting);
    for index in 0..waiting {
        entities.free(handle(index, 1)).expect("alive");
    }
    for _ in 0..waiting + fresh {
        entities.request().expect("the pool is ample");
    }
    assert_eq!(entities.reserved(), waiting + fresh);
    let born = flushed(&mut entities);
    let new = (waiting..waiting + fresh).map(|index| handle(index, 1));
    let old = (0..waiting).map(|index| handle(index, 2));
    assert!(born.into_iter().eq(new.chain(old)));
    assert_eq!((entities.len(), entities.top()), (waiting + fresh, 0));
}

/// A list of 2^24 handles, whose room is given back before the flush makes one of its own.
#[test]
#[cfg_attr(debug_assertions, ignore = "for optimised code")]
fn one_reservation_of_2_to_the_24() {
    let count = 1 << 24;
    let (shared, mut reservers) = Entities::new().share(1).expect("memory is ample");
    let given = reservers[0].reserve_many(count).expect("memory is ample");
    assert!(given
        .iter()
        .copied()
        .eq((0..count).map(|index| handle(index, 1))));
    drop(given);
    let mut entities = shared.close(reservers).expect("all are there");
    assert_eq!(entities.state(handle(count - 1, 1)), State::Reserved);
    assert_eq!(flushed(&mut entities).len(), count as usize);
    assert_eq!((entities.len(), entities.total()), (count, count));
}

/// A list of 2^31 handles would take 16 GiB. No call asks for it, since there are fewer slots.
#[test]
#[cfg_attr(debug_assertions, ignore = "for optimised code")]
fn one_reservation_of_2_to_the_31() {
    let (wanted, left) = (1 << 31, MANY);
    let entities = Entities::with_limits(Limits::new(left, 1).expect("limits"));
    let (shared, mut reservers) = entities.share(1).expect("memory is ample");
    let refused = ReserveError::Space { wanted, left };
    assert_eq!(reservers[0].reserve_many(wanted), Err(refused));
    assert_eq!(reservers[0].quota_left(), (1 << 40) - u64::from(wanted));
    // The pool is shut.
    let refused = ReserveError::Space { wanted: 1, left: 0 };
    assert_eq!(reservers[0].reserve_many(1), Err(refused));
    let mut entities = shared.close(reservers).expect("all are there");
    assert_eq!(flushed(&mut entities), vec![]);
}

/// Births come in another order than handles.
#[test]
#[cfg_attr(debug_assertions, ignore = "for optimised code")]
fn births_listed_by_order() {
    let mut storage = Storage::new();
    // 7,919 and 70,001 have no common divisor, so each birth stands once.
    let number = |index: u32| (u64::from(index) * 7_919 % u64::from(MANY)) as u32;
    for index in 0..MANY {
        let birth = nth_birth(
            u64::from(number(index) / 1_000),
            number(index) / 10 % 100,
            number(index),
        );
        storage
            .born(handle(index, 1), birth)
            .expect("memory is ample");
        storage
            .insert(handle(index, 1), &[(HP, i64::from(index))])
            .expect("memory is ample");
    }
    let listed = storage.by_birth().expect("memory is ample");
    let births: Vec<_> = listed
        .iter()
        .map(|one| storage.birth(*one).expect("there"))
        .collect();
    assert_eq!(births.len(), MANY as usize);
    assert!(births.windows(2).all(|two| two[0] < two[1]));
    for one in listed {
        assert_eq!(storage.remove(one, HP), Ok(Some(i64::from(one.index()))));
        storage.despawn(one).expect("there");
    }
    assert!(storage.is_empty());
}

/// The world and queues of a phase, each of whose systems did this.
fn issued(world: World, count: usize, issue: impl Fn(&mut Reserver<OpenWorld>)) -> (World, Queues) {
    let (open, mut systems) = world.open(count).expect("memory is ample");
    systems.iter_mut().for_each(issue);
    open.close(systems).expect("all are there")
}

#[test]
#[cfg_attr(debug_assertions, ignore = "for optimised code")]
fn commands_of_one_queue() {
    let (mut world, queues) = issued(World::new(), 1, |system| {
        for value in 0..i64::from(MANY) {
            let one = system.spawn(&[(HP, value)]).expect("memory is ample");
            system
                .insert(one, &[(HP, value + 1)])
                .expect("memory is ample");
        }
    });
    let report = world.apply(queues).expect("memory is ample");
    assert_eq!((report.born.len(), report.faults.len()), (MANY as usize, 0));
    assert_eq!(world.len(), MANY as usize);
    let values = |world: &World| -> Vec<_> {
        let all = world.by_birth().expect("memory is ample");
        all.into_iter().map(|one| world.get(one, HP)).collect()
    };
    assert!(values(&world)
        .into_iter()
        .eq((1..=i64::from(MANY)).map(Some)));

    let all = world.by_birth().expect("memory is ample");
    let (mut world, queues) = issued(world, 1, |system| {
        for one in &all {
            system.remove(*one, HP).expect("memory is ample");
        }
    });
    world.apply(queues).expect("memory is ample");
    assert!(values(&world).into_iter().eq((0..MANY).map(|_| None)));
}

/// As many entities of one command, each with more components than lie in a bundle itself.
#[test]
#[cfg_attr(debug_assertions, ignore = "for optimised code")]
fn entities_of_one_command() {
    let bundle: Vec<_> = (0..6).map(|id| (ComponentId(id), i64::from(id))).collect();
    let (mut world, queues) = issued(World::new(), 1, |system| {
        let given = system.spawn_many(MANY, &bundle).expect("memory is ample");
        assert_eq!(given.len(), MANY as usize);
    });
    let report = world.apply(queues).expect("memory is ample");
    let born = report.born.iter().copied();
    assert!(born.eq((0..MANY).map(|index| handle(index, 1))));
    for index in 0..MANY {
        assert_eq!(world.birth(handle(index, 1)), Some(nth_birth(0, 0, index)));
        let items = world.items(handle(index, 1)).expect("alive");
        assert!(items.eq(bundle.iter().copied()));
    }
}

/// A world that is filled and emptied without a phase. The births number all of them, and of the
/// slots the one that was freed last is first.
#[test]
#[cfg_attr(debug_assertions, ignore = "for optimised code")]
fn entities_of_a_world() {
    let mut world = World::new();
    for generation in 1..=2 {
        for value in 0..MANY {
            world.spawn(&[(HP, value.into())]).expect("memory is ample");
        }
        let all = world.by_birth().expect("memory is ample");
        assert_eq!(all.len(), MANY as usize);
        for (number, one) in (0..).zip(all) {
            let index = if generation == 1 {
                number
            } else {
                MANY - 1 - number
            };
            assert_eq!(one, handle(index, generation));
            let ordinal = (generation - 1) * MANY + number;
            let birth = nth_birth(0, Birth::NO_SYSTEM, ordinal);
            assert_eq!(world.birth(one), Some(birth));
            world.despawn(one).expect("alive");
        }
        assert!(world.is_empty());
    }
}

/// Each command but the first is on an entity that is gone.
#[test]
#[cfg_attr(debug_assertions, ignore = "for optimised code")]
fn faults_of_one_sync_point() {
    let mut world = World::new();
    let one = world.spawn(&[]).expect("memory is ample");
    let (mut world, queues) = issued(world, 2, |system| {
        for _ in 0..MANY {
            system.despawn(one).expect("memory is ample");
        }
    });
    let report = world.apply(queues).expect("memory is ample");
    let all = (0..2).flat_map(|system| (0..MANY as usize).map(move |command| (system, command)));
    let faults = all.skip(1).map(|(system, command)| Fault {
        system,
        command,
        kind: FaultKind::NotAlive(one),
    });
    assert!(report.faults.iter().copied().eq(faults));
}

/// Phases of each number of reservers that there may be, each of whom reserves one handle.
#[test]
#[cfg_attr(debug_assertions, ignore = "for optimised code")]
fn reservers_of_a_phase() {
    let mut entities = Entities::new();
    let mut total = 0;
    for count in 1..=1_024 {
        let (shared, mut reservers) = entities.share(count).expect("memory is ample");
        assert_eq!(reservers.len(), count);
        for (number, reserver) in reservers.iter_mut().enumerate() {
            assert_eq!(reserver.reserve(), Ok(handle(total + number as u32, 1)));
        }
        entities = shared.close(reservers).expect("all are there");
        assert_eq!(flushed(&mut entities).len(), count);
        total += count as u32;
    }
    assert_eq!(entities.len(), total);
    for count in [0, 1_025] {
        let refused = entities.share(count).expect_err("out of the range");
        assert_eq!(refused.error(), &ShareError::Count);
        entities = refused.into_parts().0;
    }
}

/// Phases of each number of queues that there may be, each of which spawns one entity.
#[test]
#[cfg_attr(debug_assertions, ignore = "for optimised code")]
fn queues_of_a_phase() {
    let mut world = World::new();
    for count in 1..=1_024 {
        let opened = issued(world, count, |system| {
            let value = system.number() as i64;
            system.spawn(&[(HP, value)]).expect("memory is ample");
        });
        world = opened.0;
        let report = world.apply(opened.1).expect("memory is ample");
        let born = report.born;
        assert_eq!(born.len(), count);
        let last = world.birth(born[count - 1]);
        assert_eq!(last, Some(nth_birth(count as u64 - 1, count as u32 - 1, 0)));
        assert_eq!(world.get(born[count - 1], HP), Some(count as i64 - 1));
    }
    assert_eq!(world.len(), 1_024 * 1_025 / 2);
    for count in [0, 1_025] {
        let refused = world.open(count).expect_err("out of the range");
        assert_eq!(refused.error(), &ShareError::Count);
        world = refused.into_parts().0;
    }
}

#[cfg(feature = "std")]
mod frames {
    use super::*;
    use forgeni::{run_frame, FrameError, OutOfMemory, StdThreads, SystemCommands, View};

    fn launch(_: &View<'_>, commands: &mut SystemCommands<'_>) -> Result<(), OutOfMemory> {
        let one = commands.spawn_with(&[(HP, 1)]);
        one.map_or_else(|refused| refused.or_memory(), |_| Ok(()))
    }

    /// As many systems as a frame may have, on one worker and on as many as it may have.
    #[test]
    #[cfg_attr(debug_assertions, ignore = "for optimised code")]
    fn systems_of_a_frame() {
        type Launch = fn(&View<'_>, &mut SystemCommands<'_>) -> Result<(), OutOfMemory>;
        let mut systems: Vec<Launch> = vec![launch; 65_536];
        let mut world = World::new();
        for (frame, workers) in [(0, 1), (1, 64)] {
            let report =
                run_frame(&StdThreads, &mut world, &systems, workers).expect("memory is ample");
            assert_eq!((report.born.len(), report.faults.len()), (65_536, 0));
            let all = world.by_birth().expect("memory is ample");
            let births = all
                .into_iter()
                .skip(65_536 * frame)
                .map(|one| world.birth(one));
            let system = |system| Some(nth_birth(frame as u64, system, 0));
            assert!(births.eq((0..65_536).map(system)));
        }
        let refused =
            run_frame(&StdThreads, &mut world, &systems, 65).expect_err("too many workers");
        assert!(matches!(refused, FrameError::Workers));
        systems.push(launch);
        let refused =
            run_frame(&StdThreads, &mut world, &systems, 1).expect_err("too many systems");
        assert!(matches!(refused, FrameError::Systems));
        assert_eq!(world.len(), 2 * 65_536);
    }

    /// A frame whose one system spawns that many singly, and one whose systems list all of them.
    #[test]
    #[cfg_attr(debug_assertions, ignore = "for optimised code")]
    fn entities_of_a_frame() {
        let spawn = |_: &View<'_>, commands: &mut SystemCommands<'_>| {
            for _ in 0..MANY {
                commands
                    .spawn_with(&[(HP, 0)])
                    .map_or_else(|why| why.or_memory(), |_| Ok(()))?;
            }
            Ok::<(), OutOfMemory>(())
        };
        let age = |view: &View<'_>, commands: &mut SystemCommands<'_>| {
            let all = view.by_birth()?;
            assert_eq!(all, view.with(HP)?);
            all.into_iter()
                .try_for_each(|one| commands.insert_with(one, &[(HP, 1)]))
        };
        let mut world = World::new();
        let report = run_frame(&StdThreads, &mut world, &[spawn], 1).expect("memory is ample");
        let born = report.born;
        assert_eq!(born.len(), MANY as usize);
        run_frame(&StdThreads, &mut world, &[age, age], 2).expect("memory is ample");
        assert!(born.iter().all(|one| world.get(*one, HP) == Some(1)));
    }
}
