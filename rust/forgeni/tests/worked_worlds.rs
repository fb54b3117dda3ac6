//! Worked examples of a world and its phases, written by hand.

use crate::common::handle;
use forgeni::{
    AllocError, Birth, CloseError, ComponentId, Fault, FaultKind, FreeError, Freed, Limits,
    ReserveError, ShareError, SyncError, World,
};

const HP: ComponentId = ComponentId(0);
const SPEED: ComponentId = ComponentId(1);

fn small(slots: u32, generations: u32) -> World {
    World::with_limits(Limits::new(slots, generations).expect("limits"))
}

#[test]
fn entities_come_and_go() {
    let mut world = small(2, 2);
    assert!(world.is_empty());
    let hero = world
        .spawn(&[(SPEED, 4), (HP, 20), (SPEED, 5)])
        .expect("a handle");
    assert_eq!(hero, handle(0, 1));
    assert_eq!(
        world.items(hero).map(Vec::from_iter),
        Some(vec![(HP, 20), (SPEED, 5)])
    );
    let born = Birth {
        frame: 0,
        system: Birth::NO_SYSTEM,
        ordinal: 0,
    };
    assert_eq!(world.birth(hero), Some(born));
    assert_eq!(world.spawn(&[]), Ok(handle(1, 1)));
    assert_eq!(world.spawn(&[]), Err(AllocError::Space));
    let next = Some(handle(0, 2));
    assert_eq!(world.despawn(hero), Ok(Freed { next }));
    assert_eq!(world.despawn(hero), Err(FreeError::NotAlive));
    assert_eq!(world.get(hero, HP), None);
    assert_eq!(world.items(hero).map(Vec::from_iter), None);
    assert_eq!(world.spawn(&[]), Ok(handle(0, 2)));
    assert_eq!(world.despawn(handle(0, 2)), Ok(Freed { next: None }));
    assert_eq!((world.len(), world.retired(), world.frame()), (1, 1, 0));
}

/// The commands of the first queue take effect first, whichever system reserved first.
/// The entities spawned between two flushes have consecutive numbers. Neither a refusal nor a phase
/// without a flush starts the numbers anew.
#[test]
fn spawned_between_two_flushes() {
    fn spawned(world: &mut World) -> String {
        let one = world.spawn(&[]).expect("a handle");
        world.birth(one).expect("alive").to_string()
    }
    let mut world = small(6, 2);
    assert_eq!(spawned(&mut world), "0.4294967295.0");
    assert_eq!(spawned(&mut world), "0.4294967295.1");
    world.despawn(handle(1, 1)).expect("alive");

    let (mut world, _) = world.open(0).expect_err("no systems").into_parts();
    assert_eq!(spawned(&mut world), "0.4294967295.2");

    let (open, systems) = world.open(1).expect("opened");
    let ((open, _), _) = open.close(vec![]).expect_err("missing").into_parts();
    let (mut world, _) = open.close(systems).expect("closed");
    assert_eq!(spawned(&mut world), "0.4294967295.3");

    let (open, systems) = world.open(1).expect("opened");
    drop(systems);
    let (mut world, _) = open.close_lost(vec![]).expect("nobody is there");
    assert_eq!(spawned(&mut world), "0.4294967295.4");
    let birth = world.birth(handle(0, 1)).expect("alive");
    world.spawn_with_birth(birth, &[]).expect("a handle");
    assert_eq!(spawned(&mut world), "0.4294967295.5");
    assert_eq!(world.spawn(&[]), Err(AllocError::Space));

    world.flush().expect("memory");
    world.despawn(handle(0, 1)).expect("alive");
    assert_eq!(spawned(&mut world), "1.4294967295.0");
}

#[test]
fn queues_take_effect_in_their_order() {
    let mut world = World::new();
    let old = world.spawn(&[(HP, 1)]).expect("a handle");
    let (open, mut systems) = world.open(2).expect("a phase");
    let mut second = systems.pop().expect("a system");
    let mut first = systems.pop().expect("a system");
    let late = second.spawn(&[(HP, 7)]).expect("a handle");
    let early = first.spawn(&[(SPEED, 3)]).expect("a handle");
    assert_eq!((late, early), (handle(1, 1), handle(2, 1)));
    second.insert(old, &[(HP, 2)]).expect("memory");
    second.remove(early, SPEED).expect("memory");
    first.insert(old, &[(HP, 3)]).expect("memory");
    first.despawn(late).expect("memory");
    assert_eq!(second.view().get(old, HP), Some(1));
    assert_eq!(first.view().get(early, SPEED), None);

    let (mut world, queues) = open.close(vec![first, second]).expect("all queues");
    assert!(world.needs_flush());
    assert_eq!(world.spawn(&[]), Err(AllocError::NeedsFlush));
    let report = world.apply(queues).expect("memory");
    assert_eq!(report.born, [handle(1, 1), handle(2, 1)]);
    let kind = FaultKind::NotAlive(late);
    let fault = Fault {
        system: 1,
        command: 0,
        kind,
    };
    assert_eq!(report.faults, [fault]);
    assert_eq!(report.clone(), report);
    assert_eq!(world.get(old, HP), Some(2));
    assert_eq!(world.items(early).map(Vec::from_iter), Some(vec![]));
    let birth = Birth {
        frame: 0,
        system: 0,
        ordinal: 0,
    };
    assert_eq!(world.birth(early), Some(birth));
    assert_eq!((world.len(), world.frame()), (2, 1));
}

/// An insertion that only replaces several values needs no memory that isn't there.
#[test]
fn several_values_are_replaced() {
    let mut world = World::new();
    let one = world.spawn(&[(HP, 1), (SPEED, 2)]).expect("a handle");
    let (open, mut systems) = world.open(1).expect("a phase");
    let mut only = systems.pop().expect("a system");
    only.insert(one, &[(HP, 3), (SPEED, 4)]).expect("memory");
    let (mut world, queues) = open.close(vec![only]).expect("all queues");
    let report = world.apply(queues).expect("memory");
    assert_eq!((report.born.len(), report.faults.len()), (0, 0));
    assert_eq!(
        world.items(one).map(Vec::from_iter),
        Some(vec![(HP, 3), (SPEED, 4)])
    );
}

#[test]
fn a_refused_spawn_is_a_fault() {
    let (open, mut systems) = small(3, 9).open(1).expect("a phase");
    let mut only = systems.pop().expect("a system");
    assert_eq!(
        only.spawn_many(2, &[]),
        Ok(vec![handle(0, 1), handle(1, 1)])
    );
    let refused = ReserveError::Space { wanted: 2, left: 1 };
    assert_eq!(only.spawn_many(2, &[]), Err(refused));
    assert_eq!(refused.to_string(), "2 wanted and 1 left");
    // The pool gives no more until the next flush.
    let refused = ReserveError::Space { wanted: 1, left: 0 };
    assert_eq!(only.spawn(&[]), Err(refused));
    assert_eq!(only.spawn_many(0, &[]), Ok(vec![]));
    let (mut world, queues) = open.close(vec![only]).expect("all queues");
    let report = world.apply(queues).expect("memory");
    let kinds: Vec<FaultKind> = report.faults.iter().map(|fault| fault.kind).collect();
    let space = |wanted, left| FaultKind::Space { wanted, left };
    assert_eq!(kinds, [space(2, 1), space(1, 0)]);
    assert_eq!(world.spawn(&[]), Ok(handle(2, 1)));
}

#[test]
fn a_phase_wants_all_its_systems() {
    let (open, mut systems) = World::new().open(2).expect("a phase");
    let second = systems.pop().expect("a system");
    let first = systems.pop().expect("a system");
    let left = open.close(vec![first]).expect_err("one is missing");
    assert_eq!(left.to_string(), "missing callers: 1");
    let ((open, mut systems), error) = left.into_parts();
    assert_eq!(error, CloseError::Missing { count: 1 });
    assert_eq!((open.count(), open.returned()), (2, 0));
    assert_eq!(systems.len(), 1);

    let (other, mut others) = World::new().open(1).expect("a phase");
    systems.append(&mut others);
    let left = open.close(systems).expect_err("foreign");
    assert_eq!(left.to_string(), "a caller is of another phase");
    let ((open, systems), error) = left.into_parts();
    assert_eq!((error, systems.len()), (CloseError::OtherPhase, 2));
    let left = open.close_lost(systems).expect_err("foreign");
    let ((open, mut systems), error) = left.into_parts();
    assert_eq!((error, systems.len()), (CloseError::OtherPhase, 2));
    let foreign = systems.pop().expect("a system");
    let closed = other.close(vec![foreign]);
    assert!(closed.is_ok(), "its own system");
    systems.push(second);

    // What came back goes on: it can issue more.
    systems[0].spawn(&[]).expect("a handle");
    let (mut world, queues) = open.close(systems).expect("all systems");
    world.apply(queues).expect("memory");
    assert_eq!(world.len(), 1);
}

/// A system that came late can still be put before the others.
#[test]
fn a_late_system_keeps_its_number() {
    let (open, mut systems) = World::new().open(2).expect("a phase");
    assert_eq!((systems[0].number(), systems[1].number()), (0, 1));
    let one = systems[1].spawn(&[(HP, 1)]).expect("a handle");
    systems[0].insert(one, &[(HP, 2)]).expect("memory");
    systems[1].insert(one, &[(HP, 3)]).expect("memory");
    let late = systems.remove(0);
    let left = open.close(systems).expect_err("one is missing");
    let (open, mut systems) = left.into_parts().0;
    systems.push(late);
    systems.sort_by_key(|one| one.number());
    let (mut world, queues) = open.close(systems).expect("all systems");
    world.apply(queues).expect("memory");
    assert_eq!(world.get(one, HP), Some(3));
    assert_eq!(world.birth(one).map(|birth| birth.system), Some(1));
}

/// A close that is refused since a system is in use keeps the queues that came, before later ones.
#[test]
fn a_refused_close_keeps_its_queues() {
    let (open, mut systems) = World::new().open(2).expect("a phase");
    let mut second = systems.pop().expect("a system");
    let mut first = systems.pop().expect("a system");
    let one = first.spawn(&[(HP, 1)]).expect("a handle");
    first.insert(one, &[(HP, 5)]).expect("memory");
    second.insert(one, &[(HP, 2)]).expect("memory");
    let left = open.close_lost(vec![second]).expect_err("in use");
    let ((open, none), error) = left.into_parts();
    assert_eq!((error, none.len()), (CloseError::InUse, 0));
    assert_eq!((open.count(), open.returned()), (2, 1));
    let left = open.close(Vec::new()).expect_err("one is missing");
    let ((open, _), error) = left.into_parts();
    assert_eq!(error, CloseError::Missing { count: 1 });
    let (mut world, queues) = open.close(vec![first]).expect("all queues");
    world.apply(queues).expect("memory");
    assert_eq!(world.get(one, HP), Some(5));
    assert_eq!(world.birth(one).map(|birth| birth.system), Some(1));
}

/// Handles of two worlds may have the same numbers, so the queues of one are none for the other.
#[test]
fn queues_of_another_world_are_refused() {
    let queues_of = |world: World, value| {
        let (open, mut systems) = world.open(1).expect("a phase");
        systems[0].spawn(&[(HP, value)]).expect("a handle");
        open.close(systems).expect("all queues")
    };
    let (mut one, of_one) = queues_of(World::new(), 1);
    let (mut other, of_other) = queues_of(World::default(), 2);
    let refused = one.apply(of_other).expect_err("of another world");
    assert_eq!(refused.to_string(), "the queues are of another world");
    assert!(one.needs_flush() && one.is_empty());
    let SyncError::OtherWorld(of_other) = refused else {
        panic!("{refused}");
    };
    one.apply(of_one).expect("memory");
    other.apply(of_other).expect("memory");
    assert_eq!(one.get(handle(0, 1), HP), Some(1));
    assert_eq!(other.get(handle(0, 1), HP), Some(2));
}

/// While a phase goes on, the world is read as it was when it was opened.
#[test]
fn an_open_world_is_read() {
    let mut world = World::new();
    let birth = Birth {
        frame: 7,
        system: 3,
        ordinal: 1,
    };
    let first = world.spawn(&[]).expect("a handle");
    let other = world.spawn_with_birth(birth, &[(HP, 4)]).expect("a handle");
    let (open, mut systems) = world.open(1).expect("a phase");
    let only = &mut systems[0];
    let new = only.spawn(&[]).expect("a handle");
    assert_eq!(open.view().by_birth(), Ok(vec![first, other]));
    assert_eq!(only.view().by_birth(), Ok(vec![first, other]));
    assert_eq!(
        (open.view().birth(other), only.view().birth(other)),
        (Some(birth), Some(birth))
    );
    assert_eq!(birth.to_string(), "7.3.1");
    assert!(open.view().contains(other) && only.view().contains(other));
    assert!(!open.view().contains(new) && !only.view().contains(new));
}

/// A system that panicked is lost with its commands. What it had reserved comes to life.
#[test]
fn a_phase_ends_without_a_lost_system() {
    let (open, mut systems) = World::new().open(2).expect("a phase");
    let mut lost = systems.pop().expect("a system");
    let mut other = systems.pop().expect("a system");
    let left = open.close_lost(Vec::new()).expect_err("both exist");
    assert_eq!(left.to_string(), "a caller is still in use");
    let ((open, none), error) = left.into_parts();
    assert_eq!((error, none.len()), (CloseError::InUse, 0));

    let panicked = std::thread::spawn(move || {
        let handle = lost.spawn(&[(HP, 1)]).expect("a handle");
        assert_eq!(handle, handle_of_the_other(), "a panic that is meant");
    });
    assert!(panicked.join().is_err());
    let mine = other.spawn(&[(SPEED, 3)]).expect("a handle");
    assert_eq!(mine, handle_of_the_other());
    let left = open.close(vec![other]).expect_err("one lost");
    let ((open, systems), error) = left.into_parts();
    let missing = CloseError::Missing { count: 1 };
    assert_eq!((error, systems.len()), (missing, 1));

    let (mut world, queues) = open.close_lost(systems).expect("one lost");
    assert!(world.needs_flush());
    let report = world.apply(queues).expect("memory");
    assert_eq!(report.faults, []);
    assert!(!world.needs_flush());
    assert_eq!(
        world.items(mine).map(Vec::from_iter),
        Some(vec![(SPEED, 3)])
    );
    let items = world.items(handle(0, 1)).map(Vec::from_iter);
    assert_eq!(items, Some(vec![]));
    assert_eq!((world.len(), world.frame()), (2, 1));
}

/// The second handle of a new world.
fn handle_of_the_other() -> forgeni::Handle {
    handle(1, 1)
}

#[test]
fn a_world_is_opened_for_some_systems() {
    let refused = World::new().open(0).expect_err("no system");
    assert_eq!(refused.to_string(), "a phase has 1 to 1,024 callers");
    let (world, error) = refused.into_parts();
    assert_eq!(error, ShareError::Count);
    let (world, error) = world.open(1025).expect_err("too many").into_parts();
    assert_eq!(error, ShareError::Count);
    let (open, mut systems) = world.open(1024).expect("a phase");
    systems[1023].spawn(&[]).expect("a handle");
    let (world, queues) = open.close(systems).expect("all queues");
    drop(queues);
    let refused = world.open(1).expect_err("not flushed");
    let (mut world, error) = refused.into_parts();
    assert_eq!(error, ShareError::NeedsFlush);
    assert_eq!(world.flush(), Ok(()));
    let birth = Birth {
        frame: 0,
        system: Birth::NO_SYSTEM,
        ordinal: 0,
    };
    assert_eq!(world.birth(handle(0, 1)), Some(birth));
}

/// A reserver of a world may reserve without a command. What it reserves has no components and no
/// system, and is numbered by the order of the pool.
#[test]
fn reserved_without_a_command() {
    let (open, mut systems) = World::new().open(2).expect("a phase");
    let first = systems[1].reserve().expect("a handle");
    let made = systems[0].spawn(&[(HP, 1)]).expect("a handle");
    let mut list = vec![first];
    let more = systems[1].reserve_into(&mut list, 2);
    assert_eq!(more, Ok(()));
    assert_eq!(list, [handle(0, 1), handle(2, 1), handle(3, 1)]);
    let (mut world, queues) = open.close(systems).expect("all are here");
    assert_eq!(world.apply(queues).expect("memory").born.len(), 4);
    for (bare, ordinal) in list.into_iter().zip(0..) {
        let birth = Birth {
            frame: 0,
            system: Birth::NO_SYSTEM,
            ordinal,
        };
        assert_eq!(world.birth(bare), Some(birth));
        assert_eq!(world.items(bare).map(Iterator::count), Some(0));
    }
    let birth = Birth {
        frame: 0,
        system: 0,
        ordinal: 0,
    };
    assert_eq!(world.birth(made), Some(birth));
    assert_eq!(world.get(made, HP), Some(1));
}

/// What a refused close keeps is given out again with the commands that it had.
#[test]
fn given_out_again_with_its_commands() {
    let (open, mut systems) = World::new().open(2).expect("a phase");
    let made = systems[0].spawn(&[(HP, 1)]).expect("a handle");
    let late = systems.pop().expect("a system");
    let refused = open.close_lost(systems).expect_err("one is in use");
    let ((mut open, none), error) = refused.into_parts();
    assert_eq!((error, none.len()), (CloseError::InUse, 0));
    assert_eq!((open.count(), open.returned()), (2, 1));
    let again = open.reserver().expect("memory");
    let mut again = again.expect("one is kept");
    assert_eq!((again.number(), open.returned()), (0, 0));
    again.insert(made, &[(HP, 2)]).expect("memory");
    let (mut world, queues) = open.close(vec![late, again]).expect("all are here");
    let report = world.apply(queues).expect("memory");
    assert_eq!((report.born, report.faults), (vec![made], vec![]));
    assert_eq!(world.get(made, HP), Some(2));
    // The order of the close numbers the systems.
    assert_eq!(world.birth(made).map(|it| it.system), Some(1));
}

/// Commands outlive the phase, which goes with the last of them.
#[test]
fn dropped_after_their_phase() {
    let mut world = World::new();
    for number in 0..100 {
        world.spawn(&[(HP, number)]).expect("a handle");
    }
    let (open, mut systems) = world.open(3).expect("a phase");
    let mut kept = systems.pop().expect("a system");
    drop(systems);
    drop(open);
    assert_eq!(kept.view().get(handle(7, 1), HP), Some(7));
    kept.spawn(&[(HP, 1)]).expect("a handle");
    drop(kept);
}

/// A world may be made on one thread and used on another.
#[test]
fn sent_to_another_thread() {
    let mut world = World::new();
    let one = world.spawn(&[(HP, 3)]).expect("a handle");
    let back = std::thread::spawn(move || {
        let (open, mut systems) = world.open(1).expect("a phase");
        let mut only = systems.pop().expect("a system");
        only.insert(one, &[(HP, 4)]).expect("memory");
        let (mut world, queues) = open.close(vec![only]).expect("all queues");
        world.apply(queues).expect("memory");
        world
    });
    let world = back.join().expect("no panic");
    assert_eq!(world.get(one, HP), Some(4));
}
