//! Logs of commands, from several systems and threads to one sync point: what their contracts can't
//! say.

use crate::common::{flushed, handle, small};
use forgeni::{
    BeginError, Entities, Entry, FreeError, Handle, Log, Refused, ReserveError, SyncPoint,
};
use std::convert::Infallible;
use std::panic::{catch_unwind, resume_unwind, AssertUnwindSafe};
use std::thread;

/// What a system commands.
#[derive(Clone, Debug, PartialEq)]
enum Command {
    Name(Handle, String),
    Despawn(Handle),
}

use Command::{Despawn, Name};

/// Entries of a sync point, all of them.
fn drained(mut sync: SyncPoint<Command>, entities: &mut Entities) -> Vec<Entry<Command>> {
    let mut all = vec![];
    let done: Result<(), Infallible> = sync.apply(entities, |_, entry| {
        all.push(entry);
        Ok(())
    });
    let Ok(()) = done;
    assert_eq!(sync.take_next(), None);
    all
}

/// A log with a name for each of these handles.
fn named(handles: &[Handle]) -> Log<Command> {
    let mut log = Log::new();
    for (number, &one) in handles.iter().enumerate() {
        log.push(Name(one, number.to_string())).expect("memory");
    }
    log
}

#[test]
fn entries_come_in_the_order_of_the_systems_whichever_thread_ends_first() {
    let mut entities = Entities::new();
    let mut logs: Vec<Log<Command>> = (0..8).map(|_| Log::new()).collect();
    entities
        .phase(4, |_, reservers| {
            thread::scope(|threads| {
                for (reserver, systems) in reservers.iter_mut().zip(logs.chunks_mut(2)) {
                    threads.spawn(move || {
                        // The worker runs its second system first.
                        for log in systems.iter_mut().rev() {
                            for number in 0..1000 {
                                let one = log.spawn(reserver).expect("a handle");
                                log.push(Name(one, format!("{number}"))).expect("memory");
                            }
                        }
                    });
                }
            });
        })
        .expect("memory");
    let written: Vec<Entry<Command>> = logs
        .iter()
        .flat_map(|log| log.entries().iter().cloned())
        .collect();
    let mut born = vec![];
    let sync = SyncPoint::begin(&mut entities, &mut logs, &mut born).expect("all are reserved");
    assert_eq!((born.len(), entities.len()), (8000, 8000));
    assert_eq!(drained(sync, &mut entities), written);
}

#[test]
fn a_command_sees_what_those_before_it_did() {
    let mut entities = small(2, 5);
    let (a, b) = (
        entities.alloc().expect("a slot"),
        entities.alloc().expect("a slot"),
    );
    let mut logs = vec![Log::new(), Log::new()];
    logs[0].push(Despawn(a)).expect("memory");
    logs[1].push(Despawn(a)).expect("memory");
    logs[1].push(Despawn(b)).expect("memory");
    let mut sync =
        SyncPoint::begin(&mut entities, &mut logs, &mut vec![]).expect("nothing is born");
    let mut run = |entities: &mut Entities, entry: Entry<Command>| match entry {
        Entry::Command(Despawn(one)) => match entities.free(one) {
            Ok(_) => Ok(()),
            Err(error) => Err((entry, error)),
        },
        _ => Ok(()),
    };

    // It stops at the second command, which comes back, however often it is tried.
    for _ in 0..3 {
        assert_eq!(
            sync.apply(&mut entities, &mut run),
            Err(FreeError::NotAlive)
        );
        assert!(!entities.is_alive(a) && entities.is_alive(b));
    }
    assert_eq!(sync.take_next(), Some(Entry::Command(Despawn(a))));
    assert_eq!(sync.apply(&mut entities, &mut run), Ok(()));
    assert!(entities.is_empty());
    assert_eq!(sync.take_next(), None);
}

#[test]
fn it_may_fail_at_each_entry_and_goes_on_there() {
    for failing in 0..6 {
        let mut entities = small(9, 2);
        let mut logs = vec![Log::new(), Log::new(), named(&[handle(7, 1)]), Log::new()];
        for log in &mut logs[..2] {
            let one = log.spawn(&mut entities).expect("a handle");
            log.push(Despawn(one)).expect("memory");
        }
        let written: Vec<Entry<Command>> =
            logs.iter().flat_map(|log| log.entries().to_vec()).collect();
        assert_eq!(written.len(), 5);
        let mut sync = SyncPoint::begin(&mut entities, &mut logs, &mut vec![]).expect("reserved");
        let mut seen = vec![];
        let stopped = sync.apply(&mut entities, |_, entry| {
            if seen.len() == failing {
                return Err((entry, failing));
            }
            seen.push(entry);
            Ok(())
        });
        assert_eq!(stopped, if failing < 5 { Err(failing) } else { Ok(()) });
        assert_eq!(seen, written[..failing.min(5)]);
        seen.extend(drained(sync, &mut entities));
        assert_eq!(seen, written);
    }
}

#[test]
fn what_a_panicking_system_reserved_comes_to_life() {
    let mut entities = Entities::new();
    let mut kept = Log::<Command>::new();
    let told = entities.phase(2, |_, reservers| {
        let (one, other) = reservers.split_at_mut(1);
        thread::scope(|threads| {
            let lost = threads.spawn(|| {
                let mut log = Log::<Command>::new();
                log.spawn(&mut one[0]).expect("a handle");
                // The panic prints nothing.
                resume_unwind(Box::new("the system"));
            });
            kept.spawn(&mut other[0]).expect("a handle");
            lost.join().is_err()
        })
    });
    assert_eq!(told, Ok(true));
    let mut born = vec![];
    let sync = SyncPoint::begin(&mut entities, &mut vec![kept], &mut born).expect("reserved");
    assert_eq!((born.len(), entities.len()), (2, 2));
    assert_eq!(drained(sync, &mut entities).len(), 1);
}

/// A system that forgets its log: what it spawned comes to life, and its commands are gone.
#[test]
fn a_log_that_is_forgotten() {
    let mut entities = Entities::new();
    let mut logs = vec![Log::<Command>::new(), Log::new()];
    let run = entities.phase(1, |_, reservers| {
        for log in &mut logs {
            let one = log.spawn(&mut reservers[0]).expect("a handle");
            log.push(Despawn(one)).expect("memory");
        }
    });
    assert_eq!(run, Ok(()));
    std::mem::forget(logs.swap_remove(0));
    let mut born = vec![];
    let sync = SyncPoint::begin(&mut entities, &mut logs, &mut born).expect("reserved");
    let second = [Entry::Spawn(born[1]), Entry::Command(Despawn(born[1]))];
    assert_eq!(drained(sync, &mut entities), second);
    assert_eq!((born.len(), entities.len()), (2, 2));
}

#[test]
fn a_panic_of_the_closure_leaves_the_rest() {
    for panicking in 0..4 {
        let mut entities = small(4, 2);
        let all: Vec<Handle> = (0..4).map(|_| entities.alloc().expect("a slot")).collect();
        let mut logs = vec![named(&all[..2]), named(&all[2..])];
        let mut sync =
            SyncPoint::begin(&mut entities, &mut logs, &mut vec![]).expect("nothing is born");
        let mut calls = 0;
        let ended = catch_unwind(AssertUnwindSafe(|| {
            sync.apply(&mut entities, |entities, entry| {
                if calls == panicking {
                    resume_unwind(Box::new("the closure"));
                }
                calls += 1;
                if let Entry::Command(Name(one, _)) = entry {
                    entities.free(one).expect("alive");
                }
                Ok::<(), (Entry<Command>, ())>(())
            })
        }));
        assert!(ended.is_err());
        assert_eq!(entities.len() as usize, 4 - panicking);
        // The entry at which it panicked is gone.
        assert_eq!(drained(sync, &mut entities).len(), 3 - panicking);
    }
}

#[test]
fn logs_of_another_phase_are_handed_back() {
    let mut entities = small(3, 9);
    let mut log = Log::<Command>::new();
    let one = log.spawn(&mut entities).expect("a handle");

    let mut logs = vec![Log::new(), log];

    // It is alive already, and another allocator has not reserved it either.
    assert_eq!(flushed(&mut entities), [one]);
    for allocator in [&mut entities, &mut Entities::new()] {
        let (mut born, made) = (vec![], allocator.total());
        let error = SyncPoint::begin(allocator, &mut logs, &mut born).expect_err("not reserved");
        assert_eq!(error, BeginError::NotReserved { handle: one });
        assert_eq!(error.to_string(), "0v1 is not reserved");
        assert_eq!((born.len(), allocator.total(), logs.len()), (0, made, 2));
        assert_eq!(logs[1].entries(), [Entry::Spawn(one)]);
    }
}

/// A refusal is an entry, which the closure is handed at its turn.
#[test]
fn a_refused_spawn_has_an_entry() {
    let mut entities = small(1, 1);
    let mut log = Log::<Command>::new();
    let one = log.spawn(&mut entities).expect("a handle");
    let refused = ReserveError::Space { wanted: 1, left: 0 };
    assert_eq!(log.spawn(&mut entities), Err(refused));
    log.push(Despawn(one)).expect("memory");
    assert_eq!(log.spawn(&mut entities), Err(refused));
    let why = Refused::Space { wanted: 1, left: 0 };
    let entries = [
        Entry::Spawn(one),
        Entry::Refused(why),
        Entry::Command(Despawn(one)),
        Entry::Refused(why),
    ];
    assert_eq!(log.entries(), entries);
    assert_eq!((log.len(), log.refused(), log.is_empty()), (4, 2, false));

    // It comes back with an error as any other entry does.
    let mut born = vec![];
    let mut sync = SyncPoint::begin(&mut entities, &mut vec![log], &mut born).expect("reserved");
    let mut run = |_: &mut Entities, entry: Entry<Command>| match entry {
        Entry::Refused(why) => Err((entry, why)),
        _ => Ok(()),
    };
    for _ in 0..2 {
        assert_eq!(sync.apply(&mut entities, &mut run), Err(why));
    }
    assert_eq!(born, [one]);
    assert_eq!(drained(sync, &mut entities), entries[1..]);
}

#[test]
fn a_log_that_was_cleared() {
    let (mut entities, mut log) = (small(4, 1), Log::new());
    for refused in [1, 5, 5] {
        for _ in 0..5 {
            let _ = log.spawn(&mut entities);
            log.push(()).expect("memory");
        }
        assert_eq!((log.len(), log.refused()), (10, refused));
        log.clear();
        assert_eq!((log.len(), log.refused(), log.is_empty()), (0, 0, true));
    }
    assert_eq!(flushed(&mut entities).len(), 4);
}

#[test]
fn a_hundred_thousand_spawns_and_commands() {
    const COUNT: usize = 100_000;
    let mut entities = Entities::new();
    let mut log = Log::new();
    for number in 0..COUNT {
        let one = log.spawn(&mut entities).expect("a handle");
        log.push(Name(one, String::new())).expect("memory");
        if number % 2 == 1 {
            log.push(Despawn(one)).expect("memory");
        }
    }
    let mut born = vec![];
    let mut sync = SyncPoint::begin(&mut entities, &mut vec![log], &mut born).expect("reserved");
    let mut names = 0;
    let done: Result<(), FreeError> = sync.apply(&mut entities, |entities, entry| {
        match entry {
            Entry::Spawn(one) => assert!(entities.is_alive(one)),
            Entry::Refused(why) => panic!("{why}"),
            Entry::Command(Name(..)) => names += 1,
            Entry::Command(Despawn(one)) => {
                if let Err(error) = entities.free(one) {
                    return Err((entry, error));
                }
            }
        }
        Ok(())
    });
    assert_eq!(done, Ok(()));
    assert_eq!((born.len(), names), (COUNT, COUNT));
    assert_eq!(entities.len() as usize, COUNT / 2);
}
