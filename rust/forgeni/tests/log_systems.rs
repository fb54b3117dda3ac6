//! Systems that fill logs on workers: what their contracts can't say, and what a panic leaves.

use crate::common::{flushed, small};
use forgeni::{run_logs, run_to_sync_point, Entities, Entry, Handle, HandleMap, Join};
use forgeni::{Log, LogCommands, LogSystem, OutOfMemory, RunError, StdThreads, SyncPoint};
use std::convert::Infallible;
use std::panic::{catch_unwind, resume_unwind, AssertUnwindSafe};
use std::sync::{Barrier, Mutex};

const WORKERS: [usize; 5] = [1, 2, 3, 16, 64];

/// A system that does this.
#[derive(Clone, Copy)]
enum Does {
    /// Spawns that many, and names each by the number of the system.
    Spawn(usize),
    /// Spawns that many, and panics with this number.
    Panic(usize, usize),
    /// Spawns one, and says that memory ran out.
    Stop,
}

struct Numbered(usize, Does);

impl LogSystem<(Handle, usize)> for Numbered {
    fn run(&self, commands: &mut LogCommands<'_, (Handle, usize)>) -> Result<(), OutOfMemory> {
        let (Does::Spawn(count) | Does::Panic(count, _)) = self.1 else {
            commands.spawn().expect("a handle");
            return Err(OutOfMemory);
        };
        for _ in 0..count {
            let one = commands.spawn().expect("a handle");
            commands.push((one, self.0))?;
        }
        if let Does::Panic(_, number) = self.1 {
            // This panic prints nothing.
            resume_unwind(Box::new(number));
        }
        Ok(())
    }
}

/// These systems, with their numbers.
fn numbered(all: &[Does]) -> Vec<Numbered> {
    let numbered = all.iter().enumerate();
    numbered
        .map(|(number, does)| Numbered(number, *does))
        .collect()
}

/// What the sync point passes on: how many spawns and how many commands of each system there are.
fn told(entities: &mut Entities, mut logs: Vec<Log<(Handle, usize)>>) -> Vec<(usize, bool)> {
    let mut all = vec![];
    let mut sync = SyncPoint::begin(entities, &mut logs, &mut vec![]).expect("reserved");
    let mut names = HandleMap::new();
    let done: Result<(), Infallible> = sync.apply(entities, |entities, entry| {
        match entry {
            Entry::Spawn(one) => assert!(entities.is_alive(one)),
            Entry::Refused(why) => panic!("{why}"),
            Entry::Command((one, system)) => {
                let before = names.insert(one, system).expect("memory");
                all.push((system, before.is_none()));
            }
        }
        Ok(())
    });
    let Ok(()) = done;
    all
}

#[test]
fn logs_are_in_the_order_of_the_systems() {
    for workers in WORKERS {
        let mut entities = Entities::new();
        let systems = numbered(&[Does::Spawn(3); 40]);
        for frame in 1..4 {
            let logs = run_logs(&StdThreads, &mut entities, &systems, workers).expect("memory");
            assert_eq!(logs.len(), 40);
            let wanted: Vec<_> = (0..120).map(|one| (one / 3, true)).collect();
            assert_eq!(told(&mut entities, logs), wanted);
            assert_eq!(entities.len(), 120 * frame);
        }
    }
}

/// More spawns than there are handles: each refusal is an entry of its system's log, whichever
/// systems they are.
#[test]
fn each_refused_spawn_has_an_entry() {
    for workers in WORKERS {
        let mut entities = small(7, 9);
        let system = |commands: &mut LogCommands<'_, ()>| -> Result<(), OutOfMemory> {
            for _ in 0..3 {
                if let Err(refused) = commands.spawn() {
                    refused.or_memory()?;
                }
            }
            Ok(())
        };
        let mut logs = run_logs(&StdThreads, &mut entities, &[system; 5], workers).expect("memory");
        assert!(logs.iter().all(|log| log.len() == 3));
        assert_eq!(logs.iter().map(Log::refused).sum::<usize>(), 8);
        let mut sync = SyncPoint::begin(&mut entities, &mut logs, &mut vec![]).expect("reserved");
        let (mut spawned, mut refused) = (0, 0);
        let done: Result<(), Infallible> = sync.apply(&mut entities, |_, entry| {
            match entry {
                Entry::Spawn(_) => spawned += 1,
                Entry::Refused(_) => refused += 1,
                Entry::Command(()) => {}
            }
            Ok(())
        });
        assert_eq!((done, spawned, refused), (Ok(()), 7, 8));
    }
}

/// A sync point that begins at once hands on what `begin` would have, and lists what is born behind
/// the rest.
#[test]
fn the_sync_point_begins_at_once() {
    for workers in WORKERS {
        let systems = numbered(&[Does::Spawn(3); 40]);
        let (mut at_once, mut later) = (Entities::new(), Entities::new());
        let listed = at_once.alloc().expect("a handle");
        let mut born = vec![listed];
        let sync = run_to_sync_point(&StdThreads, &mut at_once, &systems, workers, &mut born);
        let mut sync = sync.expect("memory");
        assert_eq!((born.len(), born[0], at_once.len()), (121, listed, 121));

        let logs = run_logs(&StdThreads, &mut later, &systems, workers).expect("memory");
        let mut commands = logs.iter().flat_map(|log| log.entries());
        let done = sync.apply(&mut at_once, |entities, entry| {
            match (entry, commands.next()) {
                (Entry::Spawn(one), Some(Entry::Spawn(_))) if entities.is_alive(one) => Ok(()),
                (Entry::Command(it), Some(Entry::Command(other))) if it.1 == other.1 => Ok(()),
                (_, wanted) => Err((entry, format!("{wanted:?}"))),
            }
        });
        assert_eq!((done, commands.next()), (Ok(()), None));
    }
}

/// Why it doesn't begin: as of `run_logs`, and there are no logs then.
#[test]
fn a_sync_point_that_does_not_begin() {
    let (mut entities, mut born) = (Entities::new(), vec![]);
    for (systems, workers, wanted) in [
        (vec![Does::Spawn(1); 2], 0, RunError::Workers),
        (vec![Does::Spawn(1); 2], 65, RunError::Workers),
        (vec![Does::Spawn(1); 65_537], 1, RunError::Systems),
        (
            vec![Does::Spawn(2), Does::Stop],
            1,
            RunError::Lost(Some(OutOfMemory)),
        ),
        (vec![Does::Spawn(1)], 1, RunError::NeedsFlush),
    ] {
        let systems = numbered(&systems);
        let sync = run_to_sync_point(&StdThreads, &mut entities, &systems, workers, &mut born);
        let unbegun = sync.map(drop).expect_err("refused");
        assert_eq!(unbegun.to_string(), wanted.to_string());
        assert_eq!(format!("{unbegun:?}"), format!("{wanted:?}"));
        let (logs, error) = unbegun.into_parts();
        assert_eq!((error, logs.len()), (wanted, 0));
    }
    assert!(born.is_empty() && entities.is_empty());
    assert_eq!(flushed(&mut entities).len(), 3);

    // A panic leaves what was reserved, as of `run_logs`.
    let systems = numbered(&[Does::Spawn(1), Does::Panic(2, 1)]);
    let ran = catch_unwind(AssertUnwindSafe(|| {
        run_to_sync_point(&StdThreads, &mut entities, &systems, 1, &mut born).map(drop)
    }));
    assert!(ran.is_err() && born.is_empty());
    assert_eq!(flushed(&mut entities).len(), 3);
}

/// Two systems that wait for each other: both workers have a thread, or this never ends.
#[test]
fn systems_run_side_by_side() {
    let both = Barrier::new(2);
    let mut entities = Entities::new();
    let system = |commands: &mut LogCommands<'_, ()>| {
        both.wait();
        commands
            .spawn()
            .map_or_else(|refused| refused.or_memory(), |_| Ok(()))?;
        both.wait();
        Ok::<(), OutOfMemory>(())
    };
    let logs = run_logs(&StdThreads, &mut entities, &[system; 2], 2).expect("memory");
    assert_eq!((logs.len(), flushed(&mut entities).len()), (2, 2));
}

/// Closures that change what they borrow, of several types in one list.
#[test]
fn systems_change_what_they_borrow() {
    type Runs<'a> = Box<dyn FnMut(&mut LogCommands<'_, u8>) -> Result<(), OutOfMemory> + Send + 'a>;

    let (mut first, mut second) = (vec![], String::new());
    let runs: [Runs<'_>; 2] = [
        Box::new(|commands| {
            first.push(commands.spawn().expect("a handle"));
            assert_eq!(commands.entries().len(), 1);
            Ok(())
        }),
        Box::new(|commands| {
            second.push('2');
            commands.push(7)?;
            assert_eq!(format!("{commands:?}"), "[Command(7)]");
            Ok(())
        }),
    ];
    let systems = runs.map(Mutex::new);
    let mut entities = Entities::new();
    for frame in 0..3 {
        let logs = run_logs(&StdThreads, &mut entities, &systems, 2).expect("memory");
        let born = flushed(&mut entities);
        assert_eq!(
            format!("{logs:?}"),
            format!("[[Spawn({frame}v1)], [Command(7)]]")
        );
        assert_eq!(born.len(), 1);
    }
    drop(systems);
    assert_eq!((first.len(), second.as_str()), (3, "222"));
}

/// Each refusal, the first that holds. The allocator is as it was.
#[test]
fn refusals() {
    let many = numbered(&vec![Does::Spawn(1); 65_537]);
    let mut entities = small(3, 2);
    entities.request().expect("a handle");
    for (systems, workers) in [(0, 0), (1, 1), (65_537, 65)] {
        let refused = run_logs(&StdThreads, &mut entities, &many[..systems], workers)
            .expect_err("not flushed");
        assert_eq!(refused, RunError::NeedsFlush);
    }
    assert_eq!(flushed(&mut entities).len(), 1);
    for (systems, workers, wanted) in [
        (0, 0, RunError::Workers),
        (1, 65, RunError::Workers),
        (65_537, 0, RunError::Workers),
        (65_537, 64, RunError::Systems),
    ] {
        let refused =
            run_logs(&StdThreads, &mut entities, &many[..systems], workers).expect_err("refused");
        assert_eq!(refused, wanted);
        assert!(!entities.needs_flush() && entities.len() == 1);
    }
    let logs = run_logs(&StdThreads, &mut entities, &many[..0], 64).expect("nothing takes memory");
    assert!(logs.is_empty() && !entities.needs_flush());
    let logs = run_logs(&StdThreads, &mut Entities::new(), &many[..65_536], 3).expect("memory");
    assert_eq!(logs.len(), 65_536);
}

/// A system that ran out of memory: no log is left, and what was reserved comes to life.
#[test]
fn a_system_that_stops() {
    for workers in WORKERS {
        let mut entities = Entities::new();
        let systems = numbered(&[Does::Spawn(2), Does::Stop, Does::Spawn(2)]);
        let lost = run_logs(&StdThreads, &mut entities, &systems, workers).expect_err("it stopped");
        assert_eq!(lost, RunError::Lost(Some(OutOfMemory)));
        let born = flushed(&mut entities).len();
        // A worker that stopped leaves the third system to another one.
        assert!(born == 5 || (workers < 3 && born == 3), "{workers}: {born}");
    }
}

/// The number with which a run panics.
fn panic_of(entities: &mut Entities, systems: &[Numbered], workers: usize) -> usize {
    let ran = catch_unwind(AssertUnwindSafe(|| {
        run_logs(&StdThreads, entities, systems, workers).map(drop)
    }));
    *ran.expect_err("a panic is handed on")
        .downcast()
        .expect("the number")
}

/// A panic in each system: the allocator is in its place, with what was reserved.
#[test]
fn each_system_panics() {
    for workers in WORKERS {
        for panicking in 0..6 {
            let mut entities = Entities::new();
            let mut all = [Does::Spawn(2); 6];
            all[panicking] = Does::Panic(1, panicking);
            let systems = numbered(&all);
            assert_eq!(panic_of(&mut entities, &systems, workers), panicking);
            assert!(entities.is_empty() && entities.needs_flush());
            let born = flushed(&mut entities).len();
            assert!(
                (2 * panicking + 1..=11).contains(&born),
                "{workers}: {born}"
            );
            let logs = run_logs(
                &StdThreads,
                &mut entities,
                &numbered(&[Does::Spawn(1); 3]),
                workers,
            );
            let told = told(&mut entities, logs.expect("memory"));
            assert_eq!(told, [(0, true), (1, true), (2, true)]);
        }
    }
}

/// Several systems panic. The panic of the first one in their order is handed on.
#[test]
fn the_first_panic_is_handed_on() {
    for workers in WORKERS {
        let mut all = [Does::Spawn(1); 100];
        for number in [7, 8, 40, 99] {
            all[number] = Does::Panic(1, number);
        }
        assert_eq!(panic_of(&mut Entities::new(), &numbered(&all), workers), 7);
    }
}

/// A closure that panics poisons its lock, and is a system as before.
#[test]
fn a_poisoned_system_runs_again() {
    let mut calls = 0;
    let system = Mutex::new(|commands: &mut LogCommands<'_, u8>| {
        calls += 1;
        if calls == 1 {
            resume_unwind(Box::new("once"));
        }
        commands.push(calls)
    });
    let (systems, mut entities) = ([system], Entities::new());
    let ran = catch_unwind(AssertUnwindSafe(|| {
        run_logs(&StdThreads, &mut entities, &systems, 1).map(drop)
    }));
    assert!(ran.is_err());
    let logs = run_logs(&StdThreads, &mut entities, &systems, 1).expect("memory");
    assert_eq!(logs[0].entries(), [Entry::Command(2)]);
}

/// A joiner that calls both, and then panics.
struct Panics;

impl Join for Panics {
    fn join(&self, first: &mut (dyn FnMut() + Send), second: &mut (dyn FnMut() + Send)) {
        StdThreads.join(first, second);
        resume_unwind(Box::new("the joiner"));
    }
}

/// A joiner that calls nothing.
struct Idle;

impl Join for Idle {
    fn join(&self, _: &mut (dyn FnMut() + Send), _: &mut (dyn FnMut() + Send)) {}
}

#[test]
fn joiners() {
    let systems = numbered(&[Does::Spawn(1); 5]);
    for workers in [2, 5] {
        let mut entities = Entities::new();
        let logs = run_logs(&Idle, &mut entities, &systems, workers).expect("memory");
        let wanted: Vec<_> = (0..5).map(|system| (system, true)).collect();
        assert_eq!(told(&mut entities, logs), wanted);

        // The logs are gone, and what they reserved is not.
        let ran = catch_unwind(AssertUnwindSafe(|| {
            run_logs(&Panics, &mut entities, &systems, workers).map(drop)
        }));
        assert_eq!(
            ran.expect_err("a panic").downcast_ref(),
            Some(&"the joiner")
        );
        assert_eq!((flushed(&mut entities).len(), entities.len()), (5, 10));
    }
}

/// Commands on entities that went: before the sync point, or by a command before.
#[test]
fn commands_on_entities_that_went() {
    let mut entities = Entities::new();
    let mut all = vec![];
    entities
        .alloc_many(3)
        .expect("handles")
        .into_iter()
        .for_each(|one| all.push(one));
    let despawn =
        |commands: &mut LogCommands<'_, Handle>| all.iter().try_for_each(|one| commands.push(*one));
    let mut logs = run_logs(&StdThreads, &mut entities, &[despawn; 2], 2).expect("memory");
    entities.free(all[1]).expect("alive");
    let mut sync = SyncPoint::begin(&mut entities, &mut logs, &mut vec![]).expect("no spawns");
    let mut went = vec![];
    let done: Result<(), Infallible> = sync.apply(&mut entities, |entities, entry| {
        if let Entry::Command(one) = entry {
            went.extend(entities.free(one).is_err().then_some(one));
        }
        Ok(())
    });
    assert_eq!(done, Ok(()));
    assert_eq!(went, [all[1], all[0], all[1], all[2]]);
    assert!(entities.is_empty());
}
