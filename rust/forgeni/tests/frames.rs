//! Frames. If nothing is refused and no handle decides anything, what one makes doesn't depend on
//! the number of its workers, and is what the same systems make one after the other by
//! `World::open` and `World::apply`.

use crate::common::{handle, seeds, Numbers};
use forgeni::{
    run_frame, Birth, ComponentId, FaultKind, FrameError, Handle, Limits, OpenWorld, OutOfMemory,
    Report, ReserveError, Reserver, StdThreads, System, SystemCommands, View, World,
};
use std::sync::atomic::{AtomicUsize, Ordering};
use std::sync::Barrier;

const HP: ComponentId = ComponentId(0);
const AGE: ComponentId = ComponentId(1);

/// What a system does to the living, who are counted by birth.
#[derive(Clone, Copy, Debug)]
enum Step {
    Spawn(i64),
    SpawnMany(u32),
    /// Changes what it has spawned last.
    InsertLast(i64),
    Insert(usize, i64),
    Remove(usize),
    Despawn(usize),
    /// Makes all that have an age older.
    Age,
}

/// The two ways to issue commands.
trait Issues {
    fn spawn(&mut self, components: &[(ComponentId, i64)]) -> Result<Handle, ReserveError>;
    fn spawn_many(&mut self, count: u32) -> Result<Vec<Handle>, ReserveError>;
    fn insert(&mut self, handle: Handle, value: (ComponentId, i64));
    fn remove(&mut self, handle: Handle);
    fn despawn(&mut self, handle: Handle);
}

macro_rules! issues {
    ($type:ty, $spawn:ident, $spawn_many:ident, $insert:ident) => {
        impl Issues for $type {
            fn spawn(&mut self, components: &[(ComponentId, i64)]) -> Result<Handle, ReserveError> {
                self.$spawn(components)
            }
            fn spawn_many(&mut self, count: u32) -> Result<Vec<Handle>, ReserveError> {
                self.$spawn_many(count, &[(AGE, 0), (HP, 5)])
            }
            fn insert(&mut self, handle: Handle, value: (ComponentId, i64)) {
                self.$insert(handle, &[value]).expect("memory");
            }
            fn remove(&mut self, handle: Handle) {
                self.remove(handle, HP).expect("memory");
            }
            fn despawn(&mut self, handle: Handle) {
                self.despawn(handle).expect("memory");
            }
        }
    };
}

issues!(Reserver<OpenWorld>, spawn, spawn_many, insert);
issues!(SystemCommands<'_>, spawn_with, spawn_many_with, insert_with);

/// The living when the phase began: by birth, and the age of each that has one.
struct Living {
    all: Vec<Handle>,
    aged: Vec<(Handle, i64)>,
}

fn run_steps(steps: &[Step], living: &Living, commands: &mut impl Issues) {
    let mut last = None;
    for step in steps {
        let at = |rank: &usize| living.all.get(rank % living.all.len().max(1)).copied();
        match step {
            Step::Spawn(value) => match commands.spawn(&[(AGE, 0), (HP, *value)]) {
                Ok(one) => last = Some(one),
                Err(refused) => refused.or_memory().expect("memory"),
            },
            Step::SpawnMany(count) => match commands.spawn_many(*count) {
                Ok(all) => last = all.last().copied().or(last),
                Err(refused) => refused.or_memory().expect("memory"),
            },
            Step::InsertLast(value) => {
                if let Some(one) = last {
                    commands.insert(one, (HP, *value));
                }
            }
            Step::Insert(rank, value) => {
                if let Some(one) = at(rank) {
                    commands.insert(one, (HP, *value));
                }
            }
            Step::Remove(rank) => {
                if let Some(one) = at(rank) {
                    commands.remove(one);
                }
            }
            Step::Despawn(rank) => {
                if let Some(one) = at(rank) {
                    commands.despawn(one);
                }
            }
            Step::Age => {
                for (one, age) in &living.aged {
                    commands.insert(*one, (AGE, age + 1));
                }
            }
        }
    }
}

struct Script(Vec<Step>);

impl System for Script {
    fn run(&self, view: &View<'_>, commands: &mut SystemCommands<'_>) -> Result<(), OutOfMemory> {
        let all = view.by_birth()?;
        let age = |one| (one, view.get(one, AGE).expect("it has one"));
        let aged = view.with(AGE)?.into_iter().map(age).collect();
        for one in &all {
            let birth = view.birth(*one).expect("alive");
            assert_eq!(view.of_birth(birth), Some(*one));
            assert!(view.contains(*one));
        }
        run_steps(&self.0, &Living { all, aged }, commands);
        Ok(())
    }
}

fn any_step(numbers: &mut Numbers) -> Step {
    let rank = numbers.below(50) as usize;
    match numbers.below(9) {
        0 | 1 => Step::Spawn(numbers.below(100) as i64),
        2 => Step::SpawnMany(numbers.below(4) as u32),
        3 => Step::InsertLast(numbers.below(100) as i64),
        4 => Step::Insert(rank, numbers.below(100) as i64),
        5 => Step::Remove(rank),
        6 | 7 => Step::Despawn(rank),
        _ => Step::Age,
    }
}

fn any_scripts(numbers: &mut Numbers) -> Vec<Script> {
    let script = |numbers: &mut Numbers| {
        let steps = numbers.below(7);
        Script((0..steps).map(|_| any_step(numbers)).collect())
    };
    (0..numbers.below(9)).map(|_| script(numbers)).collect()
}

/// What a world and a report say without handles: which system gets which is a matter of luck.
type Story = (
    Vec<(Birth, Vec<(ComponentId, i64)>)>,
    usize,
    Vec<(usize, usize, Option<FaultKind>)>,
);

fn story(world: &World, report: &Report) -> Story {
    let living = world.by_birth().expect("memory");
    let one = |one| {
        let birth = world.birth(one).expect("alive");
        (birth, world.items(one).expect("alive").collect())
    };
    let faults = report.faults.iter().map(|fault| {
        let kind = match fault.kind {
            FaultKind::NotAlive(_) => None,
            refused => Some(refused),
        };
        (fault.system, fault.command, kind)
    });
    let told = living.into_iter().map(one).collect();
    (told, report.born.len(), faults.collect())
}

/// The systems one after the other, without a frame.
fn in_turn(world: World, scripts: &[Script]) -> (World, Report) {
    if scripts.is_empty() {
        let (open, systems) = world.open(1).expect("opened");
        let (mut world, queues) = open.close(systems).expect("closed");
        let report = world.apply(queues).expect("memory");
        return (world, report);
    }
    let (open, systems) = world.open(scripts.len()).expect("opened");
    let all = open.view().by_birth().expect("memory");
    let age = |one: &Handle| open.view().get(*one, AGE).map(|age| (*one, age));
    let aged = all.iter().filter_map(age).collect();
    let living = Living { all, aged };
    let run = |(mut commands, script): (Reserver<OpenWorld>, &Script)| {
        run_steps(&script.0, &living, &mut commands);
        commands
    };
    let systems = systems.into_iter().zip(scripts).map(run).collect();
    let (mut world, queues) = open.close(systems).expect("closed");
    let report = world.apply(queues).expect("memory");
    (world, report)
}

fn play(seed: u64, workers: &[usize]) {
    let mut numbers = Numbers::of(seed);
    // Room for all that is spawned: which of two is refused would be a matter of luck.
    let limits = Limits::new(1_000, 1 + numbers.below(3) as u32).expect("limits");
    let mut wanted = World::with_limits(limits);
    let mut worlds: Vec<World> = workers.iter().map(|_| World::with_limits(limits)).collect();
    for frame in 0..6 {
        let scripts = any_scripts(&mut numbers);
        let (world, report) = in_turn(wanted, &scripts);
        wanted = world;
        for (world, workers) in worlds.iter_mut().zip(workers) {
            let place = format!("seed {seed}, frame {frame}, {workers} workers");
            let own = run_frame(&StdThreads, world, &scripts, *workers).expect("memory");
            assert_eq!(story(world, &own), story(&wanted, &report), "{place}");
            assert_eq!(world.frame(), wanted.frame(), "{place}");
            assert!(!world.needs_flush(), "{place}");
            if *workers == 1 {
                assert_eq!(own.born, report.born, "{place}");
                assert_eq!(own.faults, report.faults, "{place}");
            }
        }
    }
}

#[test]
fn the_same_on_few_workers() {
    seeds(300, |seed| play(seed, &[1, 2, 3, 4]));
}

#[test]
fn the_same_on_many_workers() {
    seeds(20, |seed| play(seed, &[1, 7, 16, 64]));
}

/// The pool has fewer handles than the systems want. One worker runs them in their order.
#[test]
fn refused_spawns_are_faults() {
    let mut world = World::with_limits(Limits::new(3, 1).expect("limits"));
    let scripts = [
        Script(vec![Step::SpawnMany(2)]),
        Script(vec![Step::SpawnMany(3)]),
    ];
    let report = run_frame(&StdThreads, &mut world, &scripts, 1).expect("memory");
    assert_eq!(report.born, [handle(0, 1), handle(1, 1)]);
    let faults: Vec<FaultKind> = report.faults.iter().map(|fault| fault.kind).collect();
    assert_eq!(faults, [FaultKind::Space { wanted: 3, left: 1 }]);
}

/// A frame of two systems that spawn one entity each. With two workers the second one is first to
/// reserve.
fn two_spawns(world: &mut World, workers: usize) -> Report {
    let order = Barrier::new(workers);
    let first = |_: &View<'_>, commands: &mut SystemCommands<'_>| {
        order.wait();
        let spawned = commands.spawn_with(&[]);
        spawned.map_or_else(ReserveError::or_memory, |_| Ok(()))
    };
    let second = |_: &View<'_>, commands: &mut SystemCommands<'_>| {
        let spawned = commands.spawn_with(&[]);
        if workers == 2 {
            order.wait();
        }
        spawned.map_or_else(ReserveError::or_memory, |_| Ok(()))
    };
    let systems: [&(dyn System + Sync); 2] = [&first, &second];
    run_frame(&StdThreads, world, &systems, workers).expect("memory")
}

/// The text of each birth, in the order of births, with the value.
fn births(world: &World) -> Vec<(String, Option<i64>)> {
    let all = world.by_birth().expect("memory").into_iter();
    let told = |one| {
        (
            world.birth(one).expect("alive").to_string(),
            world.get(one, HP),
        )
    };
    all.map(told).collect()
}

/// If a request is refused, which entities are born depends on which system asked first.
#[test]
fn refusals_depend_on_the_workers() {
    for (workers, birth, late) in [(1, "0.0.0", 1), (2, "0.1.0", 0)] {
        let mut world = World::with_limits(Limits::new(1, 1).expect("limits"));
        let report = two_spawns(&mut world, workers);
        assert_eq!(births(&world), [(birth.to_string(), None)]);
        let faults: Vec<_> = report.faults.iter().map(|fault| fault.system).collect();
        assert_eq!(faults, [late]);
    }
}

/// Two entities that take the slots of two others, whose handles depend on the workers. If the
/// world chooses their births, each has its own. If both have the same birth, the handles decide
/// which is first.
#[test]
fn births_between_frames() {
    fn replace(world: &mut World, spawn: impl Fn(&mut World, i64) -> Handle) -> Vec<Option<i64>> {
        let old = world.by_birth().expect("memory");
        for (one, value) in old.into_iter().zip(1..) {
            world.despawn(one).expect("alive");
            spawn(world, value);
        }
        births(world).into_iter().map(|(_, value)| value).collect()
    }
    let own = |world: &mut World, value| world.spawn(&[(HP, value)]).expect("a handle");
    let equal = |world: &mut World, value| {
        let birth = Birth {
            frame: 7,
            system: 0,
            ordinal: 0,
        };
        let spawned = world.spawn_with_birth(birth, &[(HP, value)]);
        spawned.expect("a handle")
    };
    for workers in [1, 2] {
        let mut world = World::new();
        two_spawns(&mut world, workers);
        assert_eq!(replace(&mut world, own), [Some(1), Some(2)]);
        let by_handle = [[Some(1), Some(2)], [Some(2), Some(1)]][workers - 1];
        assert_eq!(replace(&mut world, equal), by_handle);
    }
}

/// As many systems run at once as there are workers.
#[test]
fn workers_overlap() {
    for workers in [2, 4, 16] {
        let together = Barrier::new(workers);
        let system = |_: &View<'_>, _: &mut SystemCommands<'_>| {
            together.wait();
            Ok::<(), OutOfMemory>(())
        };
        let systems = vec![system; 3 * workers];
        run_frame(&StdThreads, &mut World::new(), &systems, workers).expect("memory");
    }
}

#[test]
fn each_system_runs_once() {
    let runs: Vec<AtomicUsize> = (0..1_000).map(|_| AtomicUsize::new(0)).collect();
    let system = |count| {
        move |_: &View<'_>, _: &mut SystemCommands<'_>| {
            let count: &AtomicUsize = count;
            count.fetch_add(1, Ordering::Relaxed);
            Ok::<(), OutOfMemory>(())
        }
    };
    let systems: Vec<_> = runs.iter().map(system).collect();
    for (round, workers) in [1, 2, 3, 8, 64].into_iter().enumerate() {
        run_frame(&StdThreads, &mut World::new(), &systems, workers).expect("memory");
        let wrong = runs
            .iter()
            .position(|n| n.load(Ordering::Relaxed) != round + 1);
        assert_eq!(wrong, None, "{workers} workers");
    }
}

/// If a system runs out of memory, the frame is lost, even if the system is lent or boxed.
#[test]
fn systems_that_lack_memory() {
    fn lacks(_: &View<'_>, _: &mut SystemCommands<'_>) -> Result<(), OutOfMemory> {
        Err(OutOfMemory)
    }
    let lost = |ran: Result<Report, FrameError>| {
        assert!(
            matches!(ran, Err(FrameError::Lost(Some(OutOfMemory)))),
            "{ran:?}"
        );
    };
    let mut world = World::new();
    lost(run_frame(&StdThreads, &mut world, &[lacks], 1));
    let lent: &(dyn System + Sync) = &lacks;
    lost(run_frame(&StdThreads, &mut world, &[lent], 1));
    let boxed: Box<dyn System + Send + Sync> = Box::new(lacks);
    lost(run_frame(&StdThreads, &mut world, &[boxed], 1));
    assert_eq!((world.frame(), world.len()), (0, 0));
}

/// Each command is in its queue, even one that sets nothing or takes out what isn't there: the
/// fault of such a command on an entity that is gone has its number.
#[test]
fn no_command_is_lost() {
    let mut world = World::new();
    let gone = world.spawn(&[]).expect("a handle");
    let lives = world.spawn(&[(HP, 1), (AGE, 2)]).expect("a handle");
    world.despawn(gone).expect("alive");
    let system = |_: &View<'_>, commands: &mut SystemCommands<'_>| {
        commands.insert_with(gone, &[])?;
        commands.insert_with(gone, &[(HP, 1)])?;
        commands.insert_with(lives, &[(HP, 7), (HP, 8)])?;
        commands.remove(gone, HP)?;
        commands.remove(lives, AGE)?;
        commands.remove(lives, AGE)?;
        commands.insert_with(lives, &[])?;
        commands.despawn(gone)
    };
    let report = run_frame(&StdThreads, &mut world, &[system], 1).expect("memory");
    let faults = report.faults.iter().map(|fault| fault.command);
    assert!(faults.eq([0, 1, 3, 7]));
    let all = |fault: &forgeni::Fault| fault.kind == FaultKind::NotAlive(gone);
    assert!(report.faults.iter().all(all));
    assert_eq!(world.items(lives).map(Vec::from_iter), Some(vec![(HP, 8)]));
}

/// A view lists those with a component, or all, by birth; it tells what each had as the frame
/// began.
#[test]
fn what_a_view_tells() {
    let mut world = World::new();
    let birth = |ordinal| Birth {
        frame: 0,
        system: 0,
        ordinal,
    };
    let spawn = |world: &mut World, ordinal, components: &[(ComponentId, i64)]| {
        let spawned = world.spawn_with_birth(birth(ordinal), components);
        spawned.expect("a handle")
    };
    let late = spawn(&mut world, 9, &[(HP, 1)]);
    let bare = spawn(&mut world, 5, &[]);
    let early = spawn(&mut world, 2, &[(AGE, 3), (HP, 4)]);
    let gone = spawn(&mut world, 1, &[(HP, 1)]);
    world.despawn(gone).expect("alive");
    let system = |view: &View<'_>, commands: &mut SystemCommands<'_>| {
        let spawned = commands.spawn_with(&[(HP, 1)]).expect("a handle");
        commands.insert_with(late, &[(HP, 2)])?;
        assert_eq!(view.with(HP), Ok(vec![early, late]));
        assert_eq!(view.with(AGE), Ok(vec![early]));
        assert_eq!(view.with(ComponentId(9)), Ok(vec![]));
        assert_eq!(view.by_birth(), Ok(vec![early, bare, late]));
        assert_eq!((view.get(late, HP), view.get(bare, HP)), (Some(1), None));
        assert_eq!(view.birth(bare), Some(birth(5)));
        assert_eq!(view.of_birth(birth(9)), Some(late));
        assert_eq!(view.of_birth(birth(1)), None);
        let lives = [late, bare, early, gone, spawned].map(|one| view.contains(one));
        assert_eq!(lives, [true, true, true, false, false]);
        assert_eq!(view.phase(), 0);
        Ok::<(), OutOfMemory>(())
    };
    run_frame(&StdThreads, &mut world, &[system], 1).expect("memory");
    assert_eq!(world.get(late, HP), Some(2));
}

#[test]
fn what_a_frame_wants() {
    let nothing = |_: &View<'_>, _: &mut SystemCommands<'_>| Ok::<(), OutOfMemory>(());
    let mut world = World::new();
    for workers in [0, 65, usize::MAX] {
        let refused = run_frame(&StdThreads, &mut world, &[nothing], workers).expect_err("refused");
        assert!(matches!(refused, FrameError::Workers), "{refused}");
        assert_eq!(refused.to_string(), "a frame has 1 to 64 workers");
    }
    let most = vec![nothing; 65_536];
    run_frame(&StdThreads, &mut world, &most, 2).expect("memory");
    let refused = run_frame(&StdThreads, &mut world, &[nothing; 65_537], 2).expect_err("refused");
    assert!(matches!(refused, FrameError::Systems), "{refused}");
    assert_eq!((world.frame(), world.len()), (1, 0));

    // A frame of nothing ends a phase too.
    run_frame(&StdThreads, &mut world, &most[..0], 64).expect("memory");
    assert_eq!(world.frame(), 2);

    let (open, mut systems) = world.open(1).expect("opened");
    systems[0].spawn(&[]).expect("a handle");
    let (mut world, queues) = open.close(systems).expect("closed");
    let refused = run_frame(&StdThreads, &mut world, &[nothing], 1).expect_err("not flushed");
    assert!(matches!(refused, FrameError::NeedsFlush), "{refused}");
    world.apply(queues).expect("memory");
    run_frame(&StdThreads, &mut world, &[nothing], 1).expect("memory");
    assert_eq!((world.frame(), world.len()), (4, 1));
}
