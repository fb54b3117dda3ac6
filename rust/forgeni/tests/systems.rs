//! What is a system, of either kind and over either source of handles.

use forgeni::{
    fill_in_blocks, run_frame, run_in_blocks, run_logs, Blocks, Entities, Handle, Log, LogCommands,
    LogSystem, OutOfMemory, Source, StdThreads, System, View, World, WorldCommands,
};
use std::sync::{Arc, Mutex};

type Ran = Result<(), OutOfMemory>;

/// Spawns one, as any system of a world may.
fn spawn<S: Source>(_: &View<'_>, commands: &mut WorldCommands<'_, S>) -> Ran {
    commands.spawn_with(&[]).expect("a handle");
    Ok(())
}

/// The same of systems that fill logs.
fn burst<S: Source>(commands: &mut LogCommands<'_, usize, S>) -> Ran {
    commands.spawn().expect("a handle");
    commands.push(commands.entries().len())
}

/// A system that runs one of each type that is one, nine in all.
struct All;

macro_rules! runs_all {
    ($kind:path, $through:ident, $spawn:ident, $($with:ident: $type:ty),*) => {
        fn $through<S: Source, T: $kind>(system: T, $($with: $type),*) -> Ran {
            system.run($($with),*)
        }

        impl<S: Source> $kind for All {
            fn run(&self, $($with: $type),*) -> Ran {
                let (one, mut calls) = ($spawn::<S>, 0);
                let counts = |$($with: $type),*| {
                    calls += 1;
                    $spawn($($with),*)
                };
                $through(one, $($with),*)?;
                $through::<S, &(dyn $kind + '_)>(&Mutex::new(counts), $($with),*)?;
                $through::<S, &(dyn $kind + Sync + '_)>(&one, $($with),*)?;
                $through::<S, &(dyn $kind + Send + Sync + '_)>(&one, $($with),*)?;
                $through::<S, Box<dyn $kind + '_>>(Box::new(&one), $($with),*)?;
                $through::<S, Box<dyn $kind + Sync + '_>>(Box::new(one), $($with),*)?;
                $through::<S, Box<dyn $kind + Send + Sync + '_>>(Box::new(one), $($with),*)?;
                $through(Arc::new(one), $($with),*)?;
                $through::<S, Arc<dyn $kind + '_>>(Arc::new(one), $($with),*)?;
                assert_eq!(calls, 1);
                Ok(())
            }
        }
    };
}

runs_all!(System<S>, through, spawn, view: &View<'_>, commands: &mut WorldCommands<'_, S>);
runs_all!(LogSystem<usize, S>, through_log, burst, commands: &mut LogCommands<'_, usize, S>);

#[test]
fn of_a_world() {
    let (mut world, calls) = (World::new(), Mutex::new(0));
    let counts = Mutex::new(|view: &View<'_>, commands: &mut WorldCommands<'_>| {
        *calls.lock().expect("no panic") += view.by_birth()?.len();
        spawn(view, commands)
    });
    let systems: [Box<dyn System + Send + Sync>; 3] =
        [Box::new(All), Box::new(spawn), Box::new(counts)];
    for frame in 1..3 {
        run_frame(&StdThreads, &mut world, &systems, 2).expect("memory");
        assert_eq!(world.len(), 11 * frame);
    }
    drop(systems);
    assert_eq!(calls.into_inner().expect("no panic"), 11);
}

#[test]
fn of_a_world_in_blocks() {
    let (phase, mut reservers) = World::new().open_in::<Blocks>(&[9, 1]).expect("memory");
    let systems: [&(dyn System<_> + Sync); 2] = [&All, &spawn];
    let queues = fill_in_blocks(&StdThreads, &phase, &mut reservers, &systems, 2).expect("memory");
    let ended = phase.close(reservers).expect("all are here");
    let mut world = ended.into_world().expect("memory");
    world.apply(queues).expect("memory");
    assert_eq!(world.len(), 10);
}

#[test]
fn of_logs() {
    let mut entities = Entities::new();
    let systems: [Arc<dyn LogSystem<usize> + Send + Sync>; 2] = [Arc::new(All), Arc::new(burst)];
    let logs = run_logs(&StdThreads, &mut entities, &systems, 2).expect("memory");
    assert!(logs.iter().map(Log::len).eq([18, 2]));
}

#[test]
fn of_logs_in_blocks() {
    let shared = Entities::new().share_in::<Blocks>(&[9, 1]);
    let (phase, mut reservers) = shared.expect("memory");
    let systems: [Box<dyn LogSystem<_, _> + Sync>; 2] = [Box::new(All), Box::new(burst)];
    let ran = run_in_blocks(&StdThreads, &phase, &mut reservers, &systems, 2);
    assert!(ran.expect("memory").iter().map(Log::len).eq([18, 2]));
}

/// A run of systems that fill logs can use the blocks of a world too.
#[test]
fn of_logs_in_the_blocks_of_a_world() {
    let (phase, mut reservers) = World::new().open_in::<Blocks>(&[9, 1]).expect("memory");
    let systems: [Box<dyn LogSystem<_, _> + Sync>; 2] = [Box::new(All), Box::new(burst)];
    let ran = run_in_blocks(&StdThreads, &phase, &mut reservers, &systems, 2);
    assert!(ran.expect("memory").iter().map(Log::len).eq([18, 2]));
    assert!(reservers.iter().map(|it| it.used()).eq([9, 1]));
    let ended = phase.close(reservers).expect("all are here");
    let mut world = ended.into_world().expect("memory");
    world.flush().expect("memory");
    assert_eq!(world.len(), 10);
}

/// A system that fills a log sees what was alive when the phase was opened, and the rows that were
/// kept.
struct Sees([Handle; 3]);

impl<S: Source> LogSystem<Handle, S> for Sees {
    fn run(&self, commands: &mut LogCommands<'_, Handle, S>) -> Ran {
        let [with_row, bare, gone] = self.0;
        let new = commands.spawn().expect("a handle");
        let seen = |one| (commands.is_alive(one), commands.row(one));
        assert_eq!(
            [with_row, bare, gone, new].map(seen),
            [(true, Some(7)), (true, None), (false, None), (false, None)]
        );
        commands.push(new)
    }
}

#[test]
fn systems_see_what_is_alive() {
    let mut entities = Entities::new();
    let all = [(); 3].map(|()| entities.alloc().expect("a handle"));
    entities.try_set_row(all[0], 7).expect("alive");
    entities.try_set_row(all[2], 8).expect("alive");
    entities.free(all[2]).expect("alive");
    let logs = run_logs(&StdThreads, &mut entities, &[Sees(all)], 1).expect("memory");
    entities.flush(&mut vec![]).expect("memory");
    let (phase, mut reservers) = entities.share_in::<Blocks>(&[1]).expect("memory");
    let ran = run_in_blocks(&StdThreads, &phase, &mut reservers, &[Sees(all)], 1);
    let in_blocks = ran.expect("memory");
    let entries = |logs: &[Log<Handle>]| logs[0].entries().to_vec();
    assert!(entries(&logs).len() == 2 && entries(&logs) != entries(&in_blocks));
}
