//! Frames on rayon's threads: the same as on threads of std, for any number of workers and threads.

use forgeni::{run_frame, run_logs, ComponentId, Entities, Entry, Join, StdThreads};
use forgeni::{LogCommands, OutOfMemory, Rayon, SystemCommands, View, World};
use rayon::{ThreadPool, ThreadPoolBuilder};
use std::sync::Barrier;

const AGE: ComponentId = ComponentId(0);

fn pool(threads: usize) -> ThreadPool {
    let builder = ThreadPoolBuilder::new().num_threads(threads);
    builder.build().expect("threads")
}

/// Spawns as many entities as its number, and one older one dies.
fn system(
    number: i64,
) -> impl Fn(&View<'_>, &mut SystemCommands<'_>) -> Result<(), OutOfMemory> + Sync {
    move |view, commands| {
        for age in 0..number {
            let spawned = commands.spawn_with(&[(AGE, age)]);
            spawned.map_or_else(|refused| refused.or_memory(), |_| Ok(()))?;
        }
        let eldest = view.by_birth()?.into_iter().nth(number as usize);
        eldest.map_or(Ok(()), |one| commands.despawn(one))
    }
}

/// The births of all entities with their ages after 20 frames of 16 systems.
fn story(frame: impl Fn(&mut World)) -> Vec<(String, Option<i64>)> {
    let mut world = World::new();
    (0..20).for_each(|_| frame(&mut world));
    let all = world.by_birth().expect("memory").into_iter();
    let told = |one| {
        (
            world.birth(one).expect("alive").to_string(),
            world.get(one, AGE),
        )
    };
    all.map(told).collect()
}

#[test]
fn the_threads_make_no_difference() {
    let systems: Vec<_> = (0..16).map(system).collect();
    let wanted = story(|world| drop(run_frame(&StdThreads, world, &systems, 1).expect("memory")));
    assert!(wanted.len() > 1_000);
    for workers in [1, 2, 3, 4, 8, 64] {
        let on = |join: &(dyn Join + Sync)| {
            let told = story(|world| {
                drop(run_frame(&join, world, &systems, workers).expect("memory"));
            });
            assert_eq!(told, wanted, "{workers} workers");
        };
        on(&Rayon);
        for threads in [1, 2, 4] {
            on(&pool(threads));
        }
    }
}

/// In a pool of four threads four systems run at once.
#[test]
fn systems_overlap() {
    let together = Barrier::new(4);
    let system = |_: &View<'_>, _: &mut SystemCommands<'_>| {
        together.wait();
        Ok::<(), OutOfMemory>(())
    };
    let mut world = World::new();
    for _ in 0..100 {
        run_frame(&pool(4), &mut world, &[system; 8], 4).expect("memory");
    }
}

/// `Rayon` in a pool runs on that pool.
#[test]
fn rayon_takes_the_pool_of_the_caller() {
    let seen = |_: &View<'_>, _: &mut SystemCommands<'_>| {
        assert_eq!(rayon::current_num_threads(), 3);
        assert!(rayon::current_thread_index().is_some());
        Ok::<(), OutOfMemory>(())
    };
    pool(3).install(|| run_frame(&Rayon, &mut World::new(), &[seen; 9], 3).expect("memory"));
}

/// A system that panics in a thread of rayon: the panic is handed on, and the world is as it was.
#[test]
fn a_system_panics() {
    let panics = |_: &View<'_>, commands: &mut SystemCommands<'_>| {
        commands.spawn_with(&[]).expect("a handle");
        assert!(rayon::current_num_threads() == 0, "the system");
        Ok::<(), OutOfMemory>(())
    };
    let mut world = World::new();
    let ran = std::panic::AssertUnwindSafe(|| {
        drop(run_frame(&pool(2), &mut world, &[panics; 4], 4));
    });
    let panic = std::panic::catch_unwind(ran).expect_err("a panic");
    assert_eq!(panic.downcast_ref(), Some(&"the system"));
    assert_eq!((world.frame(), world.len()), (0, 0));
    world.flush().expect("memory");
    assert!((1..=4).contains(&world.len()));
}

/// Logs that systems fill on rayon's threads are in the order of the systems.
#[test]
fn systems_fill_logs() {
    let system = |number: u32| move |commands: &mut LogCommands<'_, u32>| commands.push(number);
    let systems: Vec<_> = (0..16).map(system).collect();
    for workers in [1, 2, 4, 64] {
        let mut entities = Entities::new();
        let logs = run_logs(&Rayon, &mut entities, &systems, workers).expect("memory");
        let all: Vec<_> = logs.iter().flat_map(|log| log.entries().to_vec()).collect();
        assert_eq!(all, (0..16).map(Entry::Command).collect::<Vec<_>>());
        let stopped = run_logs(&pool(2), &mut entities, &systems[..0], workers);
        assert!(stopped.expect("nothing takes memory").is_empty());
    }
}
