//! A caller's code panics in the middle of a call, or beside one. The panic is handed on, and what
//! it found half done is a state that the package speaks of, with nothing lost.

use crate::common::{flushed, handle, small};
use forgeni::{CloseError, ComponentId, Entities, OpenWorld, Reserver, World};
use std::fmt::{self, Write};
use std::panic::{catch_unwind, resume_unwind, AssertUnwindSafe};
use std::thread;

const HP: ComponentId = ComponentId(0);

/// A world with one entity.
fn one() -> World {
    let mut world = World::new();
    world.spawn(&[(HP, 7)]).expect("memory");
    world
}

#[cfg(feature = "std")]
mod frames {
    use super::*;
    use forgeni::{
        run_frame, Birth, FrameError, OutOfMemory, StdThreads, System, SystemCommands, View,
    };
    use std::panic::panic_any;

    /// What a system does.
    #[derive(Clone, Copy)]
    enum Does {
        /// Spawns that many, all at once.
        Spawn(u32),
        /// Spawns that many, and then panics with the number.
        SpawnAndPanic(u32, u32),
        /// Despawns all.
        Despawn,
        /// Says that memory ran out.
        Memory,
    }

    impl System for Does {
        fn run(
            &self,
            view: &View<'_>,
            commands: &mut SystemCommands<'_>,
        ) -> Result<(), OutOfMemory> {
            match *self {
                Does::Spawn(count) => {
                    commands
                        .spawn_many_with(count, &[(HP, 1)])
                        .expect("handles");
                }
                Does::SpawnAndPanic(count, number) => {
                    commands
                        .spawn_many_with(count, &[(HP, 1)])
                        .expect("handles");
                    // This panic prints nothing.
                    resume_unwind(Box::new(number));
                }
                Does::Despawn => {
                    for one in view.by_birth()? {
                        commands.despawn(one)?;
                    }
                }
                Does::Memory => return Err(OutOfMemory),
            }
            Ok(())
        }
    }

    /// The number with which a frame of these systems panics.
    fn panic_of(world: &mut World, systems: &[Does], workers: usize) -> u32 {
        let ran = catch_unwind(AssertUnwindSafe(|| {
            run_frame(&StdThreads, world, systems, workers)
        }));
        let panic = ran.expect_err("a panic is handed on");
        *panic.downcast::<u32>().expect("the number")
    }

    const WORKERS: [usize; 5] = [1, 2, 3, 16, 64];

    #[test]
    fn a_system_that_panics_leaves_the_world() {
        for workers in WORKERS {
            let mut world = one();
            let systems = [Does::Despawn, Does::SpawnAndPanic(3, 9)];
            assert_eq!(panic_of(&mut world, &systems, workers), 9);

            // No command was applied, and what was reserved is known.
            assert_eq!((world.len(), world.frame()), (1, 0));
            assert_eq!(world.get(handle(0, 1), HP), Some(7));
            assert!(world.needs_flush());
            let refused =
                run_frame(&StdThreads, &mut world, &systems, workers).expect_err("not flushed");
            assert!(matches!(refused, FrameError::NeedsFlush), "{refused}");
            world.flush().expect("memory");
            assert_eq!((world.len(), world.frame()), (4, 1));
            for ordinal in 0..3 {
                let born = Birth {
                    frame: 0,
                    system: Birth::NO_SYSTEM,
                    ordinal,
                };
                let entity = handle(1 + ordinal, 1);
                assert_eq!(world.birth(entity), Some(born));
                assert_eq!(world.items(entity).map(Vec::from_iter), Some(vec![]));
            }

            // The next frame is like any other.
            let systems = [Does::Despawn, Does::Spawn(2)];
            let report = run_frame(&StdThreads, &mut world, &systems, workers).expect("memory");
            assert_eq!((report.born.len(), report.faults.len()), (2, 0));
            assert_eq!((world.len(), world.frame()), (2, 2));
        }
    }

    /// Without a reservation the world is flushed as before.
    #[test]
    fn a_panic_before_any_command() {
        for workers in WORKERS {
            let mut world = one();
            assert_eq!(
                panic_of(&mut world, &[Does::SpawnAndPanic(0, 1)], workers),
                1
            );
            assert_eq!((world.len(), world.frame()), (1, 0));
            world.flush().expect("memory");
            assert_eq!(
                world.despawn(handle(0, 1)).expect("alive").next,
                Some(handle(0, 2))
            );
        }
    }

    /// Several systems panic. The panic of the first one in their order is handed on.
    #[test]
    fn the_first_panic_is_handed_on() {
        for workers in WORKERS {
            for _ in 0..50 {
                let mut world = one();
                let mut systems = vec![Does::Spawn(1); 100];
                for number in [7, 8, 40, 99] {
                    systems[number] = Does::SpawnAndPanic(1, number as u32);
                }
                assert_eq!(panic_of(&mut world, &systems, workers), 7);
                world.flush().expect("memory");
                // All up to the seventh ran, and of the others those that were taken.
                assert!((9..=101).contains(&world.len()), "{}", world.len());
            }
        }
    }

    #[test]
    fn a_panic_beside_want_of_memory() {
        for workers in WORKERS {
            let mut world = one();
            let systems = [Does::SpawnAndPanic(1, 5), Does::Memory];
            assert_eq!(panic_of(&mut world, &systems, workers), 5);
            world.flush().expect("memory");
            assert_eq!(world.len(), 2);

            let systems = [Does::Spawn(2), Does::Memory];
            let refused =
                run_frame(&StdThreads, &mut world, &systems, workers).expect_err("memory");
            assert!(
                matches!(refused, FrameError::Lost(Some(OutOfMemory))),
                "{refused}"
            );
            world.flush().expect("memory");
            assert_eq!(world.len(), 4);
        }
    }

    /// The frame is dropped while its thread unwinds, and the world with it.
    #[test]
    fn a_world_that_unwinds_with_its_frame() {
        let thread = thread::spawn(|| {
            let mut world = one();
            let _ = run_frame(&StdThreads, &mut world, &[Does::SpawnAndPanic(4, 3)], 2);
        });
        let panic = thread.join().expect_err("it panics");
        assert_eq!(panic.downcast_ref(), Some(&3_u32));
    }

    /// A value whose drop panics too. The code that catches the panic drops it, not the frame.
    struct Loud;

    impl Drop for Loud {
        fn drop(&mut self) {
            if !thread::panicking() {
                resume_unwind(Box::new("dropped"));
            }
        }
    }

    #[test]
    fn a_panic_whose_value_panics() {
        let mut world = one();
        let system = |_: &View<'_>, commands: &mut SystemCommands<'_>| -> Result<(), OutOfMemory> {
            commands.spawn_with(&[]).expect("a handle");
            panic_any(Loud)
        };
        let ran = catch_unwind(AssertUnwindSafe(|| {
            run_frame(&StdThreads, &mut world, &[system], 1)
        }));
        let loud = ran.expect_err("a panic is handed on");
        assert!(loud.is::<Loud>());
        assert!(catch_unwind(AssertUnwindSafe(|| drop(loud))).is_err());
        world.flush().expect("memory");
        assert_eq!(world.len(), 2);

        // With two of them the second one is dropped, and that panics.
        let ran = catch_unwind(AssertUnwindSafe(|| {
            run_frame(&StdThreads, &mut world, &[system; 2], 2)
        }));
        let panic = ran.expect_err("a panic is handed on");
        std::mem::forget(panic);
        world.flush().expect("memory");
        assert!((3..=4).contains(&world.len()));
    }
}

/// Systems on threads of the program's own: one panics in the middle of its commands, and its queue
/// is lost.
#[test]
fn a_phase_goes_on_without_the_system_that_panicked() {
    let (open, systems) = one().open(4).expect("opened");
    let joined: Vec<_> = thread::scope(|scope| {
        let run = |mut commands: Reserver<OpenWorld>| {
            scope.spawn(move || {
                commands.spawn(&[(HP, 2)]).expect("a handle");
                if commands.number() == 2 {
                    resume_unwind(Box::new("stopped"));
                }
                commands
            })
        };
        let threads: Vec<_> = systems.into_iter().map(run).collect();
        threads.into_iter().map(|thread| thread.join()).collect()
    });
    let systems: Vec<_> = joined.into_iter().filter_map(Result::ok).collect();
    let left = open.close(systems).expect_err("one is lost");
    let ((open, systems), error) = left.into_parts();
    assert_eq!(error, CloseError::Missing { count: 1 });
    let (mut world, queues) = open.close_lost(systems).expect("it is lost");
    let report = world.apply(queues).expect("memory");
    assert_eq!((report.born.len(), report.faults.len()), (4, 0));
    let with = |one| world.get(one, HP) == Some(2);
    let living = world.by_birth().expect("memory");
    assert_eq!(living.into_iter().filter(|one| with(*one)).count(), 3);
}

/// A reserver that is used while its thread unwinds, by a drop.
#[test]
fn a_reserver_in_a_drop() {
    struct Reserves<'a>(&'a mut forgeni::Reserver);

    impl Drop for Reserves<'_> {
        fn drop(&mut self) {
            self.0.reserve().expect("a handle");
        }
    }

    let (shared, mut reservers) = small(5, 1).share(1).expect("shared");
    let only = &mut reservers[0];
    let ran = catch_unwind(AssertUnwindSafe(|| {
        let reserves = Reserves(only);
        reserves.0.reserve().expect("a handle");
        resume_unwind(Box::new("stopped"));
    }));
    assert!(ran.is_err());
    let mut entities = shared.close(reservers).expect("closed");
    assert_eq!(flushed(&mut entities), [handle(0, 1), handle(1, 1)]);
}

/// A writer that panics after some bytes, in the middle of what prints itself.
struct Breaks(usize);

impl Write for Breaks {
    fn write_str(&mut self, text: &str) -> fmt::Result {
        match self.0.checked_sub(text.len()) {
            Some(left) => self.0 = left,
            None => resume_unwind(Box::new("full")),
        }
        Ok(())
    }
}

fn breaks(printed: &dyn fmt::Debug) {
    let whole = format!("{printed:?}").len();
    for room in 0..whole {
        let write = || write!(Breaks(room), "{printed:?}");
        assert!(catch_unwind(AssertUnwindSafe(write)).is_err());
    }
    write!(Breaks(whole), "{printed:?}").expect("there is room");
}

#[test]
fn printing_that_panics_changes_nothing() {
    let mut entities = Entities::new();
    entities.alloc().expect("memory");
    breaks(&entities);
    assert_eq!(entities.alloc(), Ok(handle(1, 1)));

    let (shared, mut reservers) = entities.share(1).expect("shared");
    breaks(&shared);
    breaks(&reservers);
    assert_eq!(reservers[0].reserve(), Ok(handle(2, 1)));
    assert_eq!(shared.close(reservers).expect("closed").reserved(), 1);

    let (open, mut systems) = one().open(1).expect("opened");
    breaks(&open);
    breaks(&systems);
    systems[0].despawn(handle(4, 1)).expect("memory");
    breaks(&systems);
    let (mut world, queues) = open.close(systems).expect("closed");
    breaks(&queues);
    breaks(&world);
    let report = world.apply(queues).expect("memory");
    breaks(&report);
    assert_eq!(report.faults.len(), 1);
}
