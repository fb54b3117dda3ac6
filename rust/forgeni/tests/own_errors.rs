//! Systems that return errors of the program's own: a run that is broken off returns the first one
//! in the order of the systems.

use crate::common::small;
use forgeni::{fill_in_blocks, run_frame, run_in_blocks, run_logs};
use forgeni::{run_to_sync_point, Blocks, Entities, FrameError, LogCommands, WorldCommands};
use forgeni::{LogSystem, OutOfMemory, ReserveError, RunError, SharedSource, StdThreads};
use forgeni::{System, SystemCommands, View, World};
use std::error::Error;
use std::io;
use std::sync::{Arc, Mutex};

const WORKERS: [usize; 6] = [1, 2, 3, 4, 8, 64];

/// Why a system of these tests stops. It is neither `Copy` nor `Clone`.
#[derive(Debug, PartialEq)]
enum Stop {
    Memory,
    Full(ReserveError),
    Read(io::ErrorKind),
    Told(String),
}

impl From<OutOfMemory> for Stop {
    fn from(_: OutOfMemory) -> Self {
        Self::Memory
    }
}

impl From<ReserveError> for Stop {
    fn from(refused: ReserveError) -> Self {
        Self::Full(refused)
    }
}

impl From<io::Error> for Stop {
    fn from(error: io::Error) -> Self {
        Self::Read(error.kind())
    }
}

/// An error, if this is one of the systems that return one.
fn told(number: usize) -> Result<(), Stop> {
    match [7, 9, 30].contains(&number) {
        true => Err(Stop::Told(format!("system {number}"))),
        false => Ok(()),
    }
}

/// That of the first one.
fn first() -> Stop {
    Stop::Told("system 7".to_owned())
}

#[test]
fn a_frame_returns_the_first_error() {
    let systems: Vec<_> = (0..40)
        .map(|number| {
            move |_: &View<'_>, commands: &mut SystemCommands<'_>| {
                commands.spawn_with(&[])?;
                told(number)
            }
        })
        .collect();
    for workers in WORKERS {
        let mut world = World::new();
        let lost =
            run_frame(&StdThreads, &mut world, &systems, workers).expect_err("system 7 stops");
        let FrameError::Lost(error) = lost else {
            panic!("{lost:?}")
        };
        assert_eq!(error, Some(first()));
        world.flush().expect("memory");
        assert!((8..=40).contains(&world.len()));
    }
}

#[test]
fn logs_return_the_first_error() {
    let systems: Vec<_> = (0..40)
        .map(|number| {
            move |commands: &mut LogCommands<'_, usize>| {
                commands.push(number)?;
                told(number)
            }
        })
        .collect();
    for workers in WORKERS {
        let mut entities = Entities::new();
        let lost =
            run_logs(&StdThreads, &mut entities, &systems, workers).expect_err("system 7 stops");
        assert_eq!(lost, RunError::Lost(Some(first())));
        let mut born = vec![];
        let unbegun = run_to_sync_point(&StdThreads, &mut entities, &systems, workers, &mut born);
        let (logs, error) = unbegun.map(drop).expect_err("system 7 stops").into_parts();
        assert_eq!((logs.len(), error), (0, RunError::Lost(Some(first()))));
    }
}

#[test]
fn blocks_return_the_first_error() {
    let logging: Vec<_> = (0..40)
        .map(|number| move |_: &mut LogCommands<'_, (), Blocks>| told(number))
        .collect();
    let issuing: Vec<_> = (0..40)
        .map(|number| move |_: &View<'_>, _: &mut WorldCommands<'_, Blocks>| told(number))
        .collect();
    for workers in WORKERS {
        let shared = Entities::new().share_in::<Blocks>(&[1; 40]);
        let (phase, mut reservers) = shared.expect("memory");
        let ran = run_in_blocks(&StdThreads, &phase, &mut reservers, &logging, workers);
        let error = ran.expect_err("system 7 stops");
        assert_eq!(error, RunError::Lost(Some(first())));

        let (phase, mut reservers) = World::new().open_in::<Blocks>(&[1; 40]).expect("memory");
        let filled = fill_in_blocks(&StdThreads, &phase, &mut reservers, &issuing, workers);
        let error = filled.expect_err("system 7 stops");
        assert_eq!(error, RunError::Lost(Some(first())));
    }
}

/// A spawn that is refused stops a system that hands it on by `?`.
#[test]
fn a_refused_spawn_as_an_error() {
    let spawn = |commands: &mut LogCommands<'_, ()>| -> Result<(), Stop> {
        for _ in 0..3 {
            commands.spawn()?;
        }
        Ok(())
    };
    let refused = ReserveError::Space { wanted: 1, left: 0 };
    for workers in WORKERS {
        let lost =
            run_logs(&StdThreads, &mut small(7, 9), &[spawn; 5], workers).expect_err("seven slots");
        assert_eq!(lost, RunError::Lost(Some(Stop::Full(refused))));
    }
}

/// What reads a device stops with its error.
#[test]
fn an_error_of_a_device() {
    let read = |_: &View<'_>, commands: &mut SystemCommands<'_>| -> Result<(), Stop> {
        let text = io::read_to_string(Closed)?;
        commands.spawn_with(&[])?;
        told(text.len())
    };
    for workers in WORKERS {
        let mut world = World::new();
        let lost =
            run_frame(&StdThreads, &mut world, &[read; 3], workers).expect_err("it is closed");
        let FrameError::Lost(error) = lost else {
            panic!("{lost:?}")
        };
        assert_eq!(error, Some(Stop::Read(io::ErrorKind::NotConnected)));
        // No system came to its spawn.
        assert!(!world.needs_flush());
    }
}

/// A device that nobody reads.
struct Closed;

impl io::Read for Closed {
    fn read(&mut self, _: &mut [u8]) -> io::Result<usize> {
        Err(io::ErrorKind::NotConnected.into())
    }
}

/// `?` converts what a call without memory returns.
#[test]
fn out_of_memory_as_an_error() {
    let stops = |_: &mut LogCommands<'_, ()>| -> Result<(), Stop> { Ok(Err(OutOfMemory)?) };
    for workers in WORKERS {
        let lost = run_logs(&StdThreads, &mut Entities::new(), &[stops; 5], workers)
            .expect_err("it stops");
        assert_eq!(lost, RunError::Lost(Some(Stop::Memory)));
    }
}

/// A run whose systems all end has no error, whatever type it is.
#[test]
fn a_run_without_an_error() {
    let idle = |_: &View<'_>, _: &mut SystemCommands<'_>| -> Result<(), Stop> { Ok(()) };
    let says = |commands: &mut LogCommands<'_, u8>| -> Result<(), Stop> { Ok(commands.push(1)?) };
    for workers in WORKERS {
        run_frame(&StdThreads, &mut World::new(), &[idle; 9], workers).expect("no system stops");
        let logs = run_logs(&StdThreads, &mut Entities::new(), &[says; 9], workers)
            .expect("no system stops");
        assert!(logs.iter().all(|log| log.len() == 1));
    }
}

/// The error of a system is `OutOfMemory` where none is named. Rust infers it from a closure, and
/// finds it for a system in a `Mutex` and behind each pointer.
#[test]
fn the_error_that_is_not_named() {
    fn lost(ran: Result<Vec<forgeni::Log<u8>>, RunError>) {
        assert_eq!(ran.err(), Some(RunError::Lost(Some(OutOfMemory))));
    }
    fn last(_: &mut LogCommands<'_, u8>) -> Result<(), OutOfMemory> {
        Err(OutOfMemory)
    }
    let mut entities = Entities::new();
    let all = &mut entities;
    // The calls of commands return `OutOfMemory`, so the closures do.
    let closure = |commands: &mut LogCommands<'_, u8>| {
        commands.push(1)?;
        Err(OutOfMemory)
    };
    let mut calls = 0;
    let counts = Mutex::new(|commands: &mut LogCommands<'_, u8>| {
        calls += 1;
        commands.push(1).and(Err(OutOfMemory))
    });
    let lent: &(dyn LogSystem<u8> + Sync) = &closure;
    let boxed: Box<dyn LogSystem<u8> + Sync> = Box::new(closure);
    let shared: Arc<dyn LogSystem<u8> + Send + Sync> = Arc::new(closure);
    lost(run_logs(&StdThreads, all, &[closure], 1));
    lost(run_logs(&StdThreads, all, &[last], 1));
    lost(run_logs(&StdThreads, all, &[lent], 1));
    lost(run_logs(&StdThreads, all, &[boxed], 1));
    lost(run_logs(&StdThreads, all, &[shared], 1));
    lost(run_logs(&StdThreads, all, &[counts], 1));
    assert_eq!(calls, 1);

    let issues = |_: &View<'_>, commands: &mut SystemCommands<'_>| {
        commands
            .spawn_with(&[])
            .map_or_else(ReserveError::or_memory, |_| Err(OutOfMemory))
    };
    let counts = Mutex::new(|_: &View<'_>, _: &mut SystemCommands<'_>| Err(OutOfMemory));
    let lent: &(dyn System + Sync) = &issues;
    let boxed: Box<dyn System + Sync> = Box::new(issues);
    let shared: Arc<dyn System + Send + Sync> = Arc::new(issues);
    let mut world = World::new();
    let lost = |ran: Result<forgeni::Report, FrameError>, world: &mut World| {
        assert!(matches!(ran, Err(FrameError::Lost(Some(OutOfMemory)))));
        world.flush().expect("memory");
    };
    macro_rules! all_lost {
        ($($system:expr)*) => {$(
            let ran = run_frame(&StdThreads, &mut world, &[$system], 1);
            lost(ran, &mut world);
        )*};
    }
    all_lost! { issues lent boxed shared counts forgeni::system(|_, _| Err(OutOfMemory)) }
    assert_eq!(world.len(), 4);
}

/// Systems behind pointers and in a `Mutex` have errors of the program's own too, also boxed ones.
#[test]
fn systems_behind_pointers() {
    type Own = Box<dyn Error + Send + Sync>;
    let stops = |_: &mut LogCommands<'_, ()>| -> Result<(), Own> { Err("own".into()) };
    let mut calls = 0;
    let counts = Mutex::new(|_: &mut LogCommands<'_, ()>| -> Result<(), Own> {
        calls += 1;
        Err("own".into())
    });
    let lent: &(dyn LogSystem<(), SharedSource, Own> + Sync) = &stops;
    let boxed: Box<dyn LogSystem<(), SharedSource, Own> + Sync> = Box::new(stops);
    let shared: Arc<dyn LogSystem<(), SharedSource, Own> + Send + Sync> = Arc::new(stops);
    let is_own = |lost: RunError<Own>| {
        assert_eq!(lost.to_string(), "a system stopped: own");
        assert!(matches!(lost, RunError::Lost(Some(_))));
    };
    let mut entities = Entities::new();
    is_own(run_logs(&StdThreads, &mut entities, &[lent], 1).expect_err("it stops"));
    is_own(run_logs(&StdThreads, &mut entities, &[boxed], 1).expect_err("it stops"));
    is_own(run_logs(&StdThreads, &mut entities, &[shared], 1).expect_err("it stops"));
    is_own(run_logs(&StdThreads, &mut entities, &[counts], 1).expect_err("it stops"));
    assert_eq!(calls, 1);

    let issues =
        |_: &View<'_>, _: &mut SystemCommands<'_>| -> Result<(), Own> { Err("own".into()) };
    let boxed: Box<dyn System<SharedSource, Own> + Sync> = Box::new(issues);
    let lost = run_frame(&StdThreads, &mut World::new(), &[boxed], 1).expect_err("it stops");
    assert_eq!(lost.to_string(), "a system stopped: own");
}
