//! Memory runs out in the middle of a sync point, which goes on, and of `share` and `open`, which
//! give back what they were called on. That is tried in processes of their own, whose memory is
//! bounded.

mod common;

use common::{flushed, this_program};
use forgeni::{ComponentId, Entities, Fault, GoOnError, Handle, Limits};
use forgeni::{Queues, Report, ReserveError, ShareError, Stop, Stopped, SyncError, World};
use std::env;
use std::process::Command;

const ID: ComponentId = ComponentId(7);

/// How many entities are spawned.
const COUNT: u32 = 20_000;

/// How often every second of them is despawned. All but the first of these commands are faults.
/// Their list outgrows what the spawning leaves free, so memory runs out there too.
const TIMES: usize = 8;

/// How many small parts of memory there are to give back.
const STEPS: usize = 512;

const MIB: usize = 1 << 20;

/// Set in the process with little memory.
const LITTLE: &str = "FORGENI_LITTLE_MEMORY";

/// What a sync point has made: who lives, with which value, and the faults.
type Made = (Vec<(Handle, Option<i64>)>, Vec<Fault>);

/// A place where a sync point stopped.
type Place = (usize, usize, usize);

/// A world, and the queues of two systems: the first spawns, and the second despawns half of that,
/// again and again.
fn prepared() -> (World, Queues) {
    let limits = Limits::new(COUNT, 9).expect("limits");
    let (open, mut systems) = World::with_limits(limits).open(2).expect("opened");
    let components: Vec<_> = (0..8).map(|id| (ComponentId(id), i64::from(id))).collect();
    let handles = systems[0].spawn_many(COUNT, &components).expect("spawned");
    for one in handles.iter().step_by(2) {
        for _ in 0..TIMES {
            systems[1].despawn(*one).expect("issued");
        }
    }
    open.close(systems).expect("closed")
}

fn living(world: &World) -> Vec<(Handle, Option<i64>)> {
    let all = world.by_birth().expect("a list");
    all.into_iter()
        .map(|one| (one, world.get(one, ID)))
        .collect()
}

/// All the memory that there is, in parts. The last of them, at least as many as `STEPS`, have this
/// size.
fn ballast(size: usize) -> Vec<Vec<u8>> {
    let mut parts = Vec::with_capacity(100_000);
    fill(&mut parts, MIB);
    let small = (STEPS * size).div_ceil(MIB);
    parts.truncate(parts.len() - small);
    fill(&mut parts, size);
    parts
}

fn fill(parts: &mut Vec<Vec<u8>>, size: usize) {
    loop {
        let mut part: Vec<u8> = Vec::new();
        if part.try_reserve_exact(size).is_err() {
            break;
        }
        parts.push(part);
    }
}

/// Does this while there is no more memory than this many parts of this size.
fn with_parts<T>(count: usize, size: usize, work: impl FnOnce() -> T) -> T {
    let mut parts = ballast(size);
    parts.truncate(parts.len() - count);
    let done = work();
    drop(parts);
    done
}

/// What is left to do, and whether it has stopped anew, so that its report is a new one.
enum Left {
    All(Queues),
    Rest(Stopped, bool),
}

impl Left {
    fn try_to_do(self, world: &mut World) -> Result<Report, Self> {
        match self {
            Self::All(queues) => world.apply(queues).map_err(|why| match why {
                SyncError::Memory(queues) => Self::All(queues),
                SyncError::Stopped(stopped) => Self::Rest(stopped, true),
                other => panic!("{other}"),
            }),
            Self::Rest(stopped, _) => stopped.go_on(world).map_err(|why| match why.into_parts() {
                (stopped, GoOnError::Memory) => Self::Rest(stopped, true),
                (_, other) => panic!("{other}"),
            }),
        }
    }
}

/// A request in the world, even a refused one, needs a flush before the sync point goes on.
fn with_a_request(world: World, stopped: Stopped) -> (World, Stopped) {
    let (open, mut systems) = world.open(1).expect("opened");
    let refused = ReserveError::Space { wanted: 1, left: 0 };
    assert_eq!(systems[0].spawn(&[]), Err(refused));
    let (mut world, _) = open.close(systems).expect("closed");
    let place = stopped.stop();
    let error = stopped.go_on(&mut world).expect_err("not flushed");
    let (stopped, GoOnError::NeedsFlush) = error.into_parts() else {
        panic!("it goes on without a flush");
    };
    assert_eq!(stopped.stop(), place);
    world.flush().expect("memory");
    (world, stopped)
}

/// It goes on in its own world alone.
fn in_another_world(stopped: Stopped) -> Stopped {
    let error = stopped.go_on(&mut World::new()).expect_err("another");
    match error.into_parts() {
        (stopped, GoOnError::OtherWorld) => stopped,
        (_, other) => panic!("{other}"),
    }
}

/// Applies the queues with no memory at first, and with 64 KiB more after each refusal.
fn with_little_memory() -> (Made, Vec<Place>) {
    let (mut world, queues) = prepared();
    let (mut faults, mut places) = (Vec::new(), Vec::new());
    let mut left = Left::All(queues);
    for free in 0.. {
        let again = match with_parts(free, 1 << 16, || left.try_to_do(&mut world)) {
            Ok(report) => {
                faults.extend(report.faults);
                break;
            }
            Err(again) => again,
        };
        left = match again {
            Left::Rest(at, true) => {
                faults.extend(&at.so_far().faults);
                let Stop {
                    system,
                    command,
                    done,
                } = at.stop();
                places.push((system, command, done));
                // At the first stop, while no slot is free.
                let at = match places[..] {
                    [(0, ..)] => {
                        let (same, at) = with_a_request(world, in_another_world(at));
                        world = same;
                        at
                    }
                    _ => at,
                };
                Left::Rest(at, false)
            }
            other => other,
        };
    }
    ((living(&world), faults), places)
}

fn with_ample_memory() -> Made {
    let (mut world, queues) = prepared();
    let report = world.apply(queues).expect("memory is ample");
    assert_eq!(report.born.len(), COUNT as usize);
    (living(&world), report.faults.to_vec())
}

fn compare() {
    let (made, places) = with_little_memory();
    assert_eq!(made, with_ample_memory());
    assert_eq!(made.0.len(), COUNT as usize / 2);
    assert_eq!(made.1.len(), COUNT as usize / 2 * (TIMES - 1));
    assert!(places.windows(2).all(|two| two[0] <= two[1]), "{places:?}");
    assert!(
        places.iter().any(|place| place.0 == 0 && place.2 > 0),
        "{places:?}"
    );
    assert!(places.iter().any(|place| place.0 == 1), "{places:?}");
}

/// `share` for as many callers as there may be, with no memory at first, and with 4 KiB more after
/// each refusal. So it fails at each place where it takes memory: when the phase begins, and when
/// the reservers are given out, which is last.
fn share_again_and_again() {
    let mut entities = Entities::new();
    let one = entities.alloc().expect("a handle");
    for free in 0..STEPS {
        match with_parts(free, 1 << 12, || entities.share(1024)) {
            Ok((shared, mut reservers)) => {
                assert!(free > 0);
                assert_eq!(reservers.len(), 1024);
                reservers[1023].reserve().expect("a handle");
                entities = shared.close(reservers).expect("closed");
                assert_eq!(flushed(&mut entities).len(), 1);
                return;
            }
            Err(refused) => {
                assert_eq!(refused.error(), &ShareError::Memory);
                assert_eq!(refused.to_string(), "out of memory");
                entities = refused.into_parts().0;
                assert!(entities.is_alive(one) && !entities.needs_flush());
            }
        }
    }
    panic!("all steps were refused");
}

/// `open` for as many systems as there may be, as `share_again_and_again`.
fn open_again_and_again() {
    let mut world = World::new();
    let one = world.spawn(&[(ID, 3)]).expect("a handle");
    for free in 0..STEPS {
        match with_parts(free, 1 << 12, || world.open(1024)) {
            Ok((open, mut systems)) => {
                assert!(free > 0);
                assert_eq!(systems.len(), 1024);
                systems[1023].spawn(&[]).expect("a handle");
                let (mut world, _) = open.close(systems).expect("closed");
                world.flush().expect("memory");
                assert_eq!(world.len(), 2);
                return;
            }
            Err(refused) => {
                assert_eq!(refused.error(), &ShareError::Memory);
                assert_eq!(refused.to_string(), "out of memory");
                world = refused.into_parts().0;
                assert_eq!(world.get(one, ID), Some(3));
                assert!(!world.needs_flush());
            }
        }
    }
    panic!("all steps were refused");
}

/// Runs this test, whose name is given, in a process of its own whose memory is bounded: by the
/// shell, or by the emulator, which takes some for itself.
fn in_little_memory(name: &str, test: fn()) {
    if env::var_os(LITTLE).is_some() {
        return test();
    }
    let program = this_program();
    let bound = match program.len() {
        1 => "ulimit -v 200000",
        _ => "export QEMU_RESERVED_VA=200M",
    };
    let output = Command::new("sh")
        .args(["-c", &format!("{bound} && exec \"$@\"")])
        .arg("sh")
        .args(program)
        .args(["--exact", name])
        .env(LITTLE, "1")
        .env("MALLOC_ARENA_MAX", "1")
        .output()
        .expect("a shell");
    let said = String::from_utf8_lossy(&output.stdout);
    assert!(output.status.success(), "{said}");
    assert!(said.contains("1 passed"), "{said}");
}

#[test]
fn a_sync_point_goes_on_after_it_stopped() {
    in_little_memory("a_sync_point_goes_on_after_it_stopped", compare);
}

#[test]
fn a_refused_share_gives_the_allocator_back() {
    in_little_memory(
        "a_refused_share_gives_the_allocator_back",
        share_again_and_again,
    );
}

#[test]
fn a_refused_open_gives_the_world_back() {
    in_little_memory("a_refused_open_gives_the_world_back", open_again_and_again);
}
