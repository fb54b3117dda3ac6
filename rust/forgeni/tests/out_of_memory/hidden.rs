//! An error of a call below is the error of the call above, whatever lies between: what is lent,
//! lists of many, and calls of std that can't return one. None is hidden, and no call asks twice.

use super::*;
use std::collections::HashMap;
use std::process::Command;

/// A call of what a phase lends to a system.
type Call = fn(&mut forgeni::Lent<'_, OpenWorld>) -> Result<(), OutOfMemory>;

/// Each error of what a phase lends is handed on, and each command that succeeds is issued once.
#[test]
fn commands_that_are_lent() {
    let calls: [Call; 5] = [
        |system| system.insert(handle(1, 1), &MANY),
        |system| system.remove(handle(0, 1), HP),
        |system| system.despawn(handle(1, 1)),
        |system| {
            system
                .spawn(&MANY)
                .map_or_else(ReserveError::or_memory, |_| Ok(()))
        },
        |system| {
            system
                .spawn_many(50, &MANY)
                .map(drop)
                .or_else(ReserveError::or_memory)
        },
    ];
    for call in calls {
        let (wanted, _) = lent(Refusal::None, call);
        assert!(wanted != all(&two()), "it does something");
        each_in_turn(|refusal| {
            let (done, refused) = lent(refusal, call);
            assert!(done == wanted);
            refused
        });
    }
}

/// The world after a phase in which that call was made until it succeeded, and how many allocations
/// were refused meanwhile.
fn lent(refusal: Refusal, call: Call) -> (Vec<Told>, usize) {
    let mut world = two();
    let phase = world.phase(1, |_, systems| {
        insist(refusal, OutOfMemory, || call(&mut systems[0])).1
    });
    let (refused, queues) = phase.expect("memory");
    let report = world.apply(queues).expect("memory");
    assert!(report.faults.is_empty());
    (all(&world), refused)
}

/// A command that spawns none is a command like any other: it takes memory, and has a number.
#[test]
fn none_by_one_command() {
    each_in_turn(|refusal| {
        let mut world = two();
        let phase = world.phase(1, |_, systems| {
            let none = || systems[0].spawn_many(0, &MANY);
            let done = insist(refusal, ReserveError::Memory, none);
            systems[0].despawn(handle(9, 1)).expect("memory");
            done
        });
        let ((given, refused), queues) = phase.expect("memory");
        let report = world.apply(queues).expect("memory");
        assert!(given.is_empty() && report.born.is_empty());
        let numbers = report
            .faults
            .iter()
            .map(|fault| (fault.system, fault.command));
        assert!(numbers.eq([(0, 1)]));
        assert_eq!(all(&world), all(&two()));
        refused
    });
}

/// The world is back from a phase that was refused, and the closure wasn't called.
#[test]
fn a_phase_of_a_world() {
    each_block_in_turn(|refusal| {
        let (mut world, mut called) = (two(), 0);
        let (ran, refused) = refusing(refusal, || world.phase(5, |_, _| called += 1).map(drop));
        if let Err(error) = ran {
            assert!(refused > 0);
            assert_eq!((error, called), (ShareError::Memory, 0));
        }
        assert_eq!(all(&world), all(&two()));
        assert!(!world.needs_flush());
        refused
    });
}

/// A call of what a phase lends to a caller.
type Reserves = fn(&mut forgeni::Lent<'_>) -> Result<Vec<Handle>, ReserveError>;

/// A reserver that is lent reserves once, and not at all if an allocation fails.
#[test]
fn what_is_lent_reserves_once() {
    let calls: [Reserves; 3] = [
        |one| Ok(vec![one.reserve()?]),
        |one| one.reserve_many(50),
        |one| {
            let mut list = vec![];
            one.reserve_into(&mut list, 50).map(|()| list)
        },
    ];
    for (call, count) in calls.into_iter().zip([1, 50, 50]) {
        let mut entities = three();
        let phase = entities.phase(1, |_, lent| {
            let quota = lent[0].quota_left();
            let given = call(&mut lent[0]).expect("handles");
            assert_eq!(
                (given.len(), quota - lent[0].quota_left()),
                (count, count as u64)
            );
        });
        phase.expect("memory");
        assert_eq!(entities.reserved() as usize, count);
    }
    for call in &calls[1..] {
        each_in_turn(|refusal| {
            let mut entities = three();
            let phase = entities.phase(1, |_, lent| refusing(refusal, || call(&mut lent[0])));
            let (given, refused) = phase.expect("memory");
            // It doesn't ask again for what it didn't get.
            assert_eq!(
                given.as_ref().err(),
                (refused > 0).then_some(&ReserveError::Memory)
            );
            assert_eq!(entities.reserved(), if refused > 0 { 0 } else { 50 });
            refused
        });
    }
}

/// What hands a value back says why, and so does the error that it becomes.
#[test]
fn what_a_map_says_it_says_without_the_value() {
    let (none, late) = (Refusal::All { after: 0 }, handle(3, 2));
    let mut map: HandleMap<u8> = HandleMap::with_limit(5);
    let (refused, _) = refusing(none, || map.insert(late, 1).map_err(InsertError::from));
    assert_eq!(refused, Err(InsertError::Memory));
    map.insert(late, 1).expect("memory");
    for (one, wanted) in [
        (handle(3, 1), InsertError::Later),
        (handle(5, 1), InsertError::Limit),
        (Handle::PLACEHOLDER, InsertError::Limit),
    ] {
        let refused = map.insert(one, 2).expect_err("refused");
        assert_eq!(
            (*refused.error(), InsertError::from(refused)),
            (wanted, wanted)
        );
    }
}

/// Which call a process of its own makes, with its first allocation refused.
const REFUSED: &str = "FORGENI_REFUSED";

/// Calls of std's traits that can't return an error. Each gets no memory.
fn calls_without_an_error() -> HashMap<&'static str, fn()> {
    /// Does this with what was made before, and gets no memory meanwhile.
    fn refused<T, R>(make: impl FnOnce() -> T, call: impl FnOnce(&mut T) -> R) {
        let mut made = make();
        let _ = refusing(Refusal::All { after: 0 }, || call(&mut made));
    }

    fn dense() -> HandleMap<i32> {
        HandleMap::from_iter([(handle(0, 1), 7)])
    }
    fn sparse() -> SparseMap<i32> {
        SparseMap::from_iter([(handle(0, 1), 7)])
    }
    HashMap::from([
        (
            "extend",
            (|| refused(HandleMap::new, |map| map.extend([(handle(0, 1), 7)]))) as fn(),
        ),
        ("sparse extend", || {
            refused(SparseMap::new, |map| map.extend([(handle(0, 1), 7)]))
        }),
        ("from_iter", || {
            refused(|| (), |_| HandleMap::from_iter([(handle(0, 1), 7)]))
        }),
        ("clone", || refused(dense, |map| map.clone())),
        ("sparse clone", || refused(sparse, |map| map.clone())),
        ("clone_from", || {
            refused(dense, |map| HandleMap::new().clone_from(map))
        }),
        ("into_iter", || {
            refused(dense, |map| std::mem::take(map).into_iter().count())
        }),
        ("bundle", || {
            refused(
                || forgeni::Bundle::of(&MANY).expect("memory"),
                |it| it.clone(),
            )
        }),
        ("allocator", || refused(three, |it| it.clone())),
        ("world", || refused(two, |it| it.clone())),
    ])
}

/// A call that can't return an error ends the process. It drops no value in silence.
#[test]
fn std_s_calls_end_the_process() {
    let calls = calls_without_an_error();
    if let Ok(call) = std::env::var(REFUSED) {
        return calls[call.as_str()]();
    }
    assert_eq!(calls.len(), 10);
    for call in calls.keys() {
        let program = this_program();
        let run = Command::new(&program[0])
            .args(&program[1..])
            .args(["--exact", "hidden::std_s_calls_end_the_process"])
            .env(REFUSED, call)
            .output()
            .expect("a process");
        let said = String::from_utf8_lossy(&run.stderr);
        assert!(
            !run.status.success() && said.contains("memory allocation of"),
            "{call}: {said}"
        );
    }
}

/// Sizes above those at which a list might be thought long.
mod of_many {
    use super::*;
    use forgeni::Blocks;

    /// More than 500 blocks.
    #[test]
    fn blocks() {
        let sizes = [2; 1_100];
        each_block_in_turn(|refusal| {
            let entities = three();
            let (opened, refused) = refusing(refusal, || entities.share_in::<Blocks>(&sizes));
            let (phase, mut reservers) = opened.unwrap_or_else(|undealt| {
                assert!(refused > 0);
                let (entities, error) = undealt.into_parts();
                assert_eq!((error, entities.len()), (ShareError::Memory, 2));
                entities.share_in::<Blocks>(&sizes).expect("memory")
            });
            assert_eq!(reservers.len(), 1_100);
            reservers[1_099].reserve().expect("of the block");
            let none = Refusal::All { after: 0 };
            let (ended, unasked) = refusing(none, || phase.close(reservers));
            assert_eq!(unasked, 0);
            let ended = ended.expect("all are here");
            let (entities, more) = refusing(refusal, || ended.into_entities());
            let entities = entities.or_else(|unended| {
                assert!(more > 0);
                let (ended, error) = unended.into_parts();
                assert_eq!(error, OutOfMemory);
                ended.into_entities()
            });
            let entities = entities.expect("memory");
            assert_eq!((entities.len(), entities.reserved()), (2, 1));
            refused + more
        });
        each_block_in_turn(|refusal| {
            let world = two();
            let (opened, refused) = refusing(refusal, || world.open_in::<Blocks>(&sizes));
            let (phase, reservers) = opened.unwrap_or_else(|undealt| {
                assert!(refused > 0);
                let (world, error) = undealt.into_parts();
                assert_eq!(error, ShareError::Memory);
                assert_eq!(all(&world), all(&two()));
                world.open_in::<Blocks>(&sizes).expect("memory")
            });
            assert_eq!(reservers.len(), 1_100);
            let ended = phase.close(reservers).expect("all are here");
            let world = ended.into_world();
            assert_eq!(all(&world.expect("memory")), all(&two()));
            refused
        });
    }

    /// More than 100,000 slots, all of which wait but a few.
    #[test]
    fn slots_of_an_image() {
        let (mut entities, mut world) = (Entities::new(), World::new());
        let all = entities.alloc_many(150_000).expect("memory");
        for one in &all[..149_000] {
            entities.free(*one).expect("alive");
        }
        let mut image = vec![];
        entities.write_image(&mut image).expect("memory");
        each_in_turn(|refusal| {
            let read = || Entities::read_image(&image);
            let (again, refused) = insist(refusal, ImageFault::Memory, read);
            assert_eq!((again.len(), again.top()), (1_000, 149_000));
            refused
        });

        for number in 0..100_100 {
            world.spawn(&[(HP, number)]).expect("memory");
        }
        let mut image = vec![];
        world.write_image(&mut image).expect("memory");
        // Not each in turn, since each attempt takes long.
        let mut refused = 0;
        for after in 0.. {
            let read = || World::read_image(&image);
            let refusal = Refusal::One {
                after: after * after,
            };
            let (again, more) = insist(refusal, WorldImageFault::Memory, read);
            assert_eq!(
                (again.len(), again.get(handle(100_099, 1), HP)),
                (100_100, Some(100_099))
            );
            refused += more;
            if more == 0 {
                break;
            }
        }
        assert!(refused > 2, "{refused}");
    }
}

#[cfg(feature = "std")]
mod systems {
    use super::*;
    use forgeni::{
        run_frame, run_in_blocks, run_logs, Blocks, FrameError, LogCommands, RunError, StdThreads,
    };
    use forgeni::{SystemCommands, View};
    use std::sync::atomic::{AtomicUsize, Ordering};

    /// Where a frame of more than a thousand systems ran out of memory: before any of them ran, or
    /// not at all.
    fn frame(refusal: Refusal) -> (usize, usize) {
        let (mut world, ran) = (two(), AtomicUsize::new(0));
        let system = |_: &View<'_>, _: &mut SystemCommands<'_>| -> Result<(), OutOfMemory> {
            ran.fetch_add(1, Ordering::Relaxed);
            Ok(())
        };
        let systems = vec![system; 1_100];
        let (done, refused) = refusing(refusal, || {
            run_frame(&StdThreads, &mut world, &systems, 1).map(drop)
        });
        let ran = ran.load(Ordering::Relaxed);
        match done {
            Err(FrameError::Memory) => assert_eq!(ran, 0),
            Err(FrameError::Lost(None)) => assert!((1..1_100).contains(&ran)),
            Ok(()) => assert_eq!(ran, 1_100),
            Err(other) => panic!("{other}"),
        }
        assert_eq!((all(&world), world.needs_flush()), (all(&two()), false));
        (refused, ran)
    }

    #[test]
    fn a_frame() {
        assert_eq!(frame(Refusal::All { after: 0 }).1, 0);
        each_in_turn(|refusal| frame(refusal).0);
    }

    /// The same of logs, and of the sync point that begins with them.
    fn logs(refusal: Refusal, with_sync: bool) -> (usize, usize) {
        let (mut entities, ran) = (three(), AtomicUsize::new(0));
        let system = |_: &mut LogCommands<'_, u8>| -> Result<(), OutOfMemory> {
            ran.fetch_add(1, Ordering::Relaxed);
            Ok(())
        };
        let systems = vec![system; 1_100];
        let mut born = vec![];
        let (done, refused) = refusing(refusal, || match with_sync {
            true => run_to_sync_point(&StdThreads, &mut entities, &systems, 1, &mut born)
                .map(drop)
                .map_err(|unbegun| unbegun.into_parts().1),
            false => run_logs(&StdThreads, &mut entities, &systems, 1).map(drop),
        });
        let ran = ran.load(Ordering::Relaxed);
        match done {
            Err(RunError::Memory) => assert_eq!(ran, 0),
            Err(RunError::Lost(None)) => assert!((1..1_100).contains(&ran)),
            Ok(()) => assert_eq!(ran, 1_100),
            Err(other) => panic!("{other}"),
        }
        assert_eq!((entities.len(), entities.needs_flush()), (2, false));
        (refused, ran)
    }

    #[test]
    fn logs_of_many_systems() {
        for with_sync in [false, true] {
            assert_eq!(logs(Refusal::All { after: 0 }, with_sync).1, 0);
            each_in_turn(|refusal| logs(refusal, with_sync).0);
        }
    }

    /// The same of systems in blocks: before any of them runs, nothing has changed.
    #[test]
    fn systems_in_blocks() {
        let system = |commands: &mut LogCommands<'_, u8, Blocks>| -> Result<(), OutOfMemory> {
            assert_eq!(commands.left(), 1);
            Ok(())
        };
        let systems = vec![system; 1_100];
        each_in_turn(|refusal| {
            let shared = three().share_in::<Blocks>(&[1; 1_100]);
            let (phase, mut reservers) = shared.expect("memory");
            let mut run = || run_in_blocks(&StdThreads, &phase, &mut reservers, &systems, 1);
            let (done, refused) = refusing(refusal, &mut run);
            let logs = done.unwrap_or_else(|error| {
                assert!(refused > 0);
                assert_eq!(error, RunError::Memory);
                run().expect("memory")
            });
            let ended = phase.close(reservers).expect("all are here");
            let entities = ended.into_entities().expect("memory");
            assert_eq!((logs.len(), entities.len()), (1_100, 2));
            refused
        });
    }
}

/// A map that has few values gives the rest of its room back, if there is memory to move them.
#[test]
fn a_sparse_map_that_shrinks() {
    each_in_turn(|refusal| {
        let mut map: SparseMap<u64> = (0..1_000).map(|at| (handle(at, 1), at.into())).collect();
        map.retain(|one, _| one.index() % 100 == 0);
        let room = map.capacity();
        assert!(room >= 1_000);
        let (((), refused), bytes) = held(|| refusing(refusal, || map.shrink_to_fit()));
        if refused > 0 {
            assert_eq!((map.capacity(), bytes), (room, 0));
        } else {
            assert_eq!(map.capacity(), 10);
            assert!(bytes <= -16 * 990, "{bytes}");
        }
        assert_eq!(
            (map.len(), map.slots() >= 1_000, map.get(handle(900, 1))),
            (10, true, Some(&900))
        );
        refused
    });
    let mut empty: SparseMap<u64> = SparseMap::from_iter([(handle(0, 1), 1)]);
    empty.clear();
    empty.shrink_to_fit();
    assert_eq!((empty.capacity(), empty.len()), (0, 0));
}

/// What was cloned into once has the room for as much: it asks for nothing, and gives nothing back.
#[test]
fn a_clone_into_room_asks_for_nothing() {
    fn again<T: Clone>(source: &T, by: impl Fn(&mut T, &T), name: &str) {
        let mut target = source.clone();
        by(&mut target, source);
        let ((((), refused), bytes), asked) =
            asked(|| held(|| refusing(Refusal::All { after: 0 }, || by(&mut target, source))));
        assert_eq!((refused, bytes, asked), (0, 0, 0), "{name}");
    }

    let mut world = two();
    for _ in 0..1_000 {
        world.spawn(&MANY[..3]).expect("memory");
    }
    let dense: HandleMap<u64> = (0..1_000).map(|at| (handle(at, 1), at.into())).collect();
    let sparse: SparseMap<u64> = (0..1_000).map(|at| (handle(at, 1), at.into())).collect();
    again(
        &world,
        |one, other| one.try_clone_from(other).expect("room"),
        "a world",
    );
    again(&world, World::clone_from, "a world, by std");
    again(&requested(1_000), Entities::clone_from, "an allocator");
    again(&stored(1_000), Storage::clone_from, "a storage");
    again(&dense, HandleMap::clone_from, "a map");
    again(&sparse, SparseMap::clone_from, "a sparse map");
}
