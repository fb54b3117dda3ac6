//! Whatever of the caller's panics while an allocator or a world is away, it comes back: systems,
//! joiners, closures, and the drops of commands, of values that closures have, and of panics. A
//! drop that panics while a panic unwinds ends the process, in Rust as such. So a `Loud` is silent
//! then.

use crate::common::{flushed, seeds, Numbers};
use forgeni::{run_frame, run_logs, run_to_sync_point, Entities, Handle, Join, Log};
use forgeni::{
    ComponentId, FrameError, LogCommands, OutOfMemory, RunError, ShareError, StdThreads,
};
use forgeni::{SyncPoint, SystemCommands, View, World};
use std::collections::HashSet;
use std::panic::{catch_unwind, resume_unwind, AssertUnwindSafe};
use std::thread::panicking;

/// A value whose drop panics with its name, unless a panic unwinds.
struct Loud(&'static str);

impl Drop for Loud {
    fn drop(&mut self) {
        if !panicking() && !self.0.is_empty() {
            // This panic prints nothing.
            resume_unwind(Box::new(self.0));
        }
    }
}

/// What a call ends with: what it returns, or the words that it panics with.
fn ended<T>(call: impl FnOnce() -> T) -> Result<T, &'static str> {
    catch_unwind(AssertUnwindSafe(call)).map_err(|panic| match panic.downcast::<Loud>() {
        // A `Loud` that was raised: it is made silent.
        Ok(mut loud) => std::mem::take(&mut loud.0),
        Err(panic) => *panic.downcast::<&str>().expect("a word"),
    })
}

/// How a system ends.
#[derive(Clone, Copy, Debug, PartialEq)]
enum End {
    Well,
    Memory,
    Panic,
    /// With a value that panics when it is dropped.
    LoudPanic,
}

/// A system: it spawns that many, pushes a command that is silent or loud after each of them, and
/// ends so.
#[derive(Clone, Copy, Debug)]
struct System {
    spawns: usize,
    command: &'static str,
    end: End,
}

impl System {
    fn end(&self) -> Result<(), OutOfMemory> {
        match self.end {
            End::Well => Ok(()),
            End::Memory => Err(OutOfMemory),
            End::Panic => resume_unwind(Box::new("the system")),
            End::LoudPanic => resume_unwind(Box::new(Loud("the panic"))),
        }
    }
}

impl forgeni::LogSystem<Loud> for System {
    fn run(&self, commands: &mut LogCommands<'_, Loud>) -> Result<(), OutOfMemory> {
        for _ in 0..self.spawns {
            commands.spawn().expect("a handle");
            commands.push(Loud(self.command))?;
        }
        self.end()
    }
}

impl forgeni::System for System {
    fn run(&self, _: &View<'_>, commands: &mut SystemCommands<'_>) -> Result<(), OutOfMemory> {
        for _ in 0..self.spawns {
            commands
                .spawn_with(&[(ComponentId(0), 1)])
                .expect("a handle");
        }
        let _loud = Loud(self.command);
        self.end()
    }
}

/// Does with the first and with the second half what the letter says: `1` and `2` call them, `s`
/// calls both on threads of std, `!` panics, and `?` panics with a value that panics when it is
/// dropped.
struct Joiner(&'static str);

impl Join for Joiner {
    fn join(&self, first: &mut (dyn FnMut() + Send), second: &mut (dyn FnMut() + Send)) {
        for letter in self.0.chars() {
            match letter {
                '1' => first(),
                '2' => second(),
                's' => StdThreads.join(first, second),
                '!' => resume_unwind(Box::new("the joiner")),
                _ => resume_unwind(Box::new(Loud("the joiner"))),
            }
        }
    }
}

/// An allocator with two living entities and a slot that waits.
fn two() -> (Entities, [Handle; 2]) {
    let mut entities = Entities::new();
    let handles = [(); 3].map(|()| entities.alloc().expect("memory"));
    entities.free(handles[1]).expect("memory");
    (entities, [handles[0], handles[2]])
}

/// The allocator has its two entities, and that many handles of these numbers are reserved. They
/// come to life, and none was alive.
fn is_in_place(
    entities: &mut Entities,
    living: [Handle; 2],
    reserved: std::ops::RangeInclusive<u32>,
) {
    assert!(
        living.iter().all(|one| entities.is_alive(*one)),
        "they are alive"
    );
    assert_eq!(entities.len(), 2);
    assert!(
        reserved.contains(&entities.reserved()),
        "{}",
        entities.reserved()
    );
    let count = entities.reserved() as usize;
    let born: HashSet<_> = flushed(entities).into_iter().collect();
    assert_eq!(born.len(), count);
    assert!(
        living.iter().all(|one| !born.contains(one)),
        "none is given twice"
    );
}

const COMMAND: &str = "the command";

/// Systems that spawn two each. The second one ends like this.
fn three(end: End) -> [System; 3] {
    [End::Well, end, End::Well].map(|end| System {
        spawns: 2,
        command: COMMAND,
        end,
    })
}

/// What the calls that fill logs end with: the words of a panic, or an error.
type Filled = Result<Option<RunError>, &'static str>;

/// Each call that fills logs, on an allocator with two entities. What it returns is dropped.
fn each_call(systems: &[System], joiner: &'static str, workers: usize, expect: impl Fn(Filled)) {
    let reserved = 4..=6;
    let (mut entities, living) = two();
    let filled = ended(|| run_logs(&Joiner(joiner), &mut entities, systems, workers));
    // Logs that nobody has dropped yet are dropped here.
    expect(filled.and_then(|logs| ended(|| logs.map(drop).err())));
    is_in_place(&mut entities, living, reserved.clone());

    let ((mut entities, living), mut born) = (two(), vec![]);
    let filled =
        ended(|| run_to_sync_point(&Joiner(joiner), &mut entities, systems, workers, &mut born));
    let filled =
        filled.and_then(|sync| ended(|| sync.map(drop).map_err(|it| it.into_parts().1).err()));
    expect(filled);
    if born.is_empty() {
        is_in_place(&mut entities, living, reserved);
    } else {
        assert_eq!((born.len(), entities.len()), (6, 8));
        assert!(living.iter().all(|one| entities.is_alive(*one)));
    }
}

const WORKERS: [usize; 4] = [1, 2, 3, 64];

/// A system stops. Its log and the others are dropped, and a command panics then.
#[test]
fn a_command_panics_when_it_is_dropped() {
    for workers in WORKERS {
        for joiner in ["", "12", "s"] {
            let expect = |filled| assert_eq!(filled, Err(COMMAND), "{workers} {joiner}");
            each_call(&three(End::Memory), joiner, workers, expect);
        }
    }
}

/// A system panics, and a command of it or of another one panics when it is dropped. The system's
/// panic is handed on.
#[test]
fn a_system_and_a_command_panic() {
    for workers in WORKERS {
        for joiner in ["", "12", "s"] {
            let expect = |filled| assert_eq!(filled, Err("the system"), "{workers} {joiner}");
            each_call(&three(End::Panic), joiner, workers, expect);
            let expect = |filled| assert_eq!(filled, Err("the panic"), "{workers} {joiner}");
            each_call(&three(End::LoudPanic), joiner, workers, expect);
        }
    }
}

/// All systems run, and the joiner panics. The logs are dropped, and a command panics then.
#[test]
fn a_joiner_and_a_command_panic() {
    for joiner in ["!", "12!", "s?", "?"] {
        let expect = |filled| assert_eq!(filled, Err("the joiner"), "{joiner}");
        each_call(&three(End::Well), joiner, 2, expect);
        let expect = |filled| assert_eq!(filled, Err("the system"), "{joiner}");
        each_call(&three(End::Panic), joiner, 3, expect);
        let expect = |filled| assert_eq!(filled, Err("the joiner"), "{joiner}");
        each_call(&three(End::Memory), joiner, 2, expect);
    }
}

/// Several systems and joiners panic, each with a value that panics when it is dropped. The first
/// system's is handed on, and the others are dropped when the world is in its place.
#[test]
fn all_panics_panic() {
    let loud = System {
        spawns: 2,
        command: COMMAND,
        end: End::LoudPanic,
    };
    for workers in [2, 5] {
        let expect = |filled| assert_eq!(filled, Err("the panic"), "{workers}");
        each_call(&[loud; 3], "12?", workers, expect);

        let mut world = World::new();
        let first = world.spawn(&[]).expect("memory");
        let ran = ended(|| run_frame(&Joiner("12?"), &mut world, &[loud; 3], workers));
        assert_eq!(ran.map(drop), Err("the panic"));
        assert!(world.contains(first) && world.len() == 1);
        world.flush().expect("memory");
        assert!((5..=7).contains(&world.len()));
    }
}

/// A closure that a phase is given has a value that panics when it is dropped, or panics, or
/// returns such a value.
#[test]
fn a_closure_of_a_phase_panics() {
    for panics in [false, true] {
        let (mut entities, living) = two();
        let loud = Loud("the closure");
        let ran = ended(|| {
            entities.phase(2, |_, reservers| {
                let _loud = loud;
                reservers[1].reserve_many(5).expect("handles");
                if panics {
                    resume_unwind(Box::new("the phase"));
                }
            })
        });
        let words = if panics { "the phase" } else { "the closure" };
        assert_eq!(ran, Err(words));
        is_in_place(&mut entities, living, 5..=5);

        let mut world = World::new();
        let first = world.spawn(&[]).expect("memory");
        let loud = Loud("the closure");
        let ran = ended(|| {
            world.phase(2, |_, systems| {
                let _loud = loud;
                systems[1].spawn_many(5, &[]).expect("handles");
                if panics {
                    resume_unwind(Box::new("the phase"));
                }
            })
        });
        assert_eq!(ran.map(drop), Err(words));
        assert!(world.contains(first) && world.len() == 1);
        world.flush().expect("memory");
        assert_eq!(world.len(), 6);
    }
}

/// The same of a phase that isn't opened, and of a value that the closure returns.
#[test]
fn a_closure_that_is_not_called_panics() {
    for count in [0, 1_025] {
        let (mut entities, living) = two();
        let loud = Loud("the closure");
        let ran = ended(|| entities.phase(count, |_, _| loud).map(drop));
        assert_eq!(ran, Err("the closure"));
        is_in_place(&mut entities, living, 0..=0);

        let (mut world, loud) = (World::new(), Loud("the closure"));
        let first = world.spawn(&[]).expect("memory");
        let ran = ended(|| world.phase(count, |_, _| loud).map(drop));
        assert_eq!(ran, Err("the closure"));
        assert!(world.contains(first) && !world.needs_flush());
    }
    let (mut entities, living) = two();
    let returned = entities.phase(1, |_, _| Loud("returned")).expect("memory");
    is_in_place(&mut entities, living, 0..=0);
    assert_eq!(ended(|| drop(returned)), Err("returned"));
    let refused = entities.phase(0, |_, _| ()).expect_err("none");
    assert_eq!(refused, ShareError::Count);
}

/// What one allocator and one world have been through.
struct Lives {
    entities: Entities,
    world: World,
    /// The handles that are alive in the allocator, and all that it ever gave.
    alive: Vec<Handle>,
    given: HashSet<Handle>,
    /// The entities of the world.
    born: HashSet<Handle>,
}

impl Lives {
    fn new() -> Self {
        let mut lives = Lives {
            entities: Entities::new(),
            world: World::new(),
            alive: vec![],
            given: HashSet::new(),
            born: HashSet::new(),
        };
        for _ in 0..5 {
            let one = lives.entities.alloc().expect("memory");
            lives.alive.push(one);
            lives.given.insert(one);
            lives.born.insert(lives.world.spawn(&[]).expect("memory"));
        }
        lives
    }

    /// Nothing that lives is lost, and what was reserved is new. One entity goes.
    fn go_on(&mut self, numbers: &mut Numbers, place: &str) {
        let alive = |one: &Handle| self.entities.is_alive(*one);
        assert!(
            self.alive.iter().all(alive),
            "{place}: the allocator is lost"
        );
        let count = self.entities.len() as usize + self.entities.reserved() as usize;
        // A sync point has begun, or the flush brings to life what was reserved.
        self.entities.flush(&mut Vec::new()).expect("memory");
        let born: Vec<_> = self
            .entities
            .iter()
            .filter(|one| !self.alive.contains(one))
            .collect();
        assert_eq!(self.alive.len() + born.len(), count, "{place}");
        for one in born {
            assert!(self.given.insert(one), "{place}: {one} is given again");
            self.alive.push(one);
        }
        while self.alive.len() > 20 {
            let one = self
                .alive
                .swap_remove(numbers.below(self.alive.len() as u64) as usize);
            self.entities.free(one).expect("alive");
        }

        let before = self.world.len();
        assert!(
            self.born.iter().all(|one| self.world.contains(*one)),
            "{place}: the world is lost"
        );
        self.world.flush().expect("memory");
        assert!(
            self.world.len() >= before && before >= self.born.len(),
            "{place}"
        );
        let all = self.world.by_birth().expect("memory");
        self.born = all.into_iter().collect();
        for one in self.born.iter().copied().skip(20).collect::<Vec<_>>() {
            self.world.despawn(one).expect("alive");
            self.born.remove(&one);
        }
    }
}

/// One of these words.
fn one_of(numbers: &mut Numbers, words: &[&'static str]) -> &'static str {
    words[numbers.below(words.len() as u64) as usize]
}

/// A few systems that end and whose commands are as it comes.
fn any_systems(numbers: &mut Numbers) -> Vec<System> {
    let any = |numbers: &mut Numbers| System {
        spawns: numbers.below(4) as usize,
        command: one_of(numbers, &["", "", COMMAND]),
        end: [
            End::Well,
            End::Well,
            End::Well,
            End::Memory,
            End::Panic,
            End::LoudPanic,
        ][numbers.below(6) as usize],
    };
    (0..1 + numbers.below(6)).map(|_| any(numbers)).collect()
}

/// The sync point hands each entry on. Its closure may panic, stop, or drop an entry.
fn applied(entities: &mut Entities, mut sync: SyncPoint<Loud>, how: u64) {
    let _dropped_later = Loud("");
    let mut left = how % 7;
    let done = sync.apply(entities, |_, entry| match (left.checked_sub(1), how % 3) {
        (Some(less), _) => {
            left = less;
            std::mem::forget(entry);
            Ok(())
        }
        (None, 0) => resume_unwind(Box::new("the closure")),
        (None, 1) => Err((entry, Loud("the error"))),
        // The entry is dropped.
        (None, _) => Ok(()),
    });
    drop(done);
}

/// One call, which panics or not.
fn any_call(lives: &mut Lives, numbers: &mut Numbers) -> Result<(), &'static str> {
    let joiners = ["", "1", "2", "12", "21", "212", "!", "1!", "12?", "?", "s"];
    let (joiner, systems) = (Joiner(one_of(numbers, &joiners)), any_systems(numbers));
    let workers = 1 + numbers.below(4) as usize;
    let (how, closure) = (
        numbers.below(100),
        one_of(numbers, &["", "", "the closure"]),
    );
    let Lives {
        entities, world, ..
    } = lives;
    match numbers.below(6) {
        0 => ended(|| run_logs(&joiner, entities, &systems, workers)).and_then(|logs| {
            let Ok(mut logs): Result<Vec<Log<Loud>>, _> = logs else {
                return Ok(());
            };
            let sync = SyncPoint::begin(entities, &mut logs, &mut vec![]).expect("reserved");
            ended(|| applied(entities, sync, how))
        }),
        1 => {
            let mut born = vec![];
            let sync = ended(|| run_to_sync_point(&joiner, entities, &systems, workers, &mut born));
            sync.and_then(|sync| match sync {
                Ok(sync) => ended(|| applied(entities, sync, how)),
                Err(unbegun) => ended(|| drop(unbegun)),
            })
        }
        2 => ended(|| run_frame(&joiner, world, &systems, workers)).map(|ran| {
            assert!(matches!(ran, Ok(_) | Err(FrameError::Lost(_))));
        }),
        3 => ended(|| {
            let loud = Loud(closure);
            let _ = entities.phase(workers, |_, reservers| {
                let _loud = loud;
                reservers[workers - 1].reserve_many(3).expect("handles");
                systems[0].end().map(|()| Loud(systems[0].command))
            });
        }),
        4 => ended(|| {
            let loud = Loud(closure);
            let _ = world.phase(workers, |_, commands| {
                let _loud = loud;
                commands[workers - 1].spawn_many(3, &[]).expect("handles");
                systems[0].end().map(|()| Loud(systems[0].command))
            });
        }),
        _ => ended(|| {
            let _loud = Loud(closure);
            entities.request_many(3).expect("handles");
            let each = |_| systems[0].end().expect("no panic");
            if systems[0].end != End::Memory {
                entities.flush_with(each).expect("memory");
            }
        }),
    }
}

/// 2,000 random calls, or as many hundreds as `FORGENI_SEEDS` says. In most of them something
/// panics, and no allocator and no world is lost.
#[test]
fn in_any_order_whatever_panics() {
    seeds(20, |seed| {
        let (mut numbers, mut lives, mut panics) = (Numbers::of(seed + 1), Lives::new(), 0);
        for call in 0..100 {
            let done = any_call(&mut lives, &mut numbers);
            panics += u32::from(done.is_err());
            lives.go_on(&mut numbers, &format!("FORGENI_SEED={seed}, call {call}"));
        }
        assert!(panics > 30, "{panics}");
    });
}
