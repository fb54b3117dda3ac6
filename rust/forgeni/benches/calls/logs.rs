//! Commands of a type of the caller's: logs beside plain lists. Both have the same allocator and
//! maps.

use crate::{line_of_two, places, rounds, shift, timed, Run, COUNT};
use forgeni::{run_logs, run_to_sync_point, LogCommands, OutOfMemory, StdThreads};
use forgeni::{Entities, Entry, Handle, HandleMap, Log, SyncPoint};
use std::hint::black_box;

/// How many systems issue commands, and how many rounds of three each of them issues. A log has an
/// entry more a round, and with this number both kinds of lists grow equally often.
const SYSTEMS: u32 = 6;
const ROUNDS: u32 = 5_600;

/// All commands, and how many entities there are before.
const COMMANDS: u32 = SYSTEMS * ROUNDS * 3;
const ENTITIES: u32 = SYSTEMS * ROUNDS * 2;

/// A command of a game.
#[derive(Clone, Copy)]
enum Command {
    Spawn(Handle, i64, i64),
    Insert(Handle, i64),
    Despawn(Handle),
}

type Ours = Log<Command>;
type Plain = Vec<Command>;

pub fn table() {
    println!("| Work of logs | Here | Plain Rust | Ratio | By place |");
    println!("|---|---|---|---|---|");
    line_of_two(
        rounds(),
        "`push`",
        COUNT,
        places!(push, Ours),
        places!(push, Plain),
    );
    line_of_two(
        rounds(),
        "from lists to components, a command",
        COMMANDS,
        places!(apply, Ours),
        places!(apply, Plain),
    );
    line_of_two(
        rounds(),
        "issued and applied, a command",
        COMMANDS,
        places!(issue_and_apply, Ours),
        places!(issue_and_apply, Plain),
    );
    line_of_two(
        rounds(),
        "issued by systems, a command",
        COMMANDS,
        places!(issue_by_systems),
        places!(issue, Plain),
    );
    line_of_two(
        rounds(),
        "issued by systems and applied, a command",
        COMMANDS,
        places!(issue_by_systems_and_apply),
        places!(issue_and_apply, Plain),
    );
}

/// What is commanded, until it takes effect.
trait List: Sized {
    fn new() -> Self;
    fn spawn(&mut self, entities: &mut Entities) -> Handle;
    fn push(&mut self, command: Command);

    /// Brings to life what was spawned, and runs all commands.
    fn apply(lists: Vec<Self>, game: &mut Game);
}

impl List for Ours {
    #[inline(always)]
    fn new() -> Self {
        Log::new()
    }

    #[inline(always)]
    fn spawn(&mut self, entities: &mut Entities) -> Handle {
        Log::spawn(self, entities).expect("a handle")
    }

    #[inline(always)]
    fn push(&mut self, command: Command) {
        Log::push(self, command).expect("memory");
    }

    #[inline(always)]
    fn apply(mut lists: Vec<Self>, game: &mut Game) {
        let Game { entities, maps } = game;
        let mut born = Vec::new();
        let sync = SyncPoint::begin(entities, &mut lists, &mut born);
        hand_on(sync.expect("reserved"), entities, maps);
    }
}

impl List for Plain {
    #[inline(always)]
    fn new() -> Self {
        Vec::new()
    }

    #[inline(always)]
    fn spawn(&mut self, entities: &mut Entities) -> Handle {
        entities.request().expect("a handle")
    }

    #[inline(always)]
    fn push(&mut self, command: Command) {
        Vec::push(self, command);
    }

    #[inline(always)]
    fn apply(lists: Vec<Self>, game: &mut Game) {
        let Game { entities, maps } = game;
        entities.flush(&mut Vec::new()).expect("memory");
        for list in lists {
            for command in list {
                assert!(maps.run(entities, command), "each has an effect");
            }
        }
    }
}

#[inline(always)]
fn hand_on(mut sync: SyncPoint<Command>, entities: &mut Entities, maps: &mut Maps) {
    let done = sync.apply(entities, |entities, entry| match entry {
        Entry::Spawn(_) | Entry::Refused(_) => Ok(()),
        Entry::Command(command) => match maps.run(entities, command) {
            true => Ok(()),
            false => Err((entry, "refused")),
        },
    });
    done.expect("each has an effect");
}

struct Game {
    entities: Entities,
    maps: Maps,
}

#[derive(Default)]
struct Maps {
    places: HandleMap<i64>,
    speeds: HandleMap<i64>,
}

impl Maps {
    #[inline(always)]
    fn run(&mut self, entities: &mut Entities, command: Command) -> bool {
        match command {
            Command::Spawn(one, place, speed) => {
                self.places.insert(one, place).is_ok() && self.speeds.insert(one, speed).is_ok()
            }
            Command::Insert(one, speed) => {
                entities.is_alive(one) && self.speeds.insert(one, speed).is_ok()
            }
            Command::Despawn(one) => {
                self.places.remove(one);
                self.speeds.remove(one);
                entities.free(one).is_ok()
            }
        }
    }
}

impl Game {
    /// All entities, which have both components.
    fn new() -> (Self, Vec<Handle>) {
        let (mut entities, mut maps) = (Entities::new(), Maps::default());
        let all = entities.alloc_many(ENTITIES).expect("memory");
        for &one in &all {
            assert!(maps.run(&mut entities, Command::Spawn(one, 1, 2)));
        }
        (Self { entities, maps }, all)
    }

    fn sum(&self) -> u64 {
        let Maps { places, speeds } = &self.maps;
        places.values().chain(speeds.values()).sum::<i64>() as u64
    }
}

/// The commands of all systems.
#[inline(always)]
fn issued<L: List>(game: &mut Game, all: &[Handle]) -> Vec<L> {
    let parts = all.chunks_exact(all.len() / SYSTEMS as usize);
    parts.map(|part| issued_by_one(game, part)).collect()
}

/// Each round spawns an entity, gives another one a component, and despawns a third one.
#[inline(always)]
fn issued_by_one<L: List>(game: &mut Game, part: &[Handle]) -> L {
    let mut list = L::new();
    for (round, pair) in (0..).zip(part.chunks_exact(2)) {
        let one = list.spawn(&mut game.entities);
        list.push(black_box(Command::Spawn(one, round, 1)));
        list.push(black_box(Command::Insert(pair[0], round)));
        list.push(black_box(Command::Despawn(pair[1])));
    }
    list
}

/// Commands are pushed into a list that grows.
fn push<L: List, const PLACE: usize>() -> Run {
    shift::<PLACE>();
    let (_, all) = Game::new();
    timed(|| {
        let mut list = black_box(L::new());
        for number in 0..COUNT {
            list.push(Command::Insert(all[0], i64::from(number)));
        }
        black_box(&list);
        0
    })
}

/// The commands are there, and take effect.
fn apply<L: List, const PLACE: usize>() -> Run {
    shift::<PLACE>();
    let (mut game, all) = Game::new();
    let lists: Vec<L> = issued(&mut game, &all);
    let run = timed(|| {
        L::apply(lists, &mut game);
        0
    });
    Run {
        sum: game.sum(),
        ..run
    }
}

/// The commands are issued, and take effect.
fn issue_and_apply<L: List, const PLACE: usize>() -> Run {
    shift::<PLACE>();
    let (mut game, all) = Game::new();
    let run = timed(|| {
        let lists: Vec<L> = issued(&mut game, &all);
        L::apply(lists, &mut game);
        0
    });
    Run {
        sum: game.sum(),
        ..run
    }
}

/// The commands are issued.
fn issue<L: List, const PLACE: usize>() -> Run {
    shift::<PLACE>();
    let (mut game, all) = Game::new();
    timed(|| {
        black_box(issued::<L>(&mut game, &all));
        0
    })
}

/// A system for each part of all entities.
#[inline(always)]
fn systems(
    all: &[Handle],
) -> Vec<impl Fn(&mut LogCommands<'_, Command>) -> Result<(), OutOfMemory> + '_> {
    let parts = all.chunks_exact(all.len() / SYSTEMS as usize);
    let system = |part: &'_ [Handle]| {
        let part = part.to_vec();
        move |commands: &mut LogCommands<'_, Command>| {
            for (round, pair) in (0..).zip(part.chunks_exact(2)) {
                let one = commands.spawn().expect("a handle");
                commands.push(black_box(Command::Spawn(one, round, 1)))?;
                commands.push(black_box(Command::Insert(pair[0], round)))?;
                commands.push(black_box(Command::Despawn(pair[1])))?;
            }
            Ok(())
        }
    };
    parts.map(system).collect()
}

/// Systems on one worker issue the commands.
fn issue_by_systems<const PLACE: usize>() -> Run {
    shift::<PLACE>();
    let (mut game, all) = Game::new();
    let systems = systems(&all);
    timed(|| {
        black_box(run_logs(&StdThreads, &mut game.entities, &systems, 1).expect("memory"));
        0
    })
}

/// Systems on one worker issue the commands, and these take effect.
fn issue_by_systems_and_apply<const PLACE: usize>() -> Run {
    shift::<PLACE>();
    let (mut game, all) = Game::new();
    let systems = systems(&all);
    let run = timed(|| {
        let Game { entities, maps } = &mut game;
        let mut born = Vec::new();
        let sync = run_to_sync_point(&StdThreads, entities, &systems, 1, &mut born);
        hand_on(sync.expect("memory"), entities, maps);
        0
    });
    Run {
        sum: game.sum(),
        ..run
    }
}
