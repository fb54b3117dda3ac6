//! A small game of projectiles: systems that launch, age and aim at them, on threads of this
//! program. `src/examples/game.rt` of `crates/cases_and_examples` is the same game in
//! Rattle.
//!
//! The whole game is played twice, on one thread and on four. Commands take effect in the order of
//! the systems, so both games tell the same story, and it is printed once. Handles are no part of
//! it: which of two systems reserves first is a matter of luck. An entity is named by its birth
//! instead. It prints
//!
//! ```text
//! frame 0: born 6, alive 6, faults 0
//! frame 1: born 6, alive 12, faults 0
//! frame 2: born 6, alive 18, faults 0
//! frame 3: born 6, alive 18, faults 1
//!   command 0 of system 3 had no effect
//! frame 4: born 6, alive 18, faults 1
//!   command 0 of system 3 had no effect
//! born in frame 2 by system 0 as its 0: age 2
//! born in frame 2 by system 0 as its 1: age 2
//! born in frame 2 by system 0 as its 2: age 2, aimed at
//! born in frame 2 by system 2 as its 0: age 2
//! born in frame 2 by system 5 as its 0: age 2
//! born in frame 2 by system 5 as its 1: age 2
//! born in frame 3 by system 0 as its 0: age 1
//! born in frame 3 by system 0 as its 1: age 1
//! born in frame 3 by system 0 as its 2: age 1
//! born in frame 3 by system 2 as its 0: age 1
//! born in frame 3 by system 5 as its 0: age 1
//! born in frame 3 by system 5 as its 1: age 1
//! born in frame 4 by system 0 as its 0: age 0
//! born in frame 4 by system 0 as its 1: age 0
//! born in frame 4 by system 0 as its 2: age 0
//! born in frame 4 by system 2 as its 0: age 0
//! born in frame 4 by system 5 as its 0: age 0
//! born in frame 4 by system 5 as its 1: age 0
//! 1 thread and 4 threads agree
//! ```

use forgeni::{ComponentId, Handle, Lent, OpenWorld, OutOfMemory, ReserveError, Reserver, World};
use std::error::Error;
use std::fmt::Write;
use std::thread;

/// How many frames old a projectile is.
const AGE: ComponentId = ComponentId(0);

/// Set on a projectile that was aimed at.
const TARGET: ComponentId = ComponentId(1);

/// A projectile of this age is removed.
const LIMIT: i64 = 2;

#[derive(Clone, Copy)]
enum System {
    /// Launches that many projectiles, all at once.
    Launch(u32),
    /// Makes each projectile a frame older, and removes those that are old enough.
    Age,
    /// Aims at the projectile of that rank by birth. If `Age` takes it out in the same frame, that
    /// command comes first and this one is a fault.
    Aim(usize),
}

/// The systems of a frame, in the order in which their commands take effect.
const SYSTEMS: [System; 6] = [
    System::Launch(3),
    System::Age,
    System::Launch(1),
    System::Aim(0),
    System::Aim(8),
    System::Launch(2),
];

impl System {
    fn run(self, commands: &mut Lent<'_, OpenWorld>) -> Result<(), OutOfMemory> {
        match self {
            // The queue keeps a refusal, and the sync point reports it.
            System::Launch(count) => commands
                .spawn_many(count, &[(AGE, 0)])
                .map_or_else(ReserveError::or_memory, |_| Ok(())),
            System::Age => projectiles(commands)?
                .into_iter()
                .try_for_each(|one| age_one(commands, one)),
            System::Aim(rank) => match projectiles(commands)?.get(rank) {
                Some(one) => commands.insert(*one, &[(TARGET, 1)]),
                None => Ok(()),
            },
        }
    }
}

/// The projectiles, by birth.
fn projectiles(commands: &Reserver<OpenWorld>) -> Result<Vec<Handle>, OutOfMemory> {
    commands.view().with(AGE)
}

fn age_one(commands: &mut Lent<'_, OpenWorld>, one: Handle) -> Result<(), OutOfMemory> {
    match commands.view().get(one, AGE) {
        Some(age) if age < LIMIT => commands.insert(one, &[(AGE, age + 1)]),
        _ => commands.despawn(one),
    }
}

/// Runs the systems on that many threads, each those of its part of the list.
fn run_all(all: &mut [Lent<'_, OpenWorld>], threads: usize) -> Result<(), OutOfMemory> {
    let each = SYSTEMS.len().div_ceil(threads);
    thread::scope(|scope| {
        let parts = SYSTEMS.chunks(each).zip(all.chunks_mut(each));
        let workers: Vec<_> = parts
            .map(|(systems, part)| {
                let mut systems = systems.iter().zip(part);
                scope.spawn(move || systems.try_for_each(|(system, commands)| system.run(commands)))
            })
            .collect();
        workers
            .into_iter()
            .try_for_each(|worker| worker.join().expect("no system panics"))
    })
}

/// Plays the game, and prints what each frame did and what is left in the end.
fn play(threads: usize) -> Result<String, Box<dyn Error>> {
    let mut story = String::new();
    let mut world = World::new();
    for frame in 0..5 {
        let (ran, queues) = world.phase(SYSTEMS.len(), |_, all| run_all(all, threads))?;
        ran?;
        let report = world.apply(queues)?;
        let (born, alive, faults) = (report.born.len(), world.len(), report.faults.len());
        writeln!(
            story,
            "frame {frame}: born {born}, alive {alive}, faults {faults}"
        )?;
        for fault in report.faults {
            let (system, command) = (fault.system, fault.command);
            writeln!(
                story,
                "  command {command} of system {system} had no effect"
            )?;
        }
    }
    for one in world.by_birth()? {
        let birth = world.birth(one).ok_or("it is alive")?;
        let age = world.get(one, AGE).unwrap_or(0);
        let aimed = match world.get(one, TARGET) {
            Some(_) => ", aimed at",
            None => "",
        };
        let (frame, system, ordinal) = (birth.frame, birth.system, birth.ordinal);
        writeln!(
            story,
            "born in frame {frame} by system {system} as its {ordinal}: age {age}{aimed}"
        )?;
    }
    Ok(story)
}

fn main() -> Result<(), Box<dyn Error>> {
    let alone = play(1)?;
    let together = play(4)?;
    if alone != together {
        return Err("the story depends on the number of threads".into());
    }
    print!("{alone}");
    println!("1 thread and 4 threads agree");
    Ok(())
}
