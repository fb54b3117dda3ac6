//! The game of `frames.rs`, smaller, by `run_frame`: systems are functions, and workers run them.
//!
//! The game is played on one worker and on eight, and both games tell the same story. In the last
//! frame a system panics. The panic is propagated, and the world is as it was. It prints
//!
//! ```text
//! frame 0: born 3, alive 3, faults 0
//! frame 1: born 3, alive 6, faults 0
//! frame 2: born 3, alive 9, faults 0
//! frame 3: born 3, alive 9, faults 1
//! 1 worker and 8 workers agree
//! a system panicked: out of arrows
//! 9 are alive
//! ```

use forgeni::{run_frame, ComponentId, ReserveError, StdThreads, SystemCommands, View, World};
use std::error::Error;
use std::fmt::Write;
use std::panic::{catch_unwind, resume_unwind, AssertUnwindSafe};

/// How many frames old a projectile is.
const AGE: ComponentId = ComponentId(0);

/// Set on a projectile that was aimed at.
const TARGET: ComponentId = ComponentId(1);

/// A projectile of this age is removed.
const LIMIT: i64 = 2;

type System = fn(&View<'_>, &mut SystemCommands<'_>) -> Result<(), ReserveError>;

/// Launches three projectiles. If they are refused, the frame ends with that error.
fn launch(_: &View<'_>, commands: &mut SystemCommands<'_>) -> Result<(), ReserveError> {
    commands.spawn_many_with(3, &[(AGE, 0)])?;
    Ok(())
}

/// Makes each projectile a frame older, and removes those that are old enough.
fn age(view: &View<'_>, commands: &mut SystemCommands<'_>) -> Result<(), ReserveError> {
    for one in view.with(AGE)? {
        match view.get(one, AGE) {
            Some(age) if age < LIMIT => commands.insert_with(one, &[(AGE, age + 1)])?,
            _ => commands.despawn(one)?,
        }
    }
    Ok(())
}

/// Aims at the oldest projectile. If `age` takes it out in the same frame, that command comes first
/// and this one is a fault.
fn aim(view: &View<'_>, commands: &mut SystemCommands<'_>) -> Result<(), ReserveError> {
    if let Some(oldest) = view.with(AGE)?.first() {
        commands.insert_with(*oldest, &[(TARGET, 1)])?;
    }
    Ok(())
}

fn breaks(_: &View<'_>, _: &mut SystemCommands<'_>) -> Result<(), ReserveError> {
    // Like `panic!`, but without a message.
    resume_unwind(Box::new("out of arrows"))
}

/// The systems of a frame, in the order in which their commands take effect.
const SYSTEMS: [System; 3] = [launch, age, aim];

/// Plays the game, and prints what each frame did.
fn play(workers: usize) -> Result<(World, String), Box<dyn Error>> {
    let (mut world, mut story) = (World::new(), String::new());
    for frame in 0..4 {
        let report = run_frame(&StdThreads, &mut world, &SYSTEMS, workers)?;
        let (born, alive, faults) = (report.born.len(), world.len(), report.faults.len());
        writeln!(
            story,
            "frame {frame}: born {born}, alive {alive}, faults {faults}"
        )?;
    }
    Ok((world, story))
}

fn main() -> Result<(), Box<dyn Error>> {
    let (mut world, alone) = play(1)?;
    let (_, together) = play(8)?;
    if alone != together {
        return Err("the story depends on the number of workers".into());
    }
    print!("{alone}");
    println!("1 worker and 8 workers agree");

    let frame = || run_frame(&StdThreads, &mut world, &[age, breaks as System], 2).map(|_| ());
    let panic = catch_unwind(AssertUnwindSafe(frame)).expect_err("it panics");
    if let Some(text) = panic.downcast_ref::<&str>() {
        println!("a system panicked: {text}");
    }
    println!("{} are alive", world.len());
    Ok(())
}
