//! Systems that return errors of the game's own, by `?`. A frame that is broken off returns the
//! first error in the order of the systems. It prints
//!
//! ```text
//! frame 0: nobody is there to aim at
//! frame 1: 6 are alive
//! frame 2: no room: 3 wanted and 1 left
//! ```

use forgeni::{run_frame, ComponentId, FrameError, Limits, OutOfMemory, ReserveError, StdThreads};
use forgeni::{SystemCommands, View, World};
use std::error::Error;
use std::fmt;

/// A projectile that was aimed at has it.
const TARGET: ComponentId = ComponentId(0);

/// Why a system of this game stops the frame.
#[derive(Debug)]
enum Stop {
    Memory(OutOfMemory),
    Refused(ReserveError),
    NoTarget,
}

impl From<OutOfMemory> for Stop {
    fn from(error: OutOfMemory) -> Self {
        Self::Memory(error)
    }
}

/// A spawn that is refused stops the system that hands it on.
impl From<ReserveError> for Stop {
    fn from(error: ReserveError) -> Self {
        Self::Refused(error)
    }
}

impl fmt::Display for Stop {
    fn fmt(&self, f: &mut fmt::Formatter<'_>) -> fmt::Result {
        match self {
            Self::Memory(error) => write!(f, "{error}"),
            Self::Refused(error) => write!(f, "no room: {error}"),
            Self::NoTarget => f.write_str("nobody is there to aim at"),
        }
    }
}

/// Launches three projectiles.
fn launch(_: &View<'_>, commands: &mut SystemCommands<'_>) -> Result<(), Stop> {
    commands.spawn_many_with(3, &[])?;
    Ok(())
}

/// Aims at the oldest projectile.
fn aim(view: &View<'_>, commands: &mut SystemCommands<'_>) -> Result<(), Stop> {
    let all = view.by_birth()?;
    let oldest = all.first().ok_or(Stop::NoTarget)?;
    commands.insert_with(*oldest, &[(TARGET, 1)])?;
    Ok(())
}

fn main() -> Result<(), Box<dyn Error>> {
    type System = fn(&View<'_>, &mut SystemCommands<'_>) -> Result<(), Stop>;
    let mut world = World::with_limits(Limits::new(7, 9).ok_or("no limits")?);
    let systems: [System; 2] = [launch, aim];
    for frame in 0..3 {
        match run_frame(&StdThreads, &mut world, &systems, 4) {
            Ok(_) => println!("frame {frame}: {} are alive", world.len()),
            // What was launched lives after the flush.
            Err(FrameError::Lost(Some(error))) => {
                println!("frame {frame}: {error}");
                world.flush()?;
            }
            Err(error) => return Err(error.to_string().into()),
        }
    }
    Ok(())
}
