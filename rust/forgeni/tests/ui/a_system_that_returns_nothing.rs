//! A system says whether memory ran out.

use forgeni::{run_frame, SystemCommands, View, World, StdThreads};

fn idle(_view: &View<'_>, _commands: &mut SystemCommands<'_>) {}

fn main() {
    let _ = run_frame(&StdThreads, &mut World::new(), &[idle], 1);
}
