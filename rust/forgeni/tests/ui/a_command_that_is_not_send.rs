//! Logs go to threads, and their commands with them.

use forgeni::{run_logs, Entities, LogCommands, OutOfMemory, StdThreads};
use std::rc::Rc;

fn note(commands: &mut LogCommands<'_, Rc<u8>>) -> Result<(), OutOfMemory> {
    commands.push(Rc::new(1))
}

fn main() {
    let _ = run_logs(&StdThreads, &mut Entities::new(), &[note], 2);
}
