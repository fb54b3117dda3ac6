//! A system lacks a parameter.

use forgeni::{OutOfMemory, System, SystemCommands};

struct Age;

impl System for Age {
    fn run(&self, _commands: &mut SystemCommands<'_>) -> Result<(), OutOfMemory> {
        Ok(())
    }
}

fn main() {}
