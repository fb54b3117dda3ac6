//! A system of logs fills what a system of a world does.

use forgeni::{LogSystem, OutOfMemory, WorldCommands};

struct Age;

impl LogSystem<u8> for Age {
    fn run(&self, _commands: &mut WorldCommands<'_>) -> Result<(), OutOfMemory> {
        Ok(())
    }
}

fn main() {}
