//! A system has the commands of the wrong type.

use forgeni::{OpenWorld, OutOfMemory, Reserver, System, View};

struct Age;

impl System for Age {
    fn run(&self, _: &View<'_>, _: &mut Reserver<OpenWorld>) -> Result<(), OutOfMemory> {
        Ok(())
    }
}

fn main() {}
