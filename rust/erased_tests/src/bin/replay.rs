//! `spawnrun replay` of the erased code, with the greatest limits: a schedule on standard input,
//! what comes of it on standard output. The benchmark of the program times it beside the machine
//! code that the kit has made.

extern crate alloc;

#[path = "../../../forgeni/src/handle_list.rs"]
mod handle_list;
#[path = "../../../forgeni/src/kit/mod.rs"]
#[allow(dead_code)] // Not all of it is used here.
mod kit;

include!("../../../forgeni/src/proved/modules.rs");

use allocator::Limits;
use std::error::Error;
use std::io::{self, Read, Write};
use traces::{read_schedule, write_outcome, Machine};

fn main() -> Result<(), Box<dyn Error>> {
    let mut schedule = Vec::new();
    io::stdin().read_to_end(&mut schedule)?;
    let events = read_schedule(&schedule).map_err(|_| "it is no schedule")?;
    let mut machine = Machine::new(Limits::default_limits()).map_err(|_| "out of memory")?;
    let outcomes = machine.run(&events).map_err(|_| "out of memory")?;
    let mut text = Vec::new();
    for outcome in &outcomes {
        write_outcome(outcome, &mut text)?;
    }
    io::stdout().write_all(&text)?;
    Ok(())
}
