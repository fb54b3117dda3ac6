//! A system may run on any thread, so it changes nothing that it borrows.

use forgeni::{run_frame, system, World, StdThreads};

fn main() {
    let mut runs = 0;
    let count = system(|_view, _commands| {
        runs += 1;
        Ok(())
    });
    let _ = run_frame(&StdThreads, &mut World::new(), &[count], 1);
}
