//! One run of one work, for a tool that counts instructions.
//!
//! `FORGENI_COUNTED="0 alloc"` runs the first side of the work `alloc` once, at its first place,
//! and times nothing. All that it does between two looks at the clock is in
//! [`timed`](crate::timed), so that a tool can count it alone. `.ci/instructions.py` does so with
//! valgrind.

use crate::Places;
use std::env;

/// Whether one work is to be counted, and none timed.
pub fn is_on() -> bool {
    env::var_os("FORGENI_COUNTED").is_some()
}

/// Runs the side of the work that is to be counted, if this is the work, and prints how many steps
/// it has.
pub fn run(name: &str, count: u32, sides: &[Places]) {
    let wanted = env::var("FORGENI_COUNTED").unwrap_or_default();
    for (number, side) in sides.iter().enumerate() {
        if wanted == format!("{number} {name}") {
            side[0]();
            println!("{count} steps");
        }
    }
}
