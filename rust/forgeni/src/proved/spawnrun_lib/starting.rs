// Made of crates/spawnrun_lib/src/starting.rt by rust/erase. It isn't edited by hand.

//! The program, run on its arguments.

use crate::kit::programs::rt::AllocGlobal;
use crate::kit::programs::string::String;
use crate::spawnrun_lib::program::execute;
use crate::spawnrun_lib::progress::Teller;
use crate::spawnrun_lib::task::is_task;
use crate::cli::{Counted, Muted, Noting, begin};
use core::cell::Cell;
use crate::kit::programs::env::Env;
use std::io::{Read, Write};
use crate::kit::programs::rt::Files;
use crate::kit::thread::Join;
use crate::kit::programs::time::Clock;

/// Runs the program on its arguments, and returns its exit status: that of `execute`, or of
/// [`cli::begin`], which also opens an input file that they name. If `tells`, the terminal shows how
/// far a task is.
///
/// If the output is a pipe whose reader has left, the status is 4, and nothing is written to the
/// error stream.
///
/// <details><summary>Contract</summary>
///
/// <code style="display: block; tab-size: 4; white-space: pre-wrap">// In the words of [contracts](crate::contracts):
/// ensures { result ≤ 4 }
/// </code>
///
/// </details>
#[inline]
pub fn start<R, I: Read, O: Write, E: Write, T: Write>(
    rt: &R,
    input: I,
    output: O,
    errors: E,
    terminal: T,
    tells: bool,
) -> u8
where
    R: Join + Sync + Env + Clock + Files + AllocGlobal,
{
    let has_left = Cell::new(false);
    let mut output = Counted::new(Noting::new(output, &has_left));
    let mut errors = Counted::new(Muted::new(errors, &has_left));
    let mut progress = Teller::new(rt, Counted::new(terminal), tells);
    let is_line = |words: &[String]| is_task(words);
    let (words, file) = match begin(rt, "spawnrun", is_line, &mut errors) {
        Ok(begun) => begun,
        Err(status) => return status,
    };
    let Some(file) = file else {
        let mut input = Counted::new(input);
        return execute(
            rt,
            &words,
            &mut input,
            &mut output,
            &mut errors,
            &mut progress,
        );
    };
    let mut input = Counted::new(file);
    execute(
        rt,
        &words,
        &mut input,
        &mut output,
        &mut errors,
        &mut progress,
    )
}
