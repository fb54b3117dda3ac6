//! Runs a script as `spawnrun run` does on one worker, and prints the same report. It is what the
//! program is measured beside: an ordinary one, of ordinary crates, in which nothing is proved.
//!
//! ```text
//! peer [--show births|handles] < SCRIPT
//! ```
//!
//! A refused script ends it with status 1, and a line on standard error.

mod frames;
mod pool;
mod script;
mod world;

use frames::Report;
use std::io::{self, BufWriter, Read, Write};
use std::process::ExitCode;

fn main() -> ExitCode {
    match print_report() {
        Ok(()) => ExitCode::SUCCESS,
        Err(fault) => {
            eprintln!("peer: {fault}");
            ExitCode::FAILURE
        }
    }
}

fn print_report() -> Result<(), Box<dyn std::error::Error>> {
    let words: Vec<String> = std::env::args().skip(1).collect();
    let handles = match words.iter().map(String::as_str).collect::<Vec<_>>()[..] {
        [] | ["--show", "births"] => false,
        ["--show", "handles"] => true,
        _ => return Err("usage: peer [--show births|handles] < SCRIPT".into()),
    };
    let mut text = Vec::new();
    io::stdin().lock().read_to_end(&mut text)?;
    let script = script::read(&text)?;
    drop(text);
    let out = BufWriter::with_capacity(1 << 16, io::stdout().lock());
    let mut report = Report { out, handles };
    let world = frames::run(&script, &mut report)?;
    report.world(&world, &script.components)?;
    report.out.flush()?;
    // The process ends here, so nothing is freed piece by piece.
    std::mem::forget((script, world));
    Ok(())
}
