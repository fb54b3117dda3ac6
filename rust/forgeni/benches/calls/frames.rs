//! Frames of systems that compute, on some workers, beside threads of plain Rust.

use crate::{counted, median, timed, Places, Run};
use forgeni::{run_frame, OutOfMemory, StdThreads, System, SystemCommands, View, World};
use std::hint::black_box;
use std::sync::atomic::{AtomicUsize, Ordering};
use std::thread;

/// How often each number of workers is timed.
const ROUNDS: usize = 31;

/// How many systems a frame has.
const SYSTEMS: usize = 64;

/// How many steps a system that computes makes, about an eighth of a millisecond.
const STEPS: u64 = 50_000;

/// A system that computes, and asks nothing of the world.
struct Computes(u64);

impl System for Computes {
    fn run(&self, _: &View<'_>, _: &mut SystemCommands<'_>) -> Result<(), OutOfMemory> {
        black_box(computed(self.0));
        Ok(())
    }
}

fn computed(steps: u64) -> u64 {
    (0..steps).fold(1, |sum, step| {
        black_box(sum ^ step).wrapping_mul(0x9e37_79b9_7f4a_7c15)
    })
}

pub fn table() {
    println!("| Systems | Workers | Here, microseconds | Plain Rust | Ratio |");
    println!("|---|---|---|---|---|");
    if counted::is_on() {
        let sides: [Places; 2] = [[|| here(1, 0); 8], [|| by_threads(1, 0); 8]];
        return counted::run("empty, one worker", SYSTEMS as u32, &sides);
    }
    for (name, steps) in [("empty", 0), ("compute", STEPS)] {
        for workers in [1, 2, 4] {
            let (mut ours, mut plain) = (Vec::new(), Vec::new());
            for _ in 0..ROUNDS {
                ours.push(here(workers, steps).seconds);
                plain.push(by_threads(workers, steps).seconds);
            }
            let [ours, plain] = [ours, plain].map(|all| median(all) * 1e6);
            let ratio = ours / plain;
            println!("| {name} | {workers} | {ours:.1} | {plain:.1} | {ratio:.2} |");
        }
    }
}

/// A frame of the package, without a spawn.
fn here(workers: usize, steps: u64) -> Run {
    let systems: Vec<_> = (0..SYSTEMS).map(|_| Computes(steps)).collect();
    let mut world = World::new();
    timed(|| {
        let report = run_frame(&StdThreads, &mut world, &systems, workers).expect("memory");
        report.born.len() as u64
    })
}

/// The same systems by threads of a scope, all of them started by this one, which is a worker too.
/// Each takes the next system.
fn by_threads(workers: usize, steps: u64) -> Run {
    let next = AtomicUsize::new(0);
    let work = || {
        while next.fetch_add(1, Ordering::Relaxed) < SYSTEMS {
            black_box(computed(steps));
        }
    };
    timed(|| {
        thread::scope(|scope| {
            for _ in 1..workers {
                scope.spawn(work);
            }
            work();
        });
        0
    })
}
