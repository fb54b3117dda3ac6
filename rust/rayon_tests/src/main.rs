//! What a frame of eight empty systems costs on rayon, beside the same eight closures by
//! `rayon::scope` and by a loop: medians in microseconds. And how long a walk over a map takes on
//! one thread and on four.

use forgeni::{run_frame, Handle, HandleMap, OutOfMemory, Rayon, StdThreads, SystemCommands};
use forgeni::{View, World};
use rayon::iter::{IntoParallelRefMutIterator, ParallelIterator};
use rayon::ThreadPoolBuilder;
use std::hint::black_box;
use std::time::{Duration, Instant};

/// How often each is measured, in turn with the others.
const ROUNDS: usize = 20_001;

fn took(work: impl FnOnce()) -> Duration {
    let start = Instant::now();
    work();
    start.elapsed()
}

/// A walk over a million values, each of which takes some steps to compute.
fn walk(threads: usize) {
    let pool = ThreadPoolBuilder::new().num_threads(threads).build();
    let pool = pool.expect("threads");
    let handle = |index| Handle::new(index, 1).expect("a handle");
    let mut map: HandleMap<u64> = (0..1_000_000).map(|it| (handle(it), 1)).collect();
    let change = |it: &mut u64| (0..50).for_each(|_| *it = it.wrapping_mul(*it | 5).rotate_left(7));
    let mut times: Vec<Duration> = (0..21)
        .map(|_| took(|| pool.install(|| map.par_iter_mut().for_each(|(_, it)| change(it)))))
        .collect();
    times.sort();
    println!(
        "par_iter_mut on {threads} threads: {:.0} µs",
        times[10].as_nanos() as f64 / 1e3
    );
}

fn main() {
    let system = |_: &View<'_>, _: &mut SystemCommands<'_>| -> Result<(), OutOfMemory> {
        black_box(());
        Ok(())
    };
    let (systems, mut world) = ([system; 8], World::new());
    let mut times: [Vec<Duration>; 4] = Default::default();
    for _ in 0..ROUNDS {
        times[0].push(took(|| {
            drop(run_frame(&Rayon, &mut world, &systems, 4).expect("memory"));
        }));
        times[1].push(took(|| {
            rayon::scope(|scope| (0..8).for_each(|_| scope.spawn(|_| black_box(()))));
        }));
        times[2].push(took(|| {
            drop(run_frame(&StdThreads, &mut world, &systems, 1).expect("memory"))
        }));
        times[3].push(took(|| (0..8).for_each(|_| black_box(()))));
    }
    let names = [
        "four workers on rayon",
        "rayon::scope",
        "one worker",
        "a loop",
    ];
    for (name, times) in names.into_iter().zip(&mut times) {
        times.sort();
        println!(
            "{name}: {:.2} µs",
            times[ROUNDS / 2].as_nanos() as f64 / 1000.0
        );
    }
    [1, 2, 4].into_iter().for_each(walk);
}
