//! What calls cost, beside the same work in plain Rust.
//!
//! `cargo bench` prints tables of nanoseconds. Where the code of a loop lies moves its time by a
//! third. So the program has each work in eight places, which take turns, first with one side
//! and then with the other. The median of a place's runs counts. A table has
//! the median of the eight places of each side, the ratio of these two, and the least and the
//! greatest ratio of one place. `benches/run.sh` brings the crates slotmap and sharded-slab too, if
//! they are installed.

mod births;
mod blocks;
mod clones;
mod components;
mod counted;
mod entities;
mod frames;
mod images;
mod layouts;
mod logs;
mod memory;
mod orders;
mod peers;
#[path = "../plain/mod.rs"]
mod plain;
#[path = "../../tests/common/refusing_allocator.rs"]
mod refusing;
mod slots;
mod sync;
mod threads;
mod walks;

use std::hint::black_box;
use std::time::Instant;

/// How many handles or entities a run goes through.
const COUNT: u32 = 100_032;

/// How many handles a bulk has.
const BULK: u32 = 64;

/// What a run took, and a sum of what it computed, so that all of it is done.
#[derive(Clone, Copy)]
struct Run {
    seconds: f64,
    sum: u64,
}

/// A work, once at each of its places.
type Places = [fn() -> Run; 8];

/// The places of a work: a function whose last parameter, `PLACE`, moves its loop.
macro_rules! places {
    ($work:ident $(, $before:tt)*) => {
        [
            $work::<$($before,)* 0>, $work::<$($before,)* 1>,
            $work::<$($before,)* 2>, $work::<$($before,)* 3>,
            $work::<$($before,)* 4>, $work::<$($before,)* 5>,
            $work::<$($before,)* 6>, $work::<$($before,)* 7>,
        ]
    };
}
pub(crate) use places;

/// How often each place is timed. `FORGENI_ROUNDS` says another number, for a shorter run.
fn rounds() -> usize {
    let said = std::env::var("FORGENI_ROUNDS").ok();
    said.and_then(|rounds| rounds.parse().ok()).unwrap_or(15)
}

/// Prints all tables, or those that are named: `cargo bench -- components`.
fn main() {
    let named: Vec<String> = std::env::args()
        .skip(1)
        .filter(|it| it != "--bench")
        .collect();
    let wanted = |name: &str| named.is_empty() || named.iter().any(|it| it == name);
    if wanted("calls") {
        println!("| Work | Here | Plain Rust | Ratio | By place | slotmap | Ratio |");
        println!("|---|---|---|---|---|---|---|");
        slots::lines();
        entities::lines();
        sync::lines();
        println!();
    }
    if wanted("kinds") {
        sync::table();
        println!();
    }
    if wanted("clones") {
        clones::table();
        println!();
        clones::maps();
        println!();
    }
    if wanted("images") {
        images::table();
        println!();
    }
    if wanted("births") {
        births::table();
        println!();
    }
    if wanted("orders") {
        orders::table();
        println!();
    }
    if wanted("components") {
        components::tables();
        println!();
    }
    // Other forms of a map, which the page has no place for, and what takes long: only by their
    // names.
    let is_named = |name: &str| named.iter().any(|it| it == name);
    if is_named("layouts") {
        layouts::table();
        println!();
    }
    if is_named("memory") {
        memory::table();
        println!();
    }
    if wanted("walks") {
        walks::table();
        println!();
    }
    if wanted("logs") {
        logs::table();
        println!();
    }
    if wanted("threads") {
        threads::table();
        println!();
    }
    if is_named("blocks") {
        blocks::tables();
        println!();
    }
    if wanted("frames") {
        frames::table();
    }
}

/// Moves what comes after it by some bytes.
#[inline(always)]
fn shift<const PLACE: usize>() {
    if PLACE > 0 {
        black_box(PLACE as u8);
    }
    if PLACE > 1 {
        black_box(PLACE as u16);
    }
    if PLACE > 3 {
        black_box(PLACE as u32);
        black_box(PLACE as u64);
    }
    if PLACE > 5 {
        black_box([PLACE as u8; 3]);
    }
}

/// Does the work, and looks at the clock before and after it. It is a function of its own, so that
/// a tool can count what is done in it.
#[inline(never)]
fn timed(work: impl FnOnce() -> u64) -> Run {
    let start = Instant::now();
    let sum = black_box(work());
    let seconds = start.elapsed().as_secs_f64();
    Run { seconds, sum }
}

fn median(mut all: Vec<f64>) -> f64 {
    all.sort_unstable_by(f64::total_cmp);
    all[all.len() / 2]
}

/// Prints a line: a work of `count` steps on both sides, and on a third one if it is there.
fn line(name: &str, count: u32, ours: Places, plain: Places, peer: Option<Places>) {
    line_of_rounds(rounds(), name, count, ours, plain, peer);
}

/// Prints a line of which each place is timed so often.
fn line_of_rounds(
    rounds: usize,
    name: &str,
    count: u32,
    ours: Places,
    plain: Places,
    peer: Option<Places>,
) {
    let sides: Vec<Places> = [Some(ours), Some(plain), peer]
        .into_iter()
        .flatten()
        .collect();
    let each = cells(rounds, name, count, &sides);
    match each.get(2) {
        Some(peer) => println!(" {peer:.2} | {:.2} |", each[0] / peer),
        None => println!(" | |"),
    }
}

/// Prints a line without a slot map.
fn line_of_two(rounds: usize, name: &str, count: u32, ours: Places, plain: Places) {
    cells(rounds, name, count, &[ours, plain]);
    println!();
}

/// Prints the cells of the first two sides, and hands back the nanoseconds a step of each side.
fn cells(rounds: usize, name: &str, count: u32, sides: &[Places]) -> Vec<f64> {
    if counted::is_on() {
        counted::run(name, count, sides);
        return vec![1.0; sides.len()];
    }
    let times = times(rounds, name, sides);
    let each: Vec<f64> = times
        .iter()
        .map(|places| median(places.clone()) * 1e9 / f64::from(count))
        .collect();
    let by_place = times[0]
        .iter()
        .zip(&times[1])
        .map(|(ours, plain)| ours / plain);
    let (least, most) = by_place.fold((f64::MAX, 0.0_f64), |(least, most), ratio| {
        (least.min(ratio), most.max(ratio))
    });
    let [ours, plain] = [each[0], each[1]];
    print!(
        "| {name} | {ours:.2} | {plain:.2} | {:.2} | {least:.2} to {most:.2} |",
        ours / plain
    );
    each
}

/// The median of the seconds of each place of each side.
fn times(rounds: usize, name: &str, sides: &[Places]) -> Vec<Vec<f64>> {
    let mut runs = vec![vec![Vec::new(); 8]; sides.len()];
    for _ in 0..rounds {
        for place in 0..8 {
            let mut sums = Vec::new();
            for (side, runs) in sides.iter().zip(&mut runs) {
                let run = side[place]();
                runs[place].push(run.seconds);
                sums.push(run.sum);
            }
            assert_eq!(sums[0], sums[1], "{name}: the two sides do other work");
        }
    }
    let medians = |side: Vec<Vec<f64>>| side.into_iter().map(median).collect();
    runs.into_iter().map(medians).collect()
}
