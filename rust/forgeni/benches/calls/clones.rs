//! The state of an allocator, taken over by another that has room, as at each step back of a
//! rollback. Beside it a copy of as many bytes as its lists have, and the slot map's `clone_from`.

use crate::{median, peers, rounds, timed, Run};
use forgeni::{Entities, HandleMap};
use std::hint::black_box;

/// How many slots were made. Every fourth of them waits.
pub const SIZES: [(u32, &str); 2] = [(50_000, "50,000"), (1_000_000, "1,000,000")];

/// Takes a state over once, each time that it is called.
pub type TakesOver = Box<dyn FnMut() -> Run>;

pub fn table() {
    println!("| Slots | `try_clone_from` | Copy of its bytes | Ratio | slotmap | Ratio |");
    println!("|---|---|---|---|---|---|");
    for (slots, name) in SIZES {
        let peer = peers::SLOTS.taken_over;
        let mut sides = vec![ours(slots), bytes(slots)];
        sides.extend(peer.map(|peer| peer(slots)));
        let micros = micros(sides);
        print!("| {name} | {:.1} µs | {:.1} µs |", micros[0], micros[1]);
        print!(" {:.2} |", micros[0] / micros[1]);
        match micros.get(2) {
            Some(peer) => println!(" {peer:.1} µs | {:.2} |", micros[0] / peer),
            None => println!(" | |"),
        }
    }
}

/// A map of plain values, taken over by another that has room, beside a list of options. Every
/// fourth has none.
pub fn maps() {
    println!("| Slots | `HandleMap<i64>::clone_from` | `Vec<Option<i64>>` | Ratio |");
    println!("|---|---|---|---|");
    for (slots, name) in SIZES {
        let micros = micros(vec![map(slots), options(slots)]);
        print!("| {name} | {:.1} µs | {:.1} µs |", micros[0], micros[1]);
        println!(" {:.2} |", micros[0] / micros[1]);
    }
}

/// The median microseconds of each of these, which take turns.
pub fn micros(mut sides: Vec<TakesOver>) -> Vec<f64> {
    let mut runs = vec![Vec::new(); sides.len()];
    for _ in 0..8 * rounds() {
        for (side, runs) in sides.iter_mut().zip(&mut runs) {
            runs.push(side().seconds);
        }
    }
    runs.into_iter().map(|runs| median(runs) * 1e6).collect()
}

/// An allocator of that many slots.
pub fn used(slots: u32) -> Entities {
    let mut used = Entities::new();
    for one in used.alloc_many(slots).expect("memory") {
        if one.index() % 4 == 0 {
            used.free(one).expect("alive");
        }
    }
    used
}

fn ours(slots: u32) -> TakesOver {
    let source = used(slots);
    let mut target = source.clone();
    Box::new(move || {
        timed(|| {
            let taken = black_box(&mut target).try_clone_from(black_box(&source));
            taken.expect("there is room");
            u64::from(target.len())
        })
    })
}

/// Lists of the same sizes as those of `ours`: 8 bytes for a slot, and 4 for one that waits.
fn bytes(slots: u32) -> TakesOver {
    let source = (
        vec![[1_u32; 2]; slots as usize],
        vec![1_u32; slots as usize / 4],
    );
    let mut target = source.clone();
    Box::new(move || {
        timed(|| {
            let (records, waiting) = black_box(&mut target);
            records.copy_from_slice(&black_box(&source).0);
            waiting.copy_from_slice(&black_box(&source).1);
            u64::from(target.1[0])
        })
    })
}

fn map(slots: u32) -> TakesOver {
    let mut source = HandleMap::new();
    for one in &used(slots) {
        source.insert(one, i64::from(one.index())).expect("memory");
    }
    let mut target = source.clone();
    Box::new(move || {
        timed(|| {
            black_box(&mut target).clone_from(black_box(&source));
            target.len() as u64
        })
    })
}

fn options(slots: u32) -> TakesOver {
    let value = |index| (index % 4 > 0).then_some(i64::from(index));
    let source: Vec<_> = (0..slots).map(value).collect();
    let mut target = source.clone();
    Box::new(move || {
        timed(|| {
            black_box(&mut target).clone_from(black_box(&source));
            target.len() as u64
        })
    })
}
