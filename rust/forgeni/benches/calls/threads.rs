//! Handles that live after a phase of some threads, from the first request to the end of the flush.

use crate::{median, peers, timed, Run, BULK, COUNT};
use forgeni::{Entities, Reserver};
use std::hint::black_box;
use std::thread;

/// How often each number of threads is timed.
const ROUNDS: usize = 31;

pub fn table() {
    println!(
        "| Threads | Singly | 64 at once | A sharded slab | Ratio, singly | Ratio, 64 at once |"
    );
    println!("|---|---|---|---|---|---|");
    for threads in [1, 2, 4] {
        let (mut singly, mut bulks, mut slab) = (Vec::new(), Vec::new(), Vec::new());
        for _ in 0..ROUNDS {
            singly.push(living(threads, reserve_all).seconds);
            bulks.push(living(threads, reserve_in_bulks).seconds);
            slab.extend(peers::SLAB.map(|slab| slab(threads).seconds));
        }
        let each = |all| median(all) * 1e9 / (f64::from(COUNT) * threads as f64);
        let [a, b] = [singly, bulks].map(each);
        print!("| {threads} | {a:.1} | {b:.1} |");
        if slab.is_empty() {
            println!(" | | |");
        } else {
            let c = each(slab);
            println!(" {c:.1} | {:.2} | {:.2} |", a / c, b / c);
        }
    }
}

fn living(threads: usize, request: fn(&mut Reserver)) -> Run {
    let run = timed(|| {
        let (shared, mut reservers) = Entities::new().share(threads).expect("shared");
        thread::scope(|scope| {
            for reserver in &mut reservers {
                scope.spawn(move || request(reserver));
            }
        });
        let mut entities = shared.close(reservers).expect("closed");
        let mut born = Vec::new();
        entities.flush(&mut born).expect("memory");
        born.len() as u64
    });
    assert_eq!(run.sum, threads as u64 * u64::from(COUNT));
    run
}

fn reserve_all(reserver: &mut Reserver) {
    for _ in 0..COUNT {
        black_box(reserver.reserve().expect("room"));
    }
}

fn reserve_in_bulks(reserver: &mut Reserver) {
    let mut list = Vec::with_capacity(BULK as usize);
    for _ in 0..COUNT / BULK {
        list.clear();
        reserver.reserve_into(&mut list, BULK).expect("room");
        black_box(&list);
    }
}
