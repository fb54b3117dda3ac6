//! Phases in blocks beside phases of the shared cursor: reservations on threads, opening, and the
//! end of a phase with its flush.

use crate::{median, COUNT};
use forgeni::{Blocks, Entities, Handle, Phase, Reserver};
use std::hint::black_box;
use std::sync::atomic::{AtomicU64, Ordering};
use std::sync::Barrier;
use std::thread;
use std::time::Instant;

/// How often each number is timed.
const ROUNDS: usize = 31;

pub fn tables() {
    println!("| Threads | In blocks | Shared | An atomic counter | Ratio |");
    println!("|---|---|---|---|---|");
    for threads in [1, 2, 4, 8] {
        let (mut blocks, mut shared, mut counter) = (vec![], vec![], vec![]);
        for _ in 0..ROUNDS {
            blocks.push(in_blocks(threads));
            shared.push(in_turn(threads));
            counter.push(counted(threads));
        }
        let [a, b, c] = [blocks, shared, counter].map(|all| median(all) * 1e9 / f64::from(COUNT));
        println!("| {threads} | {a:.2} | {b:.2} | {c:.2} | {:.3} |", a / b);
    }
    println!();
    println!("| Close and flush | In blocks | Shared | Ratio |");
    println!("|---|---|---|---|");
    for (name, is_old, spare) in [
        ("new slots, blocks used up", false, 0),
        ("old slots, blocks used up", true, 0),
        ("new slots, blocks half used", false, 1),
        ("old slots, blocks half used", true, 1),
    ] {
        let blocks = median((0..ROUNDS).map(|_| end_of_blocks(is_old, spare)).collect());
        let shared = median((0..ROUNDS).map(|_| end_of_shared(is_old)).collect());
        let [a, b] = [blocks, shared].map(|all| all * 1e9 / f64::from(64 * HANDLES));
        println!("| {name} | {a:.2} | {b:.2} | {:.2} |", a / b);
    }
    println!();
    println!("| Slots | Shared | Blocks of 10 | of 64 | of 256 | Opening alone |");
    println!("|---|---|---|---|---|---|");
    for (name, old) in [("new", 0), ("old", 64 * 256)] {
        let shared = median((0..ROUNDS).map(|_| shared_frame(old)).collect()) * 1e6;
        let blocks = [10, 64, 256]
            .map(|size| median((0..ROUNDS).map(|_| frame(old, size)).collect()) * 1e6)
            .map(|each| format!("{each:.1} µs"));
        let opening = median((0..ROUNDS).map(|_| opening(old)).collect()) * 1e6;
        println!(
            "| {name} | {shared:.1} µs | {} | {opening:.1} µs |",
            blocks.join(" | ")
        );
    }
}

/// The seconds that a thread takes for its work, the mean of all: they begin together.
fn on_threads<T: Send>(each: &mut [T], work: impl Fn(&mut T) + Sync) -> f64 {
    let start = &Barrier::new(each.len());
    let (count, work) = (each.len(), &work);
    let sum: f64 = thread::scope(|scope| {
        let one = |it| {
            scope.spawn(move || {
                start.wait();
                let from = Instant::now();
                work(it);
                from.elapsed().as_secs_f64()
            })
        };
        let threads: Vec<_> = each.iter_mut().map(one).collect();
        let seconds = threads.into_iter().map(|it| it.join().expect("it ends"));
        seconds.sum()
    });
    sum / count as f64
}

fn in_blocks(threads: usize) -> f64 {
    let (_phase, mut reservers) = opened(Entities::new(), &vec![COUNT; threads]);
    on_threads(&mut reservers, |reserver| {
        for _ in 0..COUNT {
            black_box(reserver.reserve().expect("room"));
        }
    })
}

fn in_turn(threads: usize) -> f64 {
    let (_shared, mut reservers) = Entities::new().share(threads).expect("shared");
    on_threads(&mut reservers, |reserver: &mut Reserver| {
        for _ in 0..COUNT {
            black_box(reserver.reserve().expect("room"));
        }
    })
}

fn counted(threads: usize) -> f64 {
    let counter = AtomicU64::new(0);
    on_threads(&mut vec![(); threads], |()| {
        for _ in 0..COUNT {
            black_box(counter.fetch_add(1, Ordering::Relaxed));
        }
    })
}

type Parts = (Phase<Blocks>, Vec<Reserver<Blocks>>);

fn opened(entities: Entities, sizes: &[u32]) -> Parts {
    entities.share_in::<Blocks>(sizes).expect("memory")
}

fn closed((phase, reservers): Parts) -> Entities {
    let ended = phase.close(reservers).expect("all are here");
    ended.into_entities().expect("memory")
}

fn opening(old: u32) -> f64 {
    let (entities, sizes) = (waiting(old), [256; 64]);
    let from = Instant::now();
    let open = black_box(opened(entities, &sizes));
    let seconds = from.elapsed().as_secs_f64();
    drop(open);
    seconds
}

/// How many handles each of the 64 callers uses.
const HANDLES: u32 = 1024;

/// An allocator of which so many slots wait.
fn waiting(slots: u32) -> Entities {
    let mut entities = Entities::new();
    for one in entities.alloc_many(slots).expect("memory") {
        entities.free(one).expect("alive");
    }
    entities
}

fn prepared(is_old: bool, slots: u32) -> Entities {
    waiting(if is_old { slots } else { 0 })
}

/// A list that has room for all that comes to life.
fn list() -> Vec<Handle> {
    Vec::with_capacity(64 * HANDLES as usize)
}

fn end_of_blocks(is_old: bool, spare: u32) -> f64 {
    let size = HANDLES * (1 + spare);
    let (phase, mut reservers) = opened(prepared(is_old, 64 * size), &[size; 64]);
    for reserver in &mut reservers {
        reserver.reserve_many(HANDLES).expect("room");
    }
    let mut born = list();
    let from = Instant::now();
    let mut entities = closed((phase, reservers));
    entities.flush(&mut born).expect("memory");
    let seconds = from.elapsed().as_secs_f64();
    assert_eq!(black_box(born).len(), 64 * HANDLES as usize);
    seconds
}

fn end_of_shared(is_old: bool) -> f64 {
    let entities = prepared(is_old, 64 * HANDLES);
    let (shared, mut reservers): (Phase, _) = entities.share(64).expect("shared");
    for reserver in &mut reservers {
        reserver.reserve_many(HANDLES).expect("room");
    }
    let mut born = list();
    let from = Instant::now();
    let mut entities = shared.close(reservers).expect("closed");
    entities.flush(&mut born).expect("memory");
    let seconds = from.elapsed().as_secs_f64();
    assert_eq!(black_box(born).len(), 64 * HANDLES as usize);
    seconds
}

fn frame(old: u32, size: u32) -> f64 {
    let (entities, sizes, mut born) = (waiting(old), [size; 64], Vec::with_capacity(640));
    let from = Instant::now();
    let (phase, mut reservers) = opened(entities, &sizes);
    for reserver in &mut reservers {
        for _ in 0..10 {
            black_box(reserver.reserve().expect("room"));
        }
    }
    let mut entities = closed((phase, reservers));
    entities.flush(&mut born).expect("memory");
    from.elapsed().as_secs_f64()
}

fn shared_frame(old: u32) -> f64 {
    let (entities, mut born) = (waiting(old), Vec::with_capacity(640));
    let from = Instant::now();
    let (shared, mut reservers) = entities.share(64).expect("shared");
    for reserver in &mut reservers {
        for _ in 0..10 {
            black_box(reserver.reserve().expect("room"));
        }
    }
    let mut entities = shared.close(reservers).expect("closed");
    entities.flush(&mut born).expect("memory");
    from.elapsed().as_secs_f64()
}
