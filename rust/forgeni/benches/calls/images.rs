//! An allocator as bytes, and back, as in a save. Beside what writes the image a loop that appends
//! as many words to a list with room, and beside what reads it a clone.

use crate::clones::{micros, used, TakesOver, SIZES};
use crate::{counted, timed, Places};
use forgeni::Entities;
use std::hint::black_box;

pub fn table() {
    if counted::is_on() {
        let (slots, _) = SIZES[0];
        let sides: [Places; 2] = [[|| reads(SIZES[0].0)(); 8], [|| clones(SIZES[0].0)(); 8]];
        return counted::run("`read_image`, a slot", slots, &sides);
    }
    println!("| Slots | `write_image` | Loop | Ratio | `read_image` | `try_clone` | Ratio |");
    println!("|---|---|---|---|---|---|---|");
    for (slots, name) in SIZES {
        let sides = vec![writes(slots), appends(slots), reads(slots), clones(slots)];
        let [write, append, read, clone] = micros(sides)[..] else {
            unreachable!("four sides");
        };
        print!(
            "| {name} | {write:.1} µs | {append:.1} µs | {:.2} |",
            write / append
        );
        println!(" {read:.1} µs | {clone:.1} µs | {:.2} |", read / clone);
    }
}

fn image(entities: &Entities) -> Vec<u8> {
    let mut image = Vec::new();
    entities.write_image(&mut image).expect("memory");
    image
}

fn writes(slots: u32) -> TakesOver {
    let source = used(slots);
    let mut out = image(&source);
    Box::new(move || {
        out.clear();
        timed(|| {
            let written = black_box(&source).write_image(black_box(&mut out));
            written.expect("there is room");
            out.len() as u64
        })
    })
}

/// Appends three words for each slot, and ten before them.
fn appends(slots: u32) -> TakesOver {
    let source = vec![1_u32; 10 + 3 * slots as usize];
    let mut out = Vec::with_capacity(4 * source.len());
    Box::new(move || {
        out.clear();
        timed(|| {
            for word in black_box(&source) {
                out.extend_from_slice(&word.to_le_bytes());
            }
            black_box(&mut out).len() as u64
        })
    })
}

fn reads(slots: u32) -> TakesOver {
    let image = image(&used(slots));
    Box::new(move || timed(|| made(Entities::read_image(black_box(&image)).expect("an image"))))
}

fn clones(slots: u32) -> TakesOver {
    let source = used(slots);
    Box::new(move || timed(|| made(black_box(&source).try_clone().expect("memory"))))
}

/// How many live in what was made. It is dropped, on both sides.
fn made(entities: Entities) -> u64 {
    u64::from(black_box(entities).len())
}
