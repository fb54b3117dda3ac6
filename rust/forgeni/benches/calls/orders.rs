//! Births in each order, of which the time has to grow with their number alone: at one size, and at
//! ten times that.
//!
//! A phase in blocks that are not used up makes slots that the storage has never seen, and their
//! births come by falling slot. Those of a shared phase come by rising slot. A world that was read
//! from an image has births wherever slots wait.

use crate::{counted, median, rounds, timed, Run};
use forgeni::{Birth, Blocks, Entities, Handle, Storage, World};
use std::hint::black_box;

/// How many births there are: few, and ten times as many.
const FEW: u32 = 20_000;
const MANY: u32 = 10 * FEW;

/// A work, with few births and with many.
type Work = (&'static str, [fn() -> Run; 2]);

/// A work at both sizes.
macro_rules! sizes {
    ($work:ident $(, $before:tt)*) => {
        [$work::<$($before,)* FEW>, $work::<$($before,)* MANY>]
    };
}

/// The orders in which slots are left, as steps from one to the next.
const RISING: u32 = 1;
const FALLING: u32 = FEW - 1;
const SCATTERED: u32 = 7_919;

const WORKS: [Work; 7] = [
    ("in blocks", sizes!(in_blocks)),
    ("in blocks, in many phases", sizes!(in_phases)),
    ("shared", sizes!(shared)),
    ("after `read_image`, rising", sizes!(read, RISING)),
    ("after `read_image`, falling", sizes!(read, FALLING)),
    ("after `read_image`, scattered", sizes!(read, SCATTERED)),
    ("in a storage", sizes!(in_a_storage)),
];

pub fn table() {
    if counted::is_on() {
        for (name, works) in WORKS {
            for (size, work) in [FEW, MANY].into_iter().zip(works) {
                counted::run(&format!("{name} | {size}"), size, &[[work; 8]]);
            }
        }
        return;
    }
    println!("| Births | {FEW} | {MANY} | Ratio |");
    println!("|---|---|---|---|");
    for (name, works) in WORKS {
        let [few, many] = works.map(|work| median((0..rounds()).map(|_| work().seconds).collect()));
        let [few, many] = [few / f64::from(FEW), many / f64::from(MANY)].map(|each| each * 1e9);
        println!(
            "| {name} | {few:.1} ns | {many:.1} ns | {:.2} |",
            many / few
        );
    }
}

/// A world in blocks of these sizes, of which half is used.
fn half_used(world: World, sizes: &[u32]) -> World {
    let (phase, mut reservers) = world.open_in::<Blocks>(sizes).expect("memory");
    for (reserver, size) in reservers.iter_mut().zip(sizes) {
        let reserved = reserver.reserve_many(size / 2);
        reserved.expect("the block has them");
    }
    let ended = phase.close(reservers).expect("all of them");
    ended.into_world().expect("memory")
}

/// One phase in four blocks.
fn in_blocks<const SIZE: u32>() -> Run {
    let mut world = half_used(World::new(), &[SIZE / 2; 4]);
    timed(|| {
        world.flush().expect("memory");
        black_box(world).len() as u64
    })
}

/// A phase for each 200 births, in four blocks.
fn in_phases<const SIZE: u32>() -> Run {
    timed(|| {
        let world = (0..SIZE / 200).fold(World::new(), |world, _| {
            let mut world = half_used(world, &[100; 4]);
            world.flush().expect("memory");
            world
        });
        black_box(world).len() as u64
    })
}

/// One phase of one reserver.
fn shared<const SIZE: u32>() -> Run {
    let mut world = World::new();
    let phase = world.phase(1, |_, systems| systems[0].spawn_many(SIZE, &[]).map(drop));
    let (spawned, _) = phase.expect("memory");
    spawned.expect("handles");
    timed(|| {
        world.flush().expect("memory");
        black_box(world).len() as u64
    })
}

/// Births in all slots of a world that was read from an image, but for each hundredth. Each part of
/// 20,000 slots was left in the order of the step.
fn read<const STEP: u32, const SIZE: u32>() -> Run {
    let mut world = World::new();
    let all: Vec<Handle> = (0..SIZE)
        .map(|_| world.spawn(&[]).expect("memory"))
        .collect();
    for number in 0..SIZE {
        let at = number - number % FEW + number % FEW * STEP % FEW;
        if !at.is_multiple_of(100) {
            world.despawn(all[at as usize]).expect("alive");
        }
    }
    let mut image = Vec::new();
    world.write_image(&mut image).expect("memory");
    let mut world = World::read_image(&image).expect("an image");
    timed(|| {
        for _ in 0..SIZE - SIZE / 100 {
            world.spawn(&[]).expect("memory");
        }
        black_box(world).len() as u64
    })
}

/// Births by falling slot in a storage alone.
fn in_a_storage<const SIZE: u32>() -> Run {
    let birth = Birth {
        frame: 0,
        system: 0,
        ordinal: 0,
    };
    let mut entities = Entities::new();
    let all = entities.alloc_many(SIZE).expect("memory");
    let mut storage = Storage::new();
    timed(|| {
        storage.reserve_slots(SIZE as usize).expect("memory");
        for one in all.iter().rev() {
            storage.born(*one, birth).expect("memory");
        }
        black_box(storage).len() as u64
    })
}
