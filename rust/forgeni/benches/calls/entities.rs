//! Whole entities: spawned, read and despawned, by rising spawns or scattered.

use crate::plain::allocator as plain;
use crate::plain::sparse_sets::SparseSet;
use crate::{line, peers, places, shift, timed, Run, COUNT};
use forgeni::{ComponentId, Handle, World};
use std::hint::black_box;

const VALUE: ComponentId = ComponentId(0);

/// A step through all entities that has no factor in common with their number.
pub const SCATTERED: u32 = 7_919;

/// How often each entity is read.
pub const READS: u32 = 4;

pub fn lines() {
    let slots = peers::SLOTS;
    let ours = [places!(rising), places!(scattered)];
    let plain = [places!(plain_rising), places!(plain_scattered)];
    let peers = [slots.rising, slots.scattered];
    for ((name, ours), (plain, peer)) in ["rising", "scattered"]
        .into_iter()
        .zip(ours)
        .zip(plain.into_iter().zip(peers))
    {
        let name = format!("`spawn`, {READS} times `get`, `despawn`, {name}");
        line(&name, COUNT, ours, plain, peer);
    }
}

/// The numbers of all entities, each a step after the one before.
pub fn by_step(step: u32) -> impl Iterator<Item = u32> {
    (0..COUNT).scan(0, move |at, _| {
        let this = *at;
        *at = (this + step) % COUNT;
        Some(this)
    })
}

fn rising<const PLACE: usize>() -> Run {
    shift::<PLACE>();
    turn(1)
}

fn scattered<const PLACE: usize>() -> Run {
    shift::<PLACE>();
    turn(SCATTERED)
}

#[inline(always)]
fn turn(step: u32) -> Run {
    let mut all: Vec<Handle> = Vec::with_capacity(COUNT as usize);
    timed(|| {
        let mut world = World::new();
        for value in 0..COUNT {
            all.push(world.spawn(&[(VALUE, i64::from(value))]).expect("room"));
        }
        let mut sum = 0;
        for _ in 0..READS {
            for at in by_step(step) {
                let value = black_box(&world).get(all[at as usize], VALUE);
                sum += value.expect("it has one") as u64;
            }
        }
        for at in by_step(step) {
            world.despawn(all[at as usize]).expect("alive");
        }
        sum
    })
}

fn plain_rising<const PLACE: usize>() -> Run {
    shift::<PLACE>();
    plain_turn(1)
}

fn plain_scattered<const PLACE: usize>() -> Run {
    shift::<PLACE>();
    plain_turn(SCATTERED)
}

#[inline(always)]
fn plain_turn(step: u32) -> Run {
    let mut all: Vec<plain::Handle> = Vec::with_capacity(COUNT as usize);
    let pair = |one: plain::Handle| (one.index, one.generation);
    timed(|| {
        let (mut entities, mut storage) = (plain::Entities::default(), SparseSet::default());
        for value in 0..COUNT {
            let one = entities.alloc().ok().expect("room");
            assert!(storage.born(pair(one), value));
            assert!(storage.insert(pair(one), 0, i64::from(value)));
            all.push(one);
        }
        let mut sum = 0;
        for _ in 0..READS {
            for at in by_step(step) {
                let value = black_box(&storage).get(pair(all[at as usize]), 0);
                sum += value.expect("it has one") as u64;
            }
        }
        for at in by_step(step) {
            let one = all[at as usize];
            assert!(storage.despawn(pair(one)) && entities.free(one).is_ok());
        }
        sum
    })
}
