//! Components by handle: an `Entities` with a `HandleMap`, beside a slot map with a secondary map.

use crate::entities::{READS, SCATTERED};
use crate::plain::slot_map as plain;
use crate::refusing::held;
use crate::{line_of_rounds, peers, places, rounds, shift, timed, Places, Run};
use forgeni::{Entities, Handle, HandleMap};
use std::hint::black_box;
use std::sync::atomic::{AtomicU32, Ordering};

/// How many entities there are.
pub const SIZES: [u32; 3] = [1_000, 100_000, 1_000_000];

/// How many a run goes through at least, again and again where there are fewer.
const LEAST: u32 = 100_000;

/// How many entities the run has that is timed now.
static SIZE: AtomicU32 = AtomicU32::new(0);

pub fn size() -> u32 {
    SIZE.load(Ordering::Relaxed)
}

/// Says how many entities the runs that follow have.
pub fn set_size(size: u32) {
    SIZE.store(size, Ordering::Relaxed);
}

/// How often a run goes through all.
pub fn times() -> u32 {
    LEAST.div_ceil(size())
}

/// How often each place is timed: with the most entities a third as often.
pub fn rounds_of_size() -> usize {
    let part = if size() > LEAST { 3 } else { 1 };
    rounds().div_ceil(part)
}

/// Who lives, and one component of each.
pub trait Side: Default {
    /// What names an entity.
    type Key: Copy;

    fn spawn(&mut self, value: i64) -> Self::Key;
    fn get(&self, key: Self::Key) -> Option<i64>;
    fn despawn(&mut self, key: Self::Key) -> bool;
}

/// One whose values can be walked over, and inserted by themselves.
pub trait Walked: Side {
    /// The sum of all values.
    fn sum(&self) -> i64;

    /// A new entity, without a value.
    fn key(&mut self) -> Self::Key;

    fn insert(&mut self, key: Self::Key, value: i64);
}

#[derive(Default)]
struct Ours {
    entities: Entities,
    values: HandleMap<i64>,
}

impl Side for Ours {
    type Key = Handle;

    #[inline(always)]
    fn spawn(&mut self, value: i64) -> Handle {
        let one = self.entities.alloc().expect("room");
        self.values.insert(one, value).expect("memory");
        one
    }

    #[inline(always)]
    fn get(&self, one: Handle) -> Option<i64> {
        self.values.get(one).copied()
    }

    #[inline(always)]
    fn despawn(&mut self, one: Handle) -> bool {
        self.entities.free(one).is_ok() && self.values.remove(one).is_some()
    }
}

impl Walked for Ours {
    #[inline(always)]
    fn sum(&self) -> i64 {
        self.values.values().sum()
    }

    #[inline(always)]
    fn key(&mut self) -> Handle {
        self.entities.alloc().expect("room")
    }

    #[inline(always)]
    fn insert(&mut self, one: Handle, value: i64) {
        self.values.insert(one, value).expect("memory");
    }
}

#[derive(Default)]
struct Plain {
    keys: plain::SlotMap,
    values: plain::SecondaryMap<i64>,
}

impl Side for Plain {
    type Key = plain::Key;

    #[inline(always)]
    fn spawn(&mut self, value: i64) -> plain::Key {
        let key = self.keys.insert();
        self.values.insert(key, value);
        key
    }

    #[inline(always)]
    fn get(&self, key: plain::Key) -> Option<i64> {
        self.values.get(key).copied()
    }

    #[inline(always)]
    fn despawn(&mut self, key: plain::Key) -> bool {
        self.keys.remove(key) && self.values.remove(key).is_some()
    }
}

impl Walked for Plain {
    #[inline(always)]
    fn sum(&self) -> i64 {
        self.values.iter().map(|(_, value)| value).sum()
    }

    #[inline(always)]
    fn key(&mut self) -> plain::Key {
        self.keys.insert()
    }

    #[inline(always)]
    fn insert(&mut self, key: plain::Key, value: i64) {
        self.values.insert(key, value);
    }
}

/// The works of a side.
pub struct Components {
    pub lives: [Places; 2],
    pub inserts: [Places; 2],
    pub reads: [Places; 2],
    pub walk: Places,
    bytes: fn() -> isize,
}

impl Components {
    pub const fn of<S: Walked>() -> Self {
        Self {
            lives: lives::<S>(),
            inserts: [places!(insert_new, S), places!(insert_again, S)],
            reads: [places!(read, S, 1), places!(read, S, SCATTERED)],
            walk: places!(walk, S),
            bytes: bytes::<S>,
        }
    }
}

/// All are spawned, read and despawned, by rising spawns and by scattered ones.
pub const fn lives<S: Side>() -> [Places; 2] {
    [places!(life, S, 1), places!(life, S, SCATTERED)]
}

/// The numbers of all entities, each a step after the one before.
pub fn by_step(step: u32) -> impl Iterator<Item = usize> {
    let size = size();
    (0..size).scan(0, move |at, _| {
        let this = *at;
        *at = (this + step) % size;
        Some(this as usize)
    })
}

fn full<S: Side>() -> (S, Vec<S::Key>) {
    let mut side = S::default();
    let keys = (0..size()).map(|value| side.spawn(i64::from(value)));
    let keys = keys.collect();
    (side, keys)
}

#[inline(always)]
fn read_all<S: Side>(side: &S, keys: &[S::Key], step: u32) -> u64 {
    by_step(step).fold(0, |sum, at| {
        let value = black_box(side).get(keys[at]);
        sum + value.expect("it has one") as u64
    })
}

/// All are spawned, read some times, and despawned.
fn life<S: Side, const STEP: u32, const PLACE: usize>() -> Run {
    shift::<PLACE>();
    let mut keys = Vec::with_capacity(size() as usize);
    timed(|| {
        (0..times()).fold(0, |sum, _| {
            keys.clear();
            let mut side = S::default();
            keys.extend((0..size()).map(|value| side.spawn(i64::from(value))));
            let read = (0..READS)
                .map(|_| read_all(&side, &keys, STEP))
                .sum::<u64>();
            for at in by_step(STEP) {
                assert!(side.despawn(keys[at]));
            }
            sum + read
        })
    })
}

/// All get a value in a map that has no slots yet.
fn insert_new<S: Walked, const PLACE: usize>() -> Run {
    shift::<PLACE>();
    let mut living = S::default();
    let keys: Vec<S::Key> = (0..size()).map(|_| living.key()).collect();
    timed(|| {
        (0..times()).fold(0, |sum, _| {
            let mut side = S::default();
            sum + insert_all(&mut side, &keys)
        })
    })
}

/// All get a value in place of the one that they have.
fn insert_again<S: Walked, const PLACE: usize>() -> Run {
    shift::<PLACE>();
    let (mut side, keys) = full::<S>();
    timed(|| (0..times()).map(|_| insert_all(&mut side, &keys)).sum())
}

#[inline(always)]
fn insert_all<S: Walked>(side: &mut S, keys: &[S::Key]) -> u64 {
    for (value, key) in (0..).zip(keys) {
        black_box(&mut *side).insert(*key, value);
    }
    keys.len() as u64
}

fn read<S: Side, const STEP: u32, const PLACE: usize>() -> Run {
    shift::<PLACE>();
    let (side, keys) = full::<S>();
    timed(|| (0..times()).map(|_| read_all(&side, &keys, STEP)).sum())
}

fn walk<S: Walked, const PLACE: usize>() -> Run {
    shift::<PLACE>();
    let (side, _keys) = full::<S>();
    timed(|| {
        let walks = (0..times()).map(|_| black_box(&side).sum());
        walks.sum::<i64>() as u64
    })
}

/// The bytes that all entities take.
fn bytes<S: Side>() -> isize {
    held(|| {
        let mut side = S::default();
        for value in 0..size() {
            side.spawn(i64::from(value));
        }
        side
    })
    .1
}

pub fn tables() {
    let [ours, plain] = [Components::of::<Ours>(), Components::of::<Plain>()];
    let peer = peers::SLOTS.components;
    println!("| Work | Entities | Here | Plain Rust | Ratio | By place | slotmap | Ratio |");
    println!("|---|---|---|---|---|---|---|---|");
    let orders = ["rising", "scattered"];
    for (at, order) in orders.into_iter().enumerate() {
        let name = format!("Spawn, {READS} times `get`, despawn, {order}");
        let peer = peer.as_ref().map(|peer| peer.lives[at]);
        lines(&name, ours.lives[at], plain.lives[at], peer);
    }
    let slots = ["`insert`, new slots", "`insert`, slots with values"];
    for (at, name) in slots.into_iter().enumerate() {
        let peer = peer.as_ref().map(|peer| peer.inserts[at]);
        lines(name, ours.inserts[at], plain.inserts[at], peer);
    }
    for (at, order) in orders.into_iter().enumerate() {
        let peer = peer.as_ref().map(|peer| peer.reads[at]);
        lines(
            &format!("`get`, {order}"),
            ours.reads[at],
            plain.reads[at],
            peer,
        );
    }
    let walk = peer.as_ref().map(|peer| peer.walk);
    lines("`iter`, a value", ours.walk, plain.walk, walk);
    println!();
    println!("| Entities | Bytes an entity, here | Plain Rust | slotmap |");
    println!("|---|---|---|---|");
    for size in SIZES {
        set_size(size);
        let each = |bytes: fn() -> isize| format!("{:.1}", bytes() as f64 / f64::from(size));
        let peer = peer
            .as_ref()
            .map(|peer| each(peer.bytes))
            .unwrap_or_default();
        println!(
            "| {size} | {} | {} | {peer} |",
            each(ours.bytes),
            each(plain.bytes)
        );
    }
}

/// A line of each size.
fn lines(name: &str, ours: Places, plain: Places, peer: Option<Places>) {
    for size in SIZES {
        set_size(size);
        let name = format!("{name} | {size}");
        line_of_rounds(rounds_of_size(), &name, size * times(), ours, plain, peer);
    }
}
