//! Where a value lies in a map by handles: beside its generation, as in a `HandleMap`, or in a
//! vector of its own. And what a new slot costs beside a push.

use crate::components::{rounds_of_size, set_size, size, times, Components, Side, Walked, SIZES};
use crate::plain::slot_map::{ApartMap, Key, SecondaryMap, SlotMap};
use crate::{line_of_two, places, shift, timed, Places, Run};
use forgeni::Entities;
use std::hint::black_box;

/// A map in one of the two forms.
trait Form: Default {
    fn insert(&mut self, key: Key, value: i64);
    fn get(&self, key: Key) -> Option<&i64>;
    fn remove(&mut self, key: Key) -> Option<i64>;
    fn sum(&self) -> i64;
}

impl Form for SecondaryMap<i64> {
    #[inline(always)]
    fn insert(&mut self, key: Key, value: i64) {
        SecondaryMap::insert(self, key, value);
    }

    #[inline(always)]
    fn get(&self, key: Key) -> Option<&i64> {
        SecondaryMap::get(self, key)
    }

    #[inline(always)]
    fn remove(&mut self, key: Key) -> Option<i64> {
        SecondaryMap::remove(self, key)
    }

    #[inline(always)]
    fn sum(&self) -> i64 {
        self.iter().map(|(_, value)| value).sum()
    }
}

impl Form for ApartMap<i64> {
    #[inline(always)]
    fn insert(&mut self, key: Key, value: i64) {
        ApartMap::insert(self, key, value);
    }

    #[inline(always)]
    fn get(&self, key: Key) -> Option<&i64> {
        ApartMap::get(self, key)
    }

    #[inline(always)]
    fn remove(&mut self, key: Key) -> Option<i64> {
        ApartMap::remove(self, key)
    }

    #[inline(always)]
    fn sum(&self) -> i64 {
        self.iter().sum()
    }
}

/// A slot map of keys with such a map.
#[derive(Default)]
struct With<M> {
    keys: SlotMap,
    values: M,
}

impl<M: Form> Side for With<M> {
    type Key = Key;

    #[inline(always)]
    fn spawn(&mut self, value: i64) -> Key {
        let key = self.keys.insert();
        self.values.insert(key, value);
        key
    }

    #[inline(always)]
    fn get(&self, key: Key) -> Option<i64> {
        self.values.get(key).copied()
    }

    #[inline(always)]
    fn despawn(&mut self, key: Key) -> bool {
        self.keys.remove(key) && self.values.remove(key).is_some()
    }
}

impl<M: Form> Walked for With<M> {
    #[inline(always)]
    fn sum(&self) -> i64 {
        self.values.sum()
    }

    #[inline(always)]
    fn key(&mut self) -> Key {
        self.keys.insert()
    }

    #[inline(always)]
    fn insert(&mut self, key: Key, value: i64) {
        self.values.insert(key, value);
    }
}

pub fn table() {
    let beside = Components::of::<With<SecondaryMap<i64>>>();
    let apart = Components::of::<With<ApartMap<i64>>>();
    println!("| Work of a map | Entities | Beside its value | Apart | Ratio | By place |");
    println!("|---|---|---|---|---|---|");
    for (at, order) in ["rising", "scattered"].into_iter().enumerate() {
        let name = format!("Spawn, 4 times `get`, despawn, {order}");
        lines(&name, beside.lives[at], apart.lives[at]);
    }
    for (at, order) in ["rising", "scattered"].into_iter().enumerate() {
        let name = format!("`get`, {order}");
        lines(&name, beside.reads[at], apart.reads[at]);
    }
    lines("`iter`, a value", beside.walk, apart.walk);
    println!();
    println!("| A new slot | Slots | `alloc` | `Vec::push` | Ratio | By place |");
    println!("|---|---|---|---|---|---|");
    lines("made", places!(made), places!(pushed));
}

/// A line of each size.
fn lines(name: &str, ours: Places, others: Places) {
    for size in SIZES {
        set_size(size);
        let name = format!("{name} | {size}");
        line_of_two(rounds_of_size(), &name, size * times(), ours, others);
    }
}

/// All slots are made, one after the other.
fn made<const PLACE: usize>() -> Run {
    shift::<PLACE>();
    timed(|| {
        (0..times()).fold(0, |sum, _| {
            let mut entities = Entities::new();
            (0..size()).fold(sum, |sum, _| {
                let one = black_box(&mut entities).alloc().expect("room");
                sum + u64::from(one.index())
            })
        })
    })
}

/// As many records of as many bytes are pushed.
fn pushed<const PLACE: usize>() -> Run {
    shift::<PLACE>();
    timed(|| {
        (0..times()).fold(0, |sum, _| {
            let mut records = Vec::new();
            (0..size()).fold(sum, |sum, index| {
                black_box(&mut records).push([1_u32, u32::MAX]);
                sum + u64::from(index)
            })
        })
    })
}
