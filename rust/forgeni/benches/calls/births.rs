//! Births in a storage, and an `Entities` with a `Storage`, beside sparse sets in plain Rust.

use crate::components::{by_step, lives, rounds_of_size, set_size, size, times, Side, SIZES};
use crate::entities::{READS, SCATTERED};
use crate::plain::allocator as plain;
use crate::plain::sparse_sets::SparseSet;
use crate::{line_of_two, places, shift, timed, Places, Run};
use forgeni::{Birth, ComponentId, Entities, Handle, Storage};
use std::hint::black_box;

const VALUE: ComponentId = ComponentId(0);

pub fn table() {
    println!("| Work of a `Storage` | Entities | Here | Plain Rust | Ratio | By place |");
    println!("|---|---|---|---|---|---|");
    lines(
        "`born` in slots that were left, rising",
        places!(births, 1),
        places!(plain_births, 1),
        &SIZES[..2],
    );
    lines(
        "`born` in slots that were left, scattered",
        places!(births, SCATTERED),
        places!(plain_births, SCATTERED),
        &SIZES,
    );
    let [ours, plain] = [lives::<Ours>(), lives::<Plain>()];
    for (at, order) in ["rising", "scattered"].into_iter().enumerate() {
        let name = format!("Spawn, {READS} times `get`, despawn, {order}");
        lines(&name, ours[at], plain[at], &SIZES[..2]);
    }
}

/// A line of each of these sizes.
fn lines(name: &str, ours: Places, plain: Places, sizes: &[u32]) {
    for size in sizes {
        set_size(*size);
        let name = format!("{name} | {size}");
        line_of_two(rounds_of_size(), &name, size * times(), ours, plain);
    }
}

/// The birth of an entity by this number.
fn birth(ordinal: u32) -> Birth {
    Birth {
        frame: 0,
        system: 0,
        ordinal,
    }
}

/// The run of all times, of which each makes ready what it needs.
#[inline(always)]
fn again(run: impl Fn() -> Run) -> Run {
    let none = Run {
        seconds: 0.0,
        sum: 0,
    };
    (0..times()).map(|_| run()).fold(none, |all, one| Run {
        seconds: all.seconds + one.seconds,
        sum: all.sum + one.sum,
    })
}

/// The next occupant of each slot is born. Who went last is followed first, as an allocator gives
/// slots again.
fn births<const STEP: u32, const PLACE: usize>() -> Run {
    shift::<PLACE>();
    again(|| {
        let handle = |index, generation| Handle::new(index, generation).expect("a handle");
        let mut storage = Storage::new();
        for index in 0..size() {
            storage
                .born(handle(index, 1), birth(index))
                .expect("memory");
        }
        let mut next = Vec::with_capacity(size() as usize);
        for at in by_step(STEP) {
            storage.despawn(handle(at as u32, 1)).expect("it is there");
            next.push(handle(at as u32, 2));
        }
        next.reverse();
        timed(|| {
            let storage = black_box(&mut storage);
            for one in &next {
                storage.born(*one, birth(0)).expect("memory");
            }
            next.len() as u64
        })
    })
}

fn plain_births<const STEP: u32, const PLACE: usize>() -> Run {
    shift::<PLACE>();
    again(|| {
        let mut storage = SparseSet::default();
        for index in 0..size() {
            assert!(storage.born((index, 1), index));
        }
        let mut next = Vec::with_capacity(size() as usize);
        for at in by_step(STEP) {
            assert!(storage.despawn((at as u32, 1)));
            next.push((at as u32, 2));
        }
        next.reverse();
        timed(|| {
            let storage = black_box(&mut storage);
            for one in &next {
                assert!(storage.born(*one, 0));
            }
            next.len() as u64
        })
    })
}

#[derive(Default)]
struct Ours {
    entities: Entities,
    storage: Storage,
}

impl Side for Ours {
    type Key = Handle;

    #[inline(always)]
    fn spawn(&mut self, value: i64) -> Handle {
        let one = self.entities.alloc().expect("room");
        self.storage.born(one, birth(value as u32)).expect("memory");
        self.storage.insert(one, &[(VALUE, value)]).expect("memory");
        one
    }

    #[inline(always)]
    fn get(&self, one: Handle) -> Option<i64> {
        self.storage.get(one, VALUE)
    }

    #[inline(always)]
    fn despawn(&mut self, one: Handle) -> bool {
        self.storage.despawn(one).is_ok() && self.entities.free(one).is_ok()
    }
}

#[derive(Default)]
struct Plain {
    entities: plain::Entities,
    storage: SparseSet,
}

fn pair(one: plain::Handle) -> (u32, u32) {
    (one.index, one.generation)
}

impl Side for Plain {
    type Key = plain::Handle;

    #[inline(always)]
    fn spawn(&mut self, value: i64) -> plain::Handle {
        let one = self.entities.alloc().ok().expect("room");
        assert!(self.storage.born(pair(one), value as u32));
        assert!(self.storage.insert(pair(one), 0, value));
        one
    }

    #[inline(always)]
    fn get(&self, one: plain::Handle) -> Option<i64> {
        self.storage.get(pair(one), 0)
    }

    #[inline(always)]
    fn despawn(&mut self, one: plain::Handle) -> bool {
        self.storage.despawn(pair(one)) && self.entities.free(one).is_ok()
    }
}
