//! The same work over the crates slotmap and sharded-slab, where `run.sh` found them.

use crate::clones::TakesOver;
use crate::components::Components;
use crate::memory;
use crate::{Places, Run};

/// What a slot map does.
pub struct Slots {
    pub alloc_free: Option<Places>,
    pub alloc_all: Option<Places>,
    pub fresh: Option<Places>,
    pub contains: Option<Places>,
    pub rising: Option<Places>,
    pub scattered: Option<Places>,
    pub components: Option<Components>,
    pub taken_over: Option<fn(u32) -> TakesOver>,
    pub memory: Option<memory::Peer>,
}

#[cfg(not(slotmap))]
pub const SLOTS: Slots = Slots {
    alloc_free: None,
    alloc_all: None,
    fresh: None,
    contains: None,
    rising: None,
    scattered: None,
    components: None,
    taken_over: None,
    memory: None,
};

#[cfg(sharded_slab)]
pub const SLAB: Option<fn(usize) -> Run> = Some(slab::living);
#[cfg(not(sharded_slab))]
pub const SLAB: Option<fn(usize) -> Run> = None;

#[cfg(slotmap)]
pub use slots::SLOTS;

#[cfg(slotmap)]
mod slots {
    use super::Slots;
    use crate::clones::TakesOver;
    use crate::components::{Components, Side, Walked};
    use crate::entities::{by_step, READS, SCATTERED};
    use crate::memory::{of_turns, Component, Held, Peer};
    use crate::{places, shift, timed, Run, COUNT};
    use slotmap::{DefaultKey, Key, SecondaryMap, SlotMap, SparseSecondaryMap};
    use std::hint::black_box;

    pub const SLOTS: Slots = Slots {
        alloc_free: Some(places!(alloc_free)),
        alloc_all: Some(places!(alloc_all)),
        fresh: Some(places!(fresh)),
        contains: Some(places!(contains)),
        rising: Some(places!(rising)),
        scattered: Some(places!(scattered)),
        components: Some(Components::of::<Both>()),
        taken_over: Some(taken_over),
        memory: Some(Peer {
            secondary: [in_map::<u32>, in_map::<u64>, in_map::<[u64; 3]>],
            sparse: [in_sparse::<u32>, in_sparse::<u64>, in_sparse::<[u64; 3]>],
            births: with_births,
        }),
    };

    /// A slot map of keys alone, and a secondary map for the values.
    #[derive(Default)]
    struct Both {
        keys: SlotMap<DefaultKey, ()>,
        values: SecondaryMap<DefaultKey, i64>,
    }

    impl Side for Both {
        type Key = DefaultKey;

        #[inline(always)]
        fn spawn(&mut self, value: i64) -> DefaultKey {
            let key = self.keys.insert(());
            self.values.insert(key, value);
            key
        }

        #[inline(always)]
        fn get(&self, key: DefaultKey) -> Option<i64> {
            self.values.get(key).copied()
        }

        #[inline(always)]
        fn despawn(&mut self, key: DefaultKey) -> bool {
            self.keys.remove(key).is_some() && self.values.remove(key).is_some()
        }
    }

    impl Walked for Both {
        #[inline(always)]
        fn sum(&self) -> i64 {
            self.values.iter().map(|(_, value)| value).sum()
        }

        #[inline(always)]
        fn key(&mut self) -> DefaultKey {
            self.keys.insert(())
        }

        #[inline(always)]
        fn insert(&mut self, key: DefaultKey, value: i64) {
            self.values.insert(key, value);
        }
    }

    fn full() -> (SlotMap<DefaultKey, ()>, Vec<DefaultKey>) {
        let mut slots = SlotMap::new();
        let keys = (0..COUNT).map(|_| slots.insert(())).collect();
        (slots, keys)
    }

    fn alloc_free<const PLACE: usize>() -> Run {
        shift::<PLACE>();
        let (mut slots, keys) = full();
        for key in keys {
            slots.remove(key).expect("alive");
        }
        timed(|| {
            (0..COUNT).fold(0, |sum, _| {
                let key = black_box(&mut slots).insert(());
                slots.remove(key).expect("alive");
                sum ^ key.data().as_ffi()
            })
        })
    }

    fn alloc_all<const PLACE: usize>() -> Run {
        shift::<PLACE>();
        let (mut slots, mut keys) = full();
        for key in keys.drain(..) {
            slots.remove(key).expect("alive");
        }
        timed(|| {
            for _ in 0..COUNT {
                keys.push(black_box(&mut slots).insert(()));
            }
            keys.iter().fold(0, |sum, key| {
                slots.remove(*key).expect("alive");
                sum ^ key.data().as_ffi()
            })
        })
    }

    fn fresh<const PLACE: usize>() -> Run {
        shift::<PLACE>();
        timed(|| {
            let mut slots = SlotMap::new();
            (0..COUNT).fold(0, |sum, _| sum ^ slots.insert(()).data().as_ffi())
        })
    }

    fn contains<const PLACE: usize>() -> Run {
        shift::<PLACE>();
        let (mut slots, keys) = full();
        for key in keys.iter().step_by(4) {
            slots.remove(*key).expect("alive");
        }
        timed(|| {
            let alive = |key: &&DefaultKey| black_box(&slots).contains_key(**key);
            keys.iter().filter(alive).count() as u64
        })
    }

    /// A slot map with a number for each key, of which every fourth is gone.
    fn taken_over(slots: u32) -> TakesOver {
        let mut source = SlotMap::new();
        let keys: Vec<DefaultKey> = (0..slots).map(|slot| source.insert(slot)).collect();
        for key in keys.iter().step_by(4) {
            source.remove(*key).expect("alive");
        }
        let mut target = source.clone();
        Box::new(move || {
            timed(|| {
                black_box(&mut target).clone_from(black_box(&source));
                target.len() as u64
            })
        })
    }

    fn in_map<T: Component>() -> Held {
        of_turns(
            |(keys, values): &mut (SlotMap<DefaultKey, ()>, SecondaryMap<DefaultKey, T>)| {
                let key = keys.insert(());
                values.insert(key, T::default());
                key
            },
            |(keys, values), key| {
                assert!(values.remove(key).is_some() && keys.remove(key).is_some());
            },
        )
    }

    fn in_sparse<T: Component>() -> Held {
        of_turns(
            |(keys, values): &mut (SlotMap<DefaultKey, ()>, SparseSecondaryMap<DefaultKey, T>)| {
                let key = keys.insert(());
                values.insert(key, T::default());
                key
            },
            |(keys, values), key| {
                assert!(values.remove(key).is_some() && keys.remove(key).is_some());
            },
        )
    }

    fn with_births() -> Held {
        of_turns(
            |(births, values): &mut (
                SlotMap<DefaultKey, (u64, u32, u32)>,
                SecondaryMap<DefaultKey, i64>,
            )| {
                let key = births.insert((0, 0, 0));
                values.insert(key, 1);
                key
            },
            |(births, values), key| {
                assert!(values.remove(key).is_some() && births.remove(key).is_some());
            },
        )
    }

    fn rising<const PLACE: usize>() -> Run {
        shift::<PLACE>();
        turn(1)
    }

    fn scattered<const PLACE: usize>() -> Run {
        shift::<PLACE>();
        turn(SCATTERED)
    }

    /// A slot map of births, and a secondary map of one component's values.
    #[inline(always)]
    fn turn(step: u32) -> Run {
        let mut all: Vec<DefaultKey> = Vec::with_capacity(COUNT as usize);
        timed(|| {
            let mut births = SlotMap::new();
            let mut values = SecondaryMap::new();
            for value in 0..COUNT {
                let key = births.insert((0_u64, 0_u32, value));
                values.insert(key, i64::from(value));
                all.push(key);
            }
            let mut sum = 0;
            for _ in 0..READS {
                for at in by_step(step) {
                    let value = black_box(&values).get(all[at as usize]);
                    sum += *value.expect("it has one") as u64;
                }
            }
            for at in by_step(step) {
                let key = all[at as usize];
                assert!(values.remove(key).is_some() && births.remove(key).is_some());
            }
            sum
        })
    }
}

#[cfg(sharded_slab)]
mod slab {
    use crate::{timed, Run, COUNT};
    use sharded_slab::Slab;
    use std::hint::black_box;
    use std::thread;

    pub fn living(threads: usize) -> Run {
        timed(|| {
            let slab = Slab::new();
            thread::scope(|scope| {
                for _ in 0..threads {
                    scope.spawn(|| {
                        for _ in 0..COUNT {
                            black_box(slab.insert(()).expect("room"));
                        }
                    });
                }
            });
            black_box(slab);
            0
        })
    }
}
