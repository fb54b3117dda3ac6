//! How many bytes each call asks for if it makes something grow. No contract says this: a call that
//! takes more room than it needs meets every contract. The numbers here are computed from what must
//! be kept. A list that grows item by item asks for at most twice its room in all: each doubling
//! asks for the whole list again.

mod common;
#[path = "common/refusing_allocator.rs"]
mod refusing;

use common::{flushed, handle};
use forgeni::trace::{Checker, Log, Recorder, Reservation, ReserveReply};
use forgeni::{
    log, Birth, ComponentId, Entities, Entry, Handle, HandleMap, Limits, LogCommands, ReserveError,
    Storage, World,
};
use refusing::{asked, held};

/// How many there are of most things.
const N: u32 = 1_000;

/// The same as a number of bytes.
const BYTES: usize = N as usize;

/// What a handle takes in a list.
const HANDLE: usize = 8;

/// What a slot of an allocator takes: its generation, and what became of its occupant.
const SLOT: usize = 8;

/// What a thing takes that has a thread of its own: two cache lines.
const APART: usize = 128;

const HP: ComponentId = ComponentId(0);

const BIRTH: Birth = Birth {
    frame: 0,
    system: 0,
    ordinal: 0,
};

/// Does this, which must ask for exactly so many bytes.
#[track_caller]
fn exactly<T>(bytes: usize, work: impl FnOnce() -> T) -> T {
    let (done, taken) = asked(work);
    assert_eq!(taken, bytes, "bytes");
    done
}

/// Does this, which must ask for some bytes, and at most so many. At the end it must hold no more
/// than these.
#[track_caller]
fn at_most<T>(most: usize, work: impl FnOnce() -> T) -> T {
    let ((done, taken), kept) = held(|| asked(work));
    assert!(0 < taken && taken <= most, "{taken} bytes, at most {most}");
    assert!(kept <= taken as isize, "{kept} bytes are held, of {taken}");
    done
}

/// What a list that grows one by one to `N` items asks for in all: the last room is at most twice
/// what it needs, and the rooms before it together are as much.
const fn grown(item: usize) -> usize {
    4 * item * BYTES
}

#[test]
fn what_is_empty() {
    exactly(0, || {
        let map = HandleMap::<u64>::with_limit(7);
        let parts = (Entities::new(), World::new(), Storage::new(), map);
        (parts, Checker::new(Limits::GREATEST), Log::new(3))
    });
}

/// Of a type no greater than 4 bytes it is 8 bytes a slot, and of one with 8 bytes it is 16.
fn maps_of<T: Copy + Default>(slot: usize) {
    let mut map = exactly(slot * BYTES, || {
        HandleMap::<T>::with_capacity(BYTES).expect("memory")
    });
    exactly(slot * 3 * BYTES, || map.reserve(3 * BYTES).expect("memory"));
    assert_eq!(map.capacity(), 3 * BYTES);
    exactly(0, || {
        map.reserve(3 * BYTES).expect("there is room");
        assert_eq!(map.slots(), 0);
        for index in 0..3 * N {
            let inserted = map.insert(handle(index, 1), T::default());
            assert!(inserted.is_ok_and(|before| before.is_none()));
        }
        map.retain(|one, _| one.index() < 2 * N);
    });

    // Room for all slots, and a list of handles with their values.
    let clone = exactly(slot * 3 * BYTES, || map.clone());
    let entry = size_of::<(Handle, T)>();
    exactly(entry * 2 * BYTES, || clone.into_iter());

    let mut far = HandleMap::new();
    let last = handle(N - 1, 1);
    let inserted = exactly(slot * BYTES, || far.insert(last, T::default()));
    assert!(inserted.is_ok());
    let next = handle(N, 1);
    let inserted = at_most(slot * 2 * BYTES, || far.insert(next, T::default()));
    assert!(inserted.is_ok());
    let further = handle(100 * N - 1, 1);
    let inserted = exactly(slot * 100 * BYTES, || far.insert(further, T::default()));
    assert!(inserted.is_ok());

    let one_by_one = || {
        (0..N)
            .map(|index| (handle(index, 1), T::default()))
            .collect()
    };
    let grown: HandleMap<T> = at_most(grown(slot), one_by_one);
    assert!(grown.capacity() <= 2 * BYTES);
}

#[test]
fn maps() {
    maps_of::<u8>(8);
    maps_of::<u32>(8);
    maps_of::<u64>(8 + align_of::<u64>());
}

#[test]
fn slots_and_lists() {
    let mut entities = Entities::new();
    let all = at_most(HANDLE * BYTES + grown(SLOT), || entities.alloc_many(N));
    let all = all.expect("memory");
    at_most(grown(4), || {
        for one in &all {
            entities.free(*one).expect("memory");
        }
    });
    exactly(0, || {
        for _ in &all {
            entities.alloc().expect("a handle");
        }
    });

    // What is requested is listed, and what is born gets its slots at once.
    let mut entities = Entities::new();
    exactly(HANDLE * BYTES, || {
        entities.request_many(N).expect("handles")
    });
    exactly((HANDLE + SLOT) * BYTES, || flushed(&mut entities));

    let mut into = Vec::new();
    for before in 0..2 {
        let mut entities = Entities::new();
        entities.request_many(N).expect("handles");
        into.clear();
        into.resize(before, handle(9, 9));
        into.reserve_exact(BYTES);
        let flush = || entities.flush(&mut into).expect("memory");
        exactly(SLOT * BYTES, flush);
        assert_eq!(into.len(), before + BYTES);
    }

    let mut entities = Entities::new();
    entities.request_many(N).expect("handles");
    let flush = || entities.flush_with(|_| ()).expect("memory");
    exactly((HANDLE + SLOT) * BYTES, flush);
}

/// A reserver, and what is in it once more: for its way back, or returned.
#[test]
fn phases() {
    let mut entities = Entities::new();
    for callers in [1, 10, 1_000] {
        let most = (APART + 64) * callers + 512;
        let (shared, mut reservers) = at_most(most, || entities.share(callers).expect("memory"));
        let one = &mut reservers[callers - 1];
        exactly(0, || one.reserve().expect("a handle"));
        exactly(HANDLE * BYTES, || one.reserve_many(N).expect("handles"));
        let mut list = Vec::with_capacity(BYTES);
        exactly(0, || one.reserve_into(&mut list, N).expect("handles"));
        entities = exactly(0, || shared.close(reservers).expect("closed"));
        flushed(&mut entities);
    }

    let (shared, mut reservers) = entities.share(10).expect("memory");
    reservers.pop();
    let missing = exactly(0, || shared.close(reservers).expect_err("one is missing"));
    let (shared, reservers) = missing.into_parts().0;
    exactly(0, || shared.close_lost(reservers).expect("lost"));
}

#[test]
fn worlds() {
    let mut world = World::new();
    for count in [1, 10, 1_000] {
        // The reservers, what is in them once more, and the two lists into which a close takes it
        // apart, one of which a sync point reads.
        let most = (APART + 64 + 32 + 32) * count + 1_024;
        let (open, systems) = at_most(most, || world.open(count).expect("memory"));
        // The opening has made room for the list that a sync point reads.
        let (closed, queues) = exactly(0, || open.close(systems).expect("closed"));
        world = closed;
        exactly(0, || world.apply(queues).expect("memory"));
    }

    let (open, mut systems) = World::new().open(1).expect("memory");
    // The list, and the command in the queue.
    let spawn = || systems[0].spawn_many(N, &[(HP, 1)]).expect("handles");
    at_most(2 * HANDLE * BYTES + 64, spawn);
    let (mut world, queues) = open.close(systems).expect("closed");
    // Of each entity: a place in the report, its slot, its handle with its birth, a pair of the
    // index, whose room is twice what it needs, and a component with its place.
    let entity = HANDLE + SLOT + 24 + 2 * 12 + 16 + 4;
    at_most(2 * entity * BYTES, || world.apply(queues).expect("memory"));
    // The list, and what is sorted: a birth with its place, and the order.
    let all = at_most((HANDLE + 24 + 12) * BYTES, || world.by_birth());
    assert_eq!(all.expect("memory").len(), BYTES);
}

#[test]
fn storages() {
    let mut storage = Storage::new();
    at_most(grown(24 + 2 * 12), || {
        for index in 0..N {
            storage.born(handle(index, 1), BIRTH).expect("memory");
        }
    });
    at_most(grown(16 + 4) + 1_024, || {
        for index in 0..N {
            storage
                .insert(handle(index, 1), &[(HP, 1)])
                .expect("memory");
        }
    });
    exactly(0, || {
        for index in 0..N {
            storage.remove(handle(index, 1), HP).expect("there");
            storage.despawn(handle(index, 1)).expect("there");
        }
    });
}

#[test]
fn traces() {
    let all: Vec<Handle> = (0..N).map(|index| handle(index, 1)).collect();
    let mut checker = Checker::new(Limits::GREATEST);
    let run = vec![Reservation::new(0, N, all.clone())];
    // What the allocator answers, which is compared with what was told.
    at_most((2 * HANDLE) * BYTES + grown(HANDLE), || {
        checker.run(run).expect("it agrees");
    });
    at_most((2 * HANDLE + SLOT) * BYTES + grown(HANDLE), || {
        checker.flush(&all[..]).expect("it agrees");
    });

    let mut log = Log::new(0);
    at_most(grown(40), || {
        for left in 0..N {
            log.push(1, ReserveReply::SpaceLeft(left)).expect("memory");
        }
    });
    let recorder = || Recorder::new(Limits::GREATEST, 10).expect("memory");
    exactly(10 * APART, recorder);
}

#[cfg(feature = "std")]
mod threads {
    use super::*;
    use forgeni::{run_frame, OutOfMemory, Reservers, StdThreads, SystemCommands, View};

    /// Of each system: what guards it, its place, its queue with its error, and a list that grows
    /// by each.
    #[test]
    fn frames() {
        let system = |_: &View<'_>, _: &mut SystemCommands<'_>| Ok::<(), OutOfMemory>(());
        for count in [1 << 8, 1 << 11] {
            let (mut world, systems) = (World::new(), vec![system; count]);
            let most = (24 + 2 * (32 + 8) + 40) * count + 1_024;
            let (_, kept) = held(|| {
                at_most(most, || {
                    run_frame(&StdThreads, &mut world, &systems, 1).expect("memory")
                })
            });
            assert_eq!(kept, 0);
        }
    }

    /// Each has its flag, and lies apart from the others.
    #[test]
    fn pools() {
        let (shared, reservers) = Entities::new().share(10).expect("shared");
        let pool = exactly(2 * APART * 10, || {
            Reservers::new(reservers).expect("memory")
        });
        exactly(0, || pool.with(|one| one.reserve().expect("a handle")));
        let reservers = pool.into_inner();
        shared.close(reservers).expect("closed");
    }
}

/// How many entries a log has: half of them are spawns.
const ENTRIES: u32 = 80_000;

fn fills(out: &mut LogCommands<'_, u32>) -> Result<(), ReserveError> {
    for number in 0..ENTRIES / 2 {
        out.spawn()?;
        out.push(number)?;
    }
    Ok(())
}

/// An allocator whose slots for three frames are made.
fn with_slots() -> Entities {
    let mut entities = Entities::new();
    let all = entities.alloc_many(3 * ENTRIES).expect("memory");
    for one in all {
        entities.free(one).expect("it is alive");
    }
    entities
}

#[test]
fn a_log_that_is_filled_again_takes_no_memory() {
    let mut entities = with_slots();
    let (mut born, mut logs) = (Vec::with_capacity(ENTRIES as usize), Vec::new());
    logs.extend([log::Log::new(), log::Log::new()]);
    for frame in 0..3 {
        let (phase, mut reservers) = entities.share(2).expect("memory");
        let ((), filled) = asked(|| {
            for (mine, log) in reservers.iter_mut().zip(&mut logs) {
                mine.fill(log, &fills).expect("handles");
            }
        });
        entities = phase.close(reservers).expect("all are here");
        born.clear();
        let (commands, synced) = asked(|| {
            entities.flush(&mut born).expect("it has room");
            let entries = logs.iter().flat_map(log::Log::entries);
            entries.filter(|it| matches!(it, Entry::Command(_))).count()
        });
        assert_eq!(commands, ENTRIES as usize);
        assert_eq!((filled == 0, synced), (frame > 0, 0));
    }
    assert_eq!(entities.len(), 3 * ENTRIES);
}
