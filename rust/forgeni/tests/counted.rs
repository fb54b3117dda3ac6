//! Births in a storage and lists of handles, for counts of instructions and of calls.
//! `examples/counted_runs.sh` runs each of these tests at several sizes under callgrind, and
//! compares. The variable `FORGENI_ENTITIES` says how many entities there are.

use forgeni::{Birth, Entities, Handle, Storage, World};

const BIRTH: Birth = Birth {
    frame: 0,
    system: 0,
    ordinal: 0,
};

fn entities() -> u32 {
    let said = std::env::var("FORGENI_ENTITIES").ok();
    said.map_or(64, |count| count.parse().expect("a number"))
}

fn handle(index: u32, generation: u32) -> Handle {
    Handle::new(index, generation).expect("a handle")
}

/// The next occupant of each slot is born, in a scattered order. Here the instructions are counted.
#[inline(never)]
fn next_occupants(storage: &mut Storage, entities: u32, generation: u32) {
    for number in 0..entities {
        // There is a power of two of them, so each slot has its turn.
        let slot = number.wrapping_mul(7_919) % entities;
        let born = storage.born(handle(slot, generation), BIRTH);
        born.expect("memory is ample");
    }
}

/// 65,536 births, each in the slot of an entity that has left.
#[test]
fn births_in_the_slots_of_others() {
    let entities = entities();
    let mut storage = Storage::new();
    for slot in 0..entities {
        storage
            .born(handle(slot, 1), BIRTH)
            .expect("memory is ample");
    }
    let rounds = 65_536 / entities;
    for generation in 1..=rounds {
        for slot in 0..entities {
            storage.despawn(handle(slot, generation)).expect("there");
        }
        next_occupants(&mut storage, entities, generation + 1);
    }
    assert_eq!(storage.len(), entities as usize);
    assert!((0..entities).all(|slot| storage.contains(handle(slot, rounds + 1))));
}

/// Twenty times as many births as there are entities, each in a slot of its own. The oldest leaves
/// before, and its pair stays in the index until it is swept out.
#[test]
fn births_that_fill_the_index() {
    let entities = entities();
    let mut storage = Storage::new();
    for slot in 0..entities {
        storage
            .born(handle(slot, 1), BIRTH)
            .expect("memory is ample");
    }
    let last = 21 * entities;
    for slot in entities..last {
        storage.despawn(handle(slot - entities, 1)).expect("there");
        storage
            .born(handle(slot, 1), BIRTH)
            .expect("memory is ample");
    }
    assert_eq!(storage.len(), entities as usize);
    assert!((last - entities..last).all(|slot| storage.contains(handle(slot, 1))));
}

/// One handle is requested and brought to life at a time, behind all that the list has. Here the
/// instructions are counted.
#[inline(never)]
fn one_by_one(entities: &mut Entities, born: &mut Vec<Handle>, count: u32) {
    for _ in 0..count {
        entities.request().expect("a handle");
        entities.flush(born).expect("memory is ample");
    }
}

/// 4,096 flushes into a list that has so many handles before.
#[test]
fn flushes_into_a_long_list() {
    let mut entities = Entities::new();
    let mut born = entities.alloc_many(self::entities()).expect("memory");
    let before = born.len();
    born.reserve(4_096);
    one_by_one(&mut entities, &mut born, 4_096);
    assert_eq!(born.len(), before + 4_096);
    assert!(entities.iter().eq(born));
}

/// Each list of a phase and its sync point has so many handles. Here the instructions are counted.
#[inline(never)]
fn lists_of_a_phase(world: World, count: u32) -> World {
    let (open, mut systems) = world.open(1).expect("memory");
    let given = systems[0].spawn_many(count, &[]).expect("memory is ample");
    let (mut world, queues) = open.close(systems).expect("closed");
    let report = world.apply(queues).expect("memory is ample");
    assert_eq!(report.born, given);
    world
}

/// What is listed once costs as much a handle in a long list as in a short one.
#[test]
fn lists_that_a_call_makes() {
    let count = entities();
    assert_eq!(lists_of_a_phase(World::new(), count).len(), count as usize);
}
