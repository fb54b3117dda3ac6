//! How far an allocator and a world go: their limits, the defaults, and the quotas of a phase.

use crate::common::{flushed, handle, small};
use forgeni::{
    AllocError, ComponentId, Entities, Fault, FaultKind, Freed, Handle, HandleMap, Limits, Refused,
    ReserveError, Storage, World,
};
#[cfg(target_pointer_width = "32")]
use forgeni::{InsertError, OutOfMemory, SparseMap};

fn limits(slots: u32, generations: u32) -> Limits {
    Limits::new(slots, generations).expect("limits")
}

/// What each of these allocators does with its first slot.
#[test]
fn each_way_to_make_an_allocator() {
    let greatest = || vec![Entities::new(), Entities::default()];
    for mut entities in greatest() {
        assert_eq!(entities.room(), u32::MAX);
        assert_eq!(entities.alloc(), Ok(handle(0, 1)));
        let next = Some(handle(0, 2));
        assert_eq!(entities.free(handle(0, 1)), Ok(Freed { next }));
    }
    for slots in [1, 2, u32::MAX] {
        let limits = limits(slots, 1);
        let mut entities = Entities::with_limits(limits);
        assert_eq!(entities.room(), slots);
        assert_eq!(entities.alloc(), Ok(handle(0, 1)));
        assert_eq!(entities.free(handle(0, 1)), Ok(Freed { next: None }));
        assert_eq!((entities.retired(), entities.room()), (1, slots - 1));
    }
}

/// A phase of this world that requests so many entities, and then so many more. What is left for
/// the second.
fn left_of(world: World, first: u32, second: u32) -> Result<usize, ReserveError> {
    let (_open, mut systems) = world.open(1).expect("opened");
    systems[0].spawn_many(first, &[]).expect("handles");
    systems[0].spawn_many(second, &[]).map(|given| given.len())
}

#[test]
fn each_way_to_make_a_world() {
    for world in [World::new(), World::default()] {
        assert_eq!(left_of(world, 1, 200_000), Ok(200_000));
    }
    let few = limits(3, 1);
    let made = World::with_limits(few);
    for mut world in [made, World::with_limits(few)] {
        let one = world.spawn(&[]).expect("a handle");
        assert_eq!(world.despawn(one), Ok(Freed { next: None }));
        let refused = ReserveError::Space { wanted: 2, left: 1 };
        assert_eq!(left_of(world, 1, 2), Err(refused));
    }
}

/// The default world gives a slot as often as its generations say.
#[test]
fn generations_of_a_default_world() {
    let mut world = World::default();
    for generation in 1..=70_000 {
        let one = world.spawn(&[]).expect("a handle");
        assert_eq!(one, handle(0, generation));
        world.despawn(one).expect("alive");
    }
    assert_eq!(world.retired(), 0);
}

#[test]
fn defaults() {
    assert_eq!(Limits::GREATEST, limits(u32::MAX, (1 << 31) - 1));
    assert_eq!(Limits::default(), Limits::GREATEST);
    assert!(Storage::default().is_empty());
    assert!(Storage::new().is_empty());
    assert_eq!(HandleMap::<u8>::default().limit(), u32::MAX);
}

/// With one of anything it isn't empty.
#[test]
fn one_is_not_none() {
    let one = handle(0, 1);
    let mut entities = Entities::new();
    assert!(entities.is_empty());
    entities.alloc().expect("a handle");
    assert!(!entities.is_empty() && entities.len() == 1);

    let mut world = World::new();
    assert!(world.is_empty());
    world.spawn(&[]).expect("a handle");
    assert!(!world.is_empty() && world.len() == 1);

    let birth = world.birth(one).expect("alive");
    let mut storage = Storage::new();
    storage.born(one, birth).expect("memory");
    assert!(!storage.is_empty() && storage.len() == 1);

    let map: HandleMap<u8> = [(one, 1)].into_iter().collect();
    assert!(!map.is_empty() && map.len() == 1);
}

/// What is reserved has no row, before it lives and after.
#[test]
fn a_row_of_a_reserved_handle() {
    let mut entities = small(3, 2);
    let one = entities.request().expect("a handle");
    assert_eq!(entities.try_set_row(one, 5), Err(forgeni::Absent));
    assert_eq!(entities.row(one), None);
    flushed(&mut entities);
    assert_eq!(entities.row(one), None);
    assert_eq!(entities.try_set_row(one, 6), Ok(()));
    assert_eq!(entities.row(one), Some(6));

    // Nor has a reserved handle of an old slot a row yet.
    let next = entities.free(one).expect("alive").next;
    assert_eq!(entities.request().ok(), next);
    let again = next.expect("a generation");
    assert_eq!(entities.try_set_row(again, 7), Err(forgeni::Absent));
    flushed(&mut entities);
    assert_eq!((entities.row(again), entities.len()), (None, 1));
}

/// 2^26 handles at a time, of a pool of one.
const WANTED: u32 = 1 << 26;

/// How often that many are requested before the quota of 2^40 is used up.
const TIMES: u32 = 1 << 14;

#[test]
fn the_end_of_a_quota() {
    let (shared, mut reservers) = small(1, 1).share(2).expect("shared");
    let only = &mut reservers[0];
    for times in 0..TIMES {
        assert_eq!(
            only.quota_left(),
            u64::from(TIMES - times) * u64::from(WANTED)
        );
        let left = u32::from(times == 0);
        let refused = ReserveError::Space {
            wanted: WANTED,
            left,
        };
        assert_eq!(only.reserve_many(WANTED), Err(refused));
    }
    let none = ReserveError::Quota { left: 0 };
    assert_eq!(only.reserve_many(WANTED), Err(none));
    assert_eq!(only.reserve(), Err(Refused::Quota { left: 0 }));
    assert_eq!(only.reserve_many(0), Ok(vec![]));
    // Each reserver has a quota of its own: 256 times 2^32.
    let other = &mut reservers[1];
    let space = |wanted| Err(ReserveError::Space { wanted, left: 0 });
    for _ in 0..256 {
        assert_eq!(other.reserve_many(u32::MAX), space(u32::MAX));
    }
    let few = ReserveError::Quota { left: 256 };
    assert_eq!(
        (other.reserve_many(257), other.quota_left()),
        (Err(few), 256)
    );
    assert_eq!(
        (other.reserve_many(256), other.quota_left()),
        (space(256), 0)
    );
    assert_eq!(other.reserve_many(1), Err(none));
    let entities = shared.close(reservers).expect("closed");
    assert_eq!(entities.reserved(), 0);
}

/// The commands of a system have the same quota. Each spawn above it is a fault.
#[test]
fn commands_at_the_end_of_a_quota() {
    const ALL: ComponentId = ComponentId(0);
    let (open, mut systems) = World::with_limits(limits(1, 1)).open(1).expect("opened");
    let only = &mut systems[0];
    for times in 0..TIMES {
        let left = u32::from(times == 0);
        let refused = ReserveError::Space {
            wanted: WANTED,
            left,
        };
        assert_eq!(only.spawn_many(WANTED, &[(ALL, 1)]), Err(refused));
    }
    let refused = ReserveError::Quota { left: 0 };
    assert_eq!(only.spawn_many(WANTED, &[]), Err(refused));
    assert_eq!(only.spawn(&[]), Err(refused));
    let (mut world, queues) = open.close(systems).expect("closed");
    let report = world.apply(queues).expect("memory");
    assert_eq!(report.faults.len(), TIMES as usize + 2);
    let last = Fault {
        system: 0,
        command: TIMES as usize + 1,
        kind: FaultKind::Quota { left: 0 },
    };
    assert_eq!((report.faults.last(), report.born), (Some(&last), vec![]));
}

/// The placeholder is of no allocator, and no call takes it for one of its own.
/// Both greatest limits together have a generation less, and no others do. No run of public calls
/// gets that far.
#[test]
fn one_generation_less_for_the_placeholder() {
    const SLOTS: u32 = u32::MAX;
    const GENERATIONS: u32 = (1 << 31) - 1;
    for (slots, generations, kept) in [
        (SLOTS, GENERATIONS, GENERATIONS - 1),
        (SLOTS, GENERATIONS - 1, GENERATIONS - 1),
        (SLOTS, 1, 1),
        (SLOTS - 1, GENERATIONS, GENERATIONS),
        (1, GENERATIONS, GENERATIONS),
        (1, 1, 1),
    ] {
        let limits = limits(slots, generations);
        let keeping = limits.keeping_placeholder();
        assert_eq!((keeping.slots(), keeping.generations()), (slots, kept));
        assert_eq!((limits.slots(), limits.generations()), (slots, generations));
    }
    for (slots, generations) in [(0, 1), (1, 0), (1, GENERATIONS + 1), (SLOTS, u32::MAX)] {
        assert_eq!(Limits::new(slots, generations), None);
    }
}

#[test]
fn the_placeholder_is_nobody() {
    let mut entities = Entities::new();
    entities.alloc().expect("a handle");
    let nobody = Handle::PLACEHOLDER;
    assert!(!entities.contains(nobody) && entities.row(nobody).is_none());
    assert_eq!(entities.free(nobody), Err(forgeni::FreeError::NotAlive));
    assert_eq!(
        small(1, 1).alloc_many(2).expect_err("one"),
        AllocError::Space
    );
}

/// Where a `usize` has 32 bits, no room is left for so many slots, and no sum wraps.
#[test]
#[cfg(target_pointer_width = "32")]
fn slots_for_which_there_is_no_memory() {
    let (mut all, mut few) = (HandleMap::new(), SparseMap::new());
    for index in [
        1 << 31,
        3_817_748_707,
        3_817_748_708,
        4_000_000_000,
        u32::MAX - 1,
    ] {
        let refused = Err(InsertError::Memory);
        let one = handle(index, 1);
        assert_eq!(all.insert(one, 7_u64).map_err(InsertError::from), refused);
        assert_eq!(few.insert(one, 7_u64).map_err(InsertError::from), refused);
    }
    assert_eq!(
        (all.reserve(usize::MAX), all.slots(), few.slots()),
        (Err(OutOfMemory), 0, 0)
    );
}
