//! What the tests of Bevy 0.15 ask of its own allocator (its module `entity`, and the tests of its
//! worlds that reserve), asked of this one. Above each test stands which behaviour of Bevy it
//! shows, and where this allocator is meant to differ.

use crate::common::{flushed, handle, small};
use forgeni::{ComponentId, Entities, Freed, Handle, Limits, State, World};
use std::collections::hash_map::RandomState;
use std::collections::HashSet;
use std::hash::{BuildHasher, BuildHasherDefault, Hasher};
use std::mem::size_of;

/// Bevy: an entity has a niche, so that an option of it takes no more.
#[test]
fn an_option_takes_no_more() {
    assert_eq!(size_of::<Option<Handle>>(), size_of::<Handle>());
    assert_eq!(size_of::<Handle>(), size_of::<u64>());
}

/// Bevy: an entity's bits are its two numbers, the generation in the upper half, and come back.
#[test]
fn bits() {
    let one = handle(0xdead_beef, 0x5aad_f00d);
    assert_eq!(one.to_bits(), 0x5aad_f00d_dead_beef);
    assert_eq!(Handle::from_bits(one.to_bits()), Some(one));
}

/// Bevy: bits that are no entity's are told apart, and don't panic where one asks first. Here the
/// one form asks.
#[test]
fn bits_of_nobody() {
    assert_eq!(Handle::from_bits(0), None);
    assert_eq!(Handle::from_bits(42), None);
}

/// Bevy: entities are made in constants, and their numbers are read there.
#[test]
fn constants() {
    const RAW: Handle = Handle::new(42, 1).unwrap();
    const BITS: Handle = Handle::from_bits(0x0000_00ff_0000_00cc).unwrap();
    const INDEX: u32 = BITS.index();
    const GENERATION: u32 = BITS.generation();
    assert_eq!((RAW.index(), RAW.generation()), (42, 1));
    assert_eq!((INDEX, GENERATION), (0xcc, 0xff));
}

/// Bevy: the placeholder is an entity as any, and it is not alive. Bevy's has an index that no
/// entity has; here it is the last handle of the last slot.
#[test]
fn the_placeholder() {
    const NONE: Handle = Handle::PLACEHOLDER;
    assert_eq!(Handle::from_bits(NONE.to_bits()), Some(NONE));
    assert!(!Entities::new().contains(NONE));
}

/// Bevy: it is printed as index, `v` and generation.
#[test]
fn texts() {
    assert_eq!(handle(42, 1).to_string(), "42v1");
    assert_eq!(format!("{:?}", handle(42, 1)), "42v1");
    assert_eq!(
        format!("{:8}|{:>8}", handle(42, 1), handle(7, 3)),
        "42v1    |     7v3"
    );
}

/// Bevy: two are one if both numbers are, and the order is by bits. Here that is `by_bits`, and the
/// order of `Ord` is by index.
#[test]
fn comparisons() {
    assert_eq!(handle(123, 456), handle(123, 456));
    assert_ne!(handle(123, 789), handle(123, 456));
    assert_ne!(handle(123, 456), handle(456, 456));
    assert!(handle(9, 1).by_bits(&handle(1, 9)).is_lt());
    assert!(handle(9, 1) > handle(1, 9));
    assert!(handle(1, 9).by_bits(&handle(9, 9)).is_lt());
    assert!(handle(1, 1).by_bits(&handle(1, 1)).is_eq());
}

/// Bevy's hash of an entity is made of one word, by a multiplication that keeps neighbours together
/// and moves what is low to the upper seven bits.
#[derive(Default)]
struct Fast(u64);

impl Hasher for Fast {
    fn write(&mut self, _bytes: &[u8]) {
        unreachable!("a handle is one word");
    }

    fn write_u64(&mut self, word: u64) {
        const UPPER: u64 = 0x9e37_79b9_7f4a_7c15 << 32 | 1;
        self.0 = word.wrapping_mul(UPPER);
    }

    fn finish(&self) -> u64 {
        self.0
    }
}

/// Bevy: such a hasher is given one word of an entity, and its lower half is the index.
#[test]
fn a_hasher_for_handles() {
    let hash = |one| BuildHasherDefault::<Fast>::default().hash_one(one);
    let first = hash(handle(7, 3));
    for distance in 1..100 {
        let next = hash(handle(7 + distance, 3));
        assert_eq!(next.wrapping_sub(first) & 0xffff_ffff, u64::from(distance));
    }
    let upper: HashSet<u64> = (0..32)
        .map(|bit| hash(handle(1 << bit & 0x7fff_ffff, 1)) >> 57)
        .collect();
    assert!(upper.len() > 16, "{}", upper.len());
    // And the standard hasher does with them.
    let set: HashSet<Handle, RandomState> = (0..100).map(|index| handle(index, 1)).collect();
    assert_eq!(set.len(), 100);
}

/// Bevy: what is reserved counts after the flush.
#[test]
fn reserved_and_flushed() {
    let mut entities = Entities::new();
    entities.request().expect("a handle");
    assert_eq!(entities.len(), 0);
    flushed(&mut entities);
    assert_eq!(entities.len(), 1);
}

/// Bevy: a reserved entity is contained, and has no place until it is flushed and given one. A
/// freed one is not contained.
#[test]
fn reserved_is_contained() {
    let mut entities = Entities::new();
    let one = entities.request().expect("a handle");
    assert!(entities.contains(one) && entities.row(one).is_none());
    entities.flush_with(|_| ()).expect("memory");
    assert!(entities.contains(one) && entities.row(one).is_none());
    entities.try_set_row(one, 12).expect("alive");
    assert_eq!(entities.row(one), Some(12));
    entities.free(one).expect("alive");
    assert!(!entities.contains(one) && entities.row(one).is_none());
}

/// Bevy: many are reserved through a shared reference, each once, old slots before new ones.
#[test]
fn many_reserved_at_once() {
    let mut entities = Entities::new();
    let old = entities.alloc_many(10).expect("memory");
    for one in &old {
        entities.free(*one).expect("alive");
    }
    let told = entities.phase(1, |_, reservers| reservers[0].reserve_many(15));
    let told = told.expect("shared").expect("handles");
    let slots: Vec<u32> = told.iter().map(|one| one.index()).collect();
    assert_eq!(slots[10..], [10, 11, 12, 13, 14]);
    assert_eq!(slots[..10].iter().collect::<HashSet<_>>().len(), 10);
    assert!(told[..10].iter().all(|one| one.generation() == 2));
    assert!(told
        .iter()
        .all(|one| entities.state(*one) == State::Reserved));
    flushed(&mut entities);
    assert_eq!(entities.len(), 15);
}

/// Bevy: `free` of an entity makes its slot wait, and `alloc` gives it again at the next
/// generation. `free` of one that is gone returns nothing.
#[test]
fn freed_and_given_again() {
    let mut entities = Entities::new();
    let one = entities.alloc().expect("a handle");
    let freed = entities.free(one).expect("alive");
    assert!(entities.free(one).is_err());
    let next = entities.alloc().expect("a slot that waits");
    assert_eq!((next.index(), next.generation()), (one.index(), 2));
    assert_eq!(freed, Freed { next: Some(next) });
}

/// Bevy can pass over generations of a slot that waits, to keep them for others. Here nothing is
/// passed over: what a slot gives next is told as it is freed, and that it gives.
#[test]
fn the_next_generation_is_known() {
    let mut entities = Entities::new();
    let mut one = entities.alloc().expect("a handle");
    for _ in 0..10 {
        let freed = entities.free(one).expect("alive");
        one = entities.alloc().expect("a slot that waits");
        assert_eq!(freed.next, Some(one));
    }
    assert_eq!((one.index(), one.generation()), (0, 11));
}

/// Bevy: after the last generation of a slot the first one comes again, with a warning. Here the
/// slot is retired, so no handle is given twice.
#[test]
fn the_last_generation() {
    let mut entities = small(2, 2);
    let mut told = HashSet::new();
    while let Ok(one) = entities.alloc() {
        assert!(told.insert(one), "{one} is given twice");
        entities.free(one).expect("alive");
    }
    assert_eq!((told.len(), entities.retired()), (4, 2));
    assert_eq!(Handle::new(0, 1 << 31), None);
}

/// Bevy: with all indices given it panics. Here it says so.
#[test]
fn too_many_entities() {
    let mut entities = Entities::with_limits(Limits::new(3, 1).expect("limits"));
    assert_eq!(entities.alloc_many(3).expect("room").len(), 3);
    assert!(entities.alloc().is_err() && entities.request().is_err());
}

/// Bevy: an entity that was reserved is spawned by the flush, without components.
#[test]
fn reserve_and_spawn() {
    let (open, mut systems) = World::new().open(1).expect("opened");
    let one = systems[0].spawn(&[]).expect("a handle");
    let (mut world, _queues) = open.close(systems).expect("closed");
    assert!(!world.contains(one));
    world.flush().expect("memory");
    assert!(world.contains(one));
    assert_eq!(world.items(one).map(Vec::from_iter), Some(vec![]));
}

/// Bevy: a handle of one world is only a name in another one: of whoever has that slot and
/// generation there, or of nobody.
#[test]
fn handles_across_worlds() {
    let value = ComponentId(0);
    let (mut here, mut there) = (World::new(), World::new());
    let one = here.spawn(&[(value, 1)]).expect("memory");
    let other = there.spawn(&[(value, 2)]).expect("memory");
    let second = here.spawn(&[(value, 3)]).expect("memory");
    assert_eq!(one, other);
    assert_eq!(
        (here.get(other, value), there.get(one, value)),
        (Some(1), Some(2))
    );
    assert_eq!(
        (here.get(second, value), there.get(second, value)),
        (Some(3), None)
    );
}

/// Bevy: an entity that despawns in a flush of commands is gone for all that follow, and its slot
/// is used again.
#[test]
fn despawned_and_respawned() {
    let mut world = World::new();
    let one = world.spawn(&[]).expect("memory");
    assert!(world.despawn(one).is_ok() && world.despawn(one).is_err());
    let next = world.spawn(&[]).expect("memory");
    assert_eq!((next.index(), next.generation()), (one.index(), 2));
    assert!(!world.contains(one) && world.contains(next));
}
