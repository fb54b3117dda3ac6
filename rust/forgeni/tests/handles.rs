//! What a handle is to the rest of a program: its size, its texts, its orders and its hash.

use forgeni::{Entities, Handle, Limits, ParseHandleError, State, World};
use std::cmp::Ordering;
use std::collections::{BTreeSet, HashSet};
use std::hash::{Hash, Hasher};
use std::mem::{align_of, size_of};
use std::num::NonZeroU64;

fn handle(index: u32, generation: u32) -> Handle {
    Handle::new(index, generation).expect("a handle")
}

/// Handles at the ends of both ranges.
fn edges() -> Vec<Handle> {
    let indices = [0, 1, 9, 10, 0xffff, 1 << 31, u32::MAX - 1];
    let generations = [1, 2, 10, 0xffff, (1 << 31) - 1];
    let row = |index: &u32| generations.map(|generation| handle(*index, generation));
    indices.iter().flat_map(row).collect()
}

#[test]
fn it_is_one_word() {
    assert_eq!(
        (size_of::<Handle>(), align_of::<Handle>()),
        (8, align_of::<u64>())
    );
    assert_eq!(size_of::<Option<Handle>>(), 8);
    assert_eq!(size_of::<[Option<Handle>; 100]>(), 800);
}

#[test]
fn it_is_its_bits() {
    for one in edges() {
        let bits = (u64::from(one.generation()) << 32) + u64::from(one.index());
        let nonzero = NonZeroU64::new(bits).expect("a generation");
        assert_eq!((u64::from(one), NonZeroU64::from(one)), (bits, nonzero));
        assert_eq!((bits.try_into(), nonzero.try_into()), (Ok(one), Ok(one)));
    }
    let none = [0, u64::from(u32::MAX), (1 << 33) - 1, 1 << 63, u64::MAX];
    for bits in none {
        assert_eq!(Handle::try_from(bits), Err(ParseHandleError::Range));
        let nonzero = NonZeroU64::new(bits).map(Handle::try_from);
        assert!(nonzero.is_none_or(|it| it == Err(ParseHandleError::Range)));
    }
}

/// Handles can be constants, and patterns.
#[test]
fn constants() {
    const FIRST: Handle = Handle::new(0, 1).unwrap();
    const SAME: Option<Handle> = Handle::from_bits(1 << 32);
    const BITS: u64 = FIRST.to_bits();
    const NUMBERS: (u32, u32) = (FIRST.index(), FIRST.generation());
    static TABLE: [Handle; 3] = [FIRST; 3];
    assert_eq!((SAME, BITS, NUMBERS), (Some(FIRST), 1 << 32, (0, 1)));
    assert!(matches!(TABLE[2], FIRST));
    static ENTITIES: std::sync::Mutex<Entities> = std::sync::Mutex::new(Entities::new());
    let mut entities = ENTITIES.lock().expect("no panic");
    assert_eq!(entities.alloc(), Ok(FIRST));
}

#[test]
fn bits_go_and_come_back() {
    for one in edges() {
        assert_eq!(Handle::from_bits(one.to_bits()), Some(one));
        let bits = u64::from(one.generation()) << 32 | u64::from(one.index());
        assert_eq!(one.to_bits(), bits);
    }
    for bits in [0, 5, u64::MAX, 0xffff_ffff | 1 << 32, 1 << 63] {
        assert_eq!(Handle::from_bits(bits), None, "{bits:x}");
    }
}

#[test]
fn texts_go_and_come_back() {
    for one in edges() {
        let text = format!("{}v{}", one.index(), one.generation());
        assert_eq!(one.to_string(), text);
        assert_eq!(format!("{one:?}"), text);
        assert_eq!(text.parse(), Ok(one));
    }
    assert_eq!(format!("{:?}", Some(handle(42, 1))), "Some(42v1)");
}

#[test]
fn texts_that_are_none() {
    for text in [
        "", "v", "1", "1v", "v1", "01v1", "1v01", "+1v1", "1v-1", " 1v1", "1v1 ", "1V1", "1v1v1",
        "1w1", "é",
    ] {
        assert_eq!(text.parse::<Handle>(), Err(ParseHandleError::Shape));
    }
    for text in [
        "0v0",
        "4294967295v1",
        "0v2147483648",
        "99999999999999999999v1",
    ] {
        assert_eq!(text.parse::<Handle>(), Err(ParseHandleError::Range));
    }
}

/// Width, alignment, fill and precision are those of the text as a string.
#[test]
fn texts_are_padded() {
    for one in edges() {
        let text = one.to_string();
        assert_eq!(format!("{one:24}|"), format!("{text:24}|"));
        assert_eq!(format!("{one:>24}|"), format!("{text:>24}|"));
        assert_eq!(format!("{one:-^24}|"), format!("{text:-^24}|"));
        assert_eq!(format!("{one:*<9.2?}|"), format!("{text:*<9.2}|"));
        assert_eq!(format!("{one:2}"), text);
    }
}

#[test]
fn two_orders() {
    let mut all = edges();
    all.reverse();
    all.sort();
    assert!(all.is_sorted_by_key(|one| (one.index(), one.generation())));
    let first = [handle(0, 1), handle(0, 2), handle(0, 10)];
    assert_eq!(all[..3], first);
    all.sort_by(Handle::by_bits);
    assert!(all.is_sorted_by_key(|one| (one.generation(), one.index())));
    assert!(all.is_sorted_by_key(|one| one.to_bits()));
    assert_eq!(all[..3], [handle(0, 1), handle(1, 1), handle(9, 1)]);
    for one in &all {
        assert_eq!(one.by_bits(one), Ordering::Equal);
        assert_eq!(one.partial_cmp(one), Some(Ordering::Equal));
    }
    let sorted: BTreeSet<Handle> = all.iter().copied().collect();
    assert_eq!(sorted.len(), all.len());
}

/// Tells what it was given.
#[derive(Default)]
struct Told(Vec<u64>);

impl Hasher for Told {
    fn write(&mut self, bytes: &[u8]) {
        panic!("{bytes:?} in place of a word");
    }

    fn write_u64(&mut self, word: u64) {
        self.0.push(word);
    }

    fn finish(&self) -> u64 {
        self.0.iter().sum()
    }
}

#[test]
fn a_hash_is_one_word() {
    for one in edges() {
        let mut told = Told::default();
        one.hash(&mut told);
        assert_eq!(told.0, [one.to_bits()]);
    }
    let all: HashSet<Handle> = edges().into_iter().collect();
    assert!(edges().iter().all(|one| all.contains(one)));
}

/// No allocator and no world gives it, whatever their limits.
#[test]
fn the_placeholder() {
    let none = Handle::PLACEHOLDER;
    assert!(edges().iter().all(|one| *one <= none));
    assert_eq!(Handle::from_bits(none.to_bits()), Some(none));
    assert_eq!(none.to_string().parse(), Ok(none));
    for limits in [Limits::GREATEST, Limits::new(1, 1).expect("limits")] {
        let mut entities = Entities::with_limits(limits);
        entities.alloc().expect("a handle");
        assert_eq!(entities.state(none), State::Gone);
        assert!(!entities.contains(none) && !entities.is_alive(none));
        assert!(entities.free(none).is_err());
        let mut world = World::with_limits(limits);
        assert!(!world.contains(none) && world.despawn(none).is_err());
    }
    assert_eq!(Entities::new().room(), u32::MAX);
}
