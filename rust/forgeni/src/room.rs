//! Room for very many things at once, which only tests ask for, not the package's own calls. No
//! allocation fails except where a test says so.

use crate::allocator::{Entities, Limits};
use crate::components::Storage;
use crate::handles::{Birth, Handle};
use crate::reserving::share;

/// 2^31 handles without a list: they are looked up one by one, and none of them takes memory.
#[test]
fn one_reservation_of_2_to_the_31() {
    let count: u32 = 1 << 31;
    let limits = Limits::new(count, 1).expect("limits");
    let Ok((shared, mut reservers)) = share(Entities::with_limits(limits), 1) else {
        panic!("memory is ample");
    };
    let reserver = &mut reservers[0];
    let Ok(mut given) = shared.reserve_many(reserver, count) else {
        panic!("the pool is ample");
    };
    assert_eq!(given.len(), count as usize);
    let first = given.next().expect("a handle");
    assert_eq!((first.index(), first.generation()), (0, 1));
    assert!(shared.reserve(reserver).is_err());
}

/// Room for 2^24 entities, which is given back.
#[test]
fn a_storage_with_room_for_2_to_the_24() {
    let mut storage = Storage::new();
    assert!(storage.reserve(1 << 24).is_ok(), "memory is ample");
    assert!(storage.spare() >= 1 << 24);
}

/// Room for 2^31 entities takes more than 100 GB, so it may be refused. Then there is as much room
/// as before, or more, and fewer entities fit.
#[test]
fn a_storage_with_room_for_2_to_the_31() {
    let mut storage = Storage::new();
    let ok = storage.reserve(1 << 31).is_ok();
    assert_eq!(storage.spare() >= 1 << 31, ok);
    assert!(storage.is_empty());
    assert!(storage.reserve(70_001).is_ok(), "memory is ample");
    let birth = Birth {
        frame: 0,
        system: 0,
        ordinal: 0,
    };
    let one = Handle::new(0, 1).expect("a handle");
    assert!(storage.born(one, birth).is_ok());
}
