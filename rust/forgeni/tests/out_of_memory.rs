//! Each allocation is refused in turn: the first one alone, the second one, and so on, and then all
//! from the first one on, from the second one on. Each call must return an error, leave the state
//! as its docs say, and do the same as with ample memory when it is made again.

mod common;
#[path = "out_of_memory/hidden.rs"]
mod hidden;
#[path = "common/refusing_allocator.rs"]
mod refusing;

use common::{handle, this_program};
use forgeni::trace::{Call, CheckError, Checker, FreeReply, Log, Reservation};
#[cfg(feature = "std")]
use forgeni::{run_to_sync_point, LogCommands, RunError, StdThreads};
use forgeni::{
    tables, AllocError, AnyMap, BeginError, Birth, Change, ComponentId, Entities, Entry, Fault,
    Follows, FreeError, GoOnError, Handle, HandleMap, History, ImageFault, InsertError, JoinMaps,
    Limits, OpenWorld, OutOfMemory, Phase, Queues, Report, ReserveError, Reserver, ShareError,
    SparseMap, State, Stop, Storage, StorageError, SyncError, SyncPoint, Tracked, World,
    WorldImageFault,
};
use refusing::{asked, held, most_held, refusing, Refusal};
use std::fmt::Debug;
use std::rc::Rc;

const HP: ComponentId = ComponentId(0);

const BIRTH: Birth = Birth {
    frame: 0,
    system: 0,
    ordinal: 0,
};

/// More components than lie in a bundle itself.
const MANY: [(ComponentId, i64); 6] = [
    (ComponentId(0), 10),
    (ComponentId(1), 11),
    (ComponentId(2), 12),
    (ComponentId(3), 13),
    (ComponentId(4), 14),
    (ComponentId(5), 15),
];

/// Tries with each refusal until nothing is refused any more. An attempt returns how often it was
/// refused.
fn in_turn(refusal: fn(usize) -> Refusal, mut attempt: impl FnMut(Refusal) -> usize) {
    for after in 0..10_000 {
        if attempt(refusal(after)) == 0 {
            assert!(after > 0, "it takes no memory");
            return;
        }
    }
    panic!("it is refused for good");
}

/// With one request refused, and with all from one on.
fn each_in_turn(mut attempt: impl FnMut(Refusal) -> usize) {
    in_turn(|after| Refusal::One { after }, &mut attempt);
    in_turn(|after| Refusal::All { after }, &mut attempt);
}

/// With room for no more block, for one, and so on. Rust's `Arc` can't be refused its memory, so
/// the package asks for as much before: that succeeds if there is room for the `Arc`.
fn each_block_in_turn(attempt: impl FnMut(Refusal) -> usize) {
    let above = |after: usize| Refusal::Above {
        blocks: after as isize,
    };
    in_turn(above, attempt);
}

/// Makes a call while allocations are refused. If it returns that error, makes it again without a
/// refusal. Returns what the call did in the end, and how many allocations were refused.
///
/// A call may do without memory that it didn't get, as a storage's index does.
fn insist<T, E: PartialEq + std::fmt::Debug>(
    refusal: Refusal,
    memory: E,
    mut call: impl FnMut() -> Result<T, E>,
) -> (T, usize) {
    let (done, refused) = refusing(refusal, &mut call);
    match done {
        Ok(done) => (done, refused),
        Err(error) => {
            assert_eq!(error, memory);
            assert!(refused > 0, "nothing was refused");
            match call() {
                Ok(done) => (done, refused),
                Err(error) => panic!("{error:?} with ample memory"),
            }
        }
    }
}

/// Two living entities, and a slot that waits.
fn three() -> Entities {
    let mut entities = Entities::new();
    for _ in 0..3 {
        entities.alloc().expect("memory");
    }
    entities.free(handle(1, 1)).expect("memory");
    entities
}

#[test]
fn alloc_and_free() {
    each_in_turn(|refusal| {
        let mut entities = Entities::new();
        let (one, refused) = insist(refusal, AllocError::Memory, || entities.alloc());
        assert_eq!(
            (one, entities.len(), entities.total()),
            (handle(0, 1), 1, 1)
        );
        refused
    });
    each_in_turn(|refusal| {
        let mut entities = Entities::new();
        let one = entities.alloc().expect("memory");
        let (freed, refused) = insist(refusal, FreeError::Memory, || entities.free(one));
        assert_eq!(freed.next, Some(handle(0, 2)));
        assert_eq!((entities.len(), entities.top()), (0, 1));
        refused
    });
}

#[test]
fn an_image_of_an_allocator() {
    each_in_turn(|refusal| {
        let entities = three();
        let mut image = vec![5];
        let (written, refused) = refusing(refusal, || entities.write_image(&mut image));
        written.unwrap_or_else(|OutOfMemory| {
            assert!(refused > 0 && image == [5]);
            entities.write_image(&mut image).expect("memory");
        });
        assert_eq!(image.len(), 1 + 40 + 12 * 3);
        refused
    });
    each_in_turn(|refusal| {
        let mut image = vec![];
        three().write_image(&mut image).expect("memory");
        let read = || Entities::read_image(&image);
        let (mut again, refused) = insist(refusal, ImageFault::Memory, read);
        assert_eq!((again.len(), again.total(), again.top()), (2, 3, 1));
        assert_eq!(again.alloc(), Ok(handle(1, 2)));
        refused
    });
}

#[test]
fn an_image_of_a_world() {
    each_in_turn(|refusal| {
        let (world, _) = small_world();
        let mut image = vec![5];
        let (written, refused) = refusing(refusal, || world.write_image(&mut image));
        written.unwrap_or_else(|OutOfMemory| {
            assert!(refused > 0 && image == [5]);
            world.write_image(&mut image).expect("memory");
        });
        let again = World::read_image(&image[1..]).expect("an image");
        assert_eq!(seen(&again), seen(&world));
        refused
    });
    each_in_turn(|refusal| {
        let (world, _) = small_world();
        let mut image = vec![];
        world.write_image(&mut image).expect("memory");
        let read = || World::read_image(&image);
        let (again, refused) = insist(refusal, WorldImageFault::Memory, read);
        assert_eq!(seen(&again), seen(&world));
        refused
    });
}

/// Reads bytes as the image of an allocator. Returns how much memory was asked for.
fn asked_for(image: &[u8]) -> usize {
    asked(|| drop(Entities::read_image(image))).1
}

/// Each byte of an image changed in each bit, each byte cut off, and each word turned into a great
/// number: no call asks for more than the slots have, and none for anything if there are no slots.
#[test]
fn no_image_of_an_allocator_takes_more_than_its_bytes() {
    let mut image = vec![];
    requested(30).write_image(&mut image).expect("memory");
    assert_eq!(asked_for(&image), 30 * 8 + 10 * 4);

    let within = |image: &[u8]| {
        let most = image.len().saturating_sub(40);
        assert!(asked_for(image) <= most, "{image:?}");
    };
    for at in 0..image.len() {
        within(&image[..at]);
        for bit in 0..8 {
            let mut changed = image.clone();
            changed[at] ^= 1 << bit;
            within(&changed);
        }
    }
    for (at, _) in image.iter().enumerate().step_by(4) {
        for word in [0, 31, 1 << 30, 1 << 31, u32::MAX] {
            let mut changed = image.clone();
            changed[at..at + 4].copy_from_slice(&word.to_le_bytes());
            within(&changed);
        }
    }

    // As many slots as there may be, in forty bytes.
    let most = [u32::MAX, (1 << 31) - 1, u32::MAX, 3, 0, 0, 0].map(u32::to_le_bytes);
    let header = [&image[..12], most.as_flattened()].concat();
    assert_eq!((header.len(), asked_for(&header)), (40, 0));
}

/// In the forty bytes of an allocator with no slots: how many handles are reserved, and were
/// requested.
const RESERVED: usize = 28;
const REQUESTED: usize = 32;

/// Where the allocator's part begins in the image of a world.
const PART: usize = 28;

/// Forges an allocator that has made no slot, and in which so many handles are reserved.
fn forge(image: &mut [u8], reserved: u32) {
    image[RESERVED..REQUESTED].copy_from_slice(&reserved.to_le_bytes());
    image[REQUESTED..REQUESTED + 8].copy_from_slice(&u64::from(reserved).to_le_bytes());
}

/// How many slots the readers of forged images allow.
const ALLOWED: u32 = 1000;

/// How many handles forged images say are reserved, and whether that is allowed.
const FORGED: [(u32, bool); 8] = [
    (0, true),
    (1, true),
    (ALLOWED - 1, true),
    (ALLOWED, true),
    (ALLOWED + 1, false),
    (1 << 20, false),
    (u32::MAX - 1, false),
    (u32::MAX, false),
];

/// A forged image makes neither its reading nor the next flush take more memory than the reader
/// allows.
#[test]
fn a_forged_image_of_an_allocator_takes_what_its_reader_allows() {
    let mut image = vec![];
    Entities::new().write_image(&mut image).expect("memory");
    for (reserved, is_allowed) in FORGED {
        forge(&mut image, reserved);
        assert!(Entities::read_image(&image).is_ok());

        let (read, taken) = asked(|| Entities::read_image_within(&image, ALLOWED));
        assert_eq!(taken, 0);
        let Ok(mut entities) = read else {
            let refused = ImageFault::Bound { slots: reserved };
            assert_eq!((read.err(), is_allowed), (Some(refused), false));
            continue;
        };
        assert!(is_allowed);
        let mut born = vec![];
        let (flushed, taken) = asked(|| entities.flush(&mut born));
        assert_eq!((flushed, entities.total()), (Ok(()), reserved));
        assert!(taken <= 16 * ALLOWED as usize, "{taken}");
    }
}

/// Slots that were made count, and handles of slots that wait don't make any.
#[test]
fn a_forged_image_of_forty_slots_takes_what_its_reader_allows() {
    let mut image = vec![];
    let (made, waiting) = (40, 14);
    requested(made).write_image(&mut image).expect("memory");
    for reserved in (0..200).chain([1 << 20, u32::MAX - made + waiting]) {
        forge(&mut image, reserved);
        assert!(Entities::read_image(&image).is_ok());

        let slots = made + reserved.saturating_sub(waiting);
        match Entities::read_image_within(&image, 100) {
            Ok(mut entities) => {
                let mut born = vec![];
                let (flushed, taken) = asked(|| entities.flush(&mut born));
                assert_eq!((flushed, entities.total()), (Ok(()), slots));
                assert!(slots <= 100 && taken <= 16 * 100, "{reserved}: {taken}");
            }
            Err(fault) => {
                assert_eq!(fault, ImageFault::Bound { slots });
                assert!(slots > 100, "{reserved}");
            }
        }
    }
}

/// The same of a world, whose entities take more.
#[test]
fn a_forged_image_of_a_world_takes_what_its_reader_allows() {
    const ENTITY: isize = 128;
    let mut image = vec![];
    World::new().write_image(&mut image).expect("memory");
    for (reserved, is_allowed) in FORGED {
        forge(&mut image[PART..], reserved);
        assert!(World::read_image(&image).is_ok());

        let (read, taken) = most_held(|| World::read_image_within(&image, ALLOWED));
        assert_eq!(taken, 0);
        let Ok(mut world) = read else {
            let refused = WorldImageFault::Bound { slots: reserved };
            assert_eq!((read.err(), is_allowed), (Some(refused), false));
            continue;
        };
        assert!(is_allowed);
        let (flushed, taken) = most_held(|| world.flush());
        assert_eq!((flushed, world.len()), (Ok(()), reserved as usize));
        assert!(taken <= ENTITY * ALLOWED as isize, "{taken}");
    }
}

/// A world's lists have room for each slot that may get an entity, and those of a component for
/// each place up to the last that has a value. So the most costly images have many components,
/// which the last entities alone have.
#[test]
fn no_image_of_a_world_takes_more_than_eight_times_its_bytes() {
    // What the lists of 256 components take beyond that, however short they are.
    const COMPONENTS: isize = 16 << 10;
    let all: Vec<_> = (0..=255).map(|id| (ComponentId(id), 1)).collect();
    for count in [1, 100, 10_000] {
        for (waiting, given, items) in [
            (0, 0, &all[..0]),
            (count, 0, &all[..0]),
            (0, 1, &all[255..]),
            (0, 1, &all[..]),
            (0, 2, &all[..]),
            (0, count, &all[..1]),
            (0, count / 2, &all[..8]),
        ] {
            let image = image_of(count, waiting, given, items);
            // With a fault at the very end too.
            for bytes in [&image[..], &image[..image.len() - 1]] {
                let (_, most) = most_held(|| drop(World::read_image(bytes)));
                let bound = 8 * bytes.len() as isize + COMPONENTS;
                let wide = items.len();
                assert!(most <= bound, "{most}: {count} {waiting} {given} {wide}");
            }
        }
    }
}

/// The image of a world of so many slots, the first of which wait. The last entities, so many, have
/// these components.
fn image_of(count: usize, waiting: usize, given: usize, items: &[(ComponentId, i64)]) -> Vec<u8> {
    let mut world = World::new();
    for left in (1..=count).rev() {
        let items = if left <= given { items } else { &[] };
        world.spawn(items).expect("memory");
    }
    for one in world.by_birth().expect("memory").iter().take(waiting) {
        world.despawn(*one).expect("alive");
    }
    let mut image = vec![];
    world.write_image(&mut image).expect("memory");
    image
}

/// No room is asked for where fewer handles are left than are requested: memory can't run out
/// there.
#[test]
fn a_request_for_more_than_is_left() {
    let limits = Limits::new(5, 1).expect("limits");
    for wanted in [6, 1 << 20, u32::MAX] {
        let refusal = ReserveError::Space { wanted, left: 5 };
        let mut entities = Entities::with_limits(limits);
        assert_eq!(asked(|| entities.request_many(wanted)), (Err(refusal), 0));
        assert_eq!(entities.left(), 0);

        let (mut entities, mut handles) = (Entities::with_limits(limits), vec![]);
        let request = || entities.request_into(&mut handles, wanted);
        assert_eq!(asked(request), (Err(refusal), 0));
        assert_eq!((entities.left(), handles.len()), (0, 0));
    }
}

#[test]
fn a_flush_of_requests() {
    let wanted: Vec<Handle> = (3..100).map(|index| handle(index, 1)).collect();
    each_in_turn(|refusal| {
        let mut entities = three();
        for _ in 0..98 {
            entities.request().expect("a handle");
        }
        let mut born = vec![];
        let (flushed, refused) = refusing(refusal, || entities.flush(&mut born));
        flushed.unwrap_or_else(|OutOfMemory| {
            assert!(refused > 0 && born.is_empty());
            assert_eq!((entities.asked(), entities.reserved()), (98, 98));
            assert_eq!(entities.state(handle(50, 1)), State::Reserved);
            entities.flush(&mut born).expect("memory");
        });
        assert_eq!(born[..97], wanted);
        assert_eq!(born[97], handle(1, 2));
        assert_eq!(entities.len(), 100);
        refused
    });
}

/// A flush into a list that has room, and no new slots: nothing is asked for. Else the list is as
/// it was.
#[test]
fn a_flush_into_a_list() {
    each_in_turn(|refusal| {
        let mut entities = three();
        entities.request_many(98).expect("handles");
        let mut list = vec![handle(7, 7)];
        let into = || entities.flush(&mut list);
        let (_, refused) = insist(refusal, OutOfMemory, into);
        assert_eq!(
            (list.len(), list[0], list[98]),
            (99, handle(7, 7), handle(1, 2))
        );
        assert_eq!(entities.len(), 100);

        for &one in &list[1..] {
            entities.free(one).expect("memory");
        }
        entities.request_many(98).expect("handles");
        list.clear();
        let (flushed, none) = refusing(Refusal::All { after: 0 }, || entities.flush(&mut list));
        assert_eq!((flushed, none, list.len()), (Ok(()), 0, 98));
        refused
    });
}

/// An allocator with so many slots, of which every third waits, and with requests.
fn requested(slots: u32) -> Entities {
    let mut entities = Entities::new();
    for one in entities.alloc_many(slots).expect("memory") {
        if one.index() % 3 == 0 {
            entities.free(one).expect("memory");
        }
    }
    entities.request_many(2).expect("handles");
    entities
}

/// What is alive, and the counts of the rest.
fn told(entities: &Entities) -> (Vec<Handle>, [u64; 4]) {
    let counts = [entities.total(), entities.top(), entities.reserved()].map(u64::from);
    let [made, top, reserved] = counts;
    let living = entities.iter().collect();
    (living, [made, top, reserved, entities.asked()])
}

#[test]
fn clones() {
    for slots in [1, 3_000, 100_000] {
        let source = requested(slots);
        let whole = told(&source);
        each_in_turn(|refusal| {
            let (clone, refused) = insist(refusal, OutOfMemory, || source.try_clone());
            assert_eq!(told(&clone), whole);
            refused
        });
        each_in_turn(|refusal| {
            let (mut clone, row) = smaller(slots);
            let before = told(&clone);
            let (done, refused) = refusing(refusal, || clone.try_clone_from(&source));
            done.unwrap_or_else(|OutOfMemory| {
                assert!(refused > 0);
                assert_eq!((told(&clone), clone.row(handle(2, 1))), (before, row));
                clone.try_clone_from(&source).expect("memory");
            });
            assert_eq!(
                (told(&clone), clone.row(handle(2, 1))),
                (whole.clone(), None)
            );
            refused
        });
    }
}

/// An allocator with fewer slots than this, and the row of the handle 2v1.
fn smaller(slots: u32) -> (Entities, Option<u32>) {
    if slots < 3 {
        return (Entities::new(), None);
    }
    let mut entities = three();
    entities.try_set_row(handle(2, 1), 9).expect("alive");
    entities.request().expect("a handle");
    (entities, Some(9))
}

/// A world of three entities, of which the first has gone, with a handle that is reserved.
fn small_world() -> (World, Handle) {
    let mut world = World::new();
    for hp in 0..3 {
        world.spawn(&[(HP, hp)]).expect("memory");
    }
    world.despawn(handle(0, 1)).expect("alive");
    let (open, mut systems) = world.open(1).expect("memory");
    let soon = systems[0].spawn(&[]).expect("memory");
    (open.close(systems).expect("closed").0, soon)
}

/// An entity, its birth and a component.
type Made = (Handle, Option<Birth>, Option<i64>);

/// The frame, whether a handle is reserved, and the living.
fn seen(world: &World) -> (u64, bool, Vec<Made>) {
    let all = world.by_birth().expect("memory").into_iter();
    let all = all.map(|one| (one, world.birth(one), world.get(one, HP)));
    (world.frame(), world.needs_flush(), all.collect())
}

#[test]
fn clones_of_worlds() {
    let (source, soon) = small_world();
    let whole = seen(&source);
    assert_eq!(whole.2.len(), 2);
    let goes_on = |mut clone: World| {
        assert_eq!(seen(&clone), whole);
        clone.flush().expect("memory");
        assert!(clone.contains(soon) && clone.len() == 3);
    };
    each_in_turn(|refusal| {
        let (clone, refused) = insist(refusal, OutOfMemory, || source.try_clone());
        goes_on(clone);
        refused
    });
    each_in_turn(|refusal| {
        let mut target = World::new();
        target.spawn(&[(HP, 70)]).expect("memory");
        let before = seen(&target);
        let (done, refused) = refusing(refusal, || target.try_clone_from(&source));
        done.unwrap_or_else(|OutOfMemory| {
            assert!(refused > 0);
            assert_eq!(seen(&target), before);
            target.try_clone_from(&source).expect("memory");
        });
        goes_on(target);
        refused
    });
    let none = Refusal::All { after: 0 };
    let mut target = small_world().0;
    let (cleared, refused) = refusing(none, || target.try_clone_from(&World::new()));
    assert_eq!(
        (cleared, refused, target.len(), target.frame()),
        (Ok(()), 0, 0, 0)
    );
    let (clone, refused) = refusing(none, || World::new().try_clone());
    assert_eq!((clone.map(|clone| clone.len()), refused), (Ok(0), 0));
}

/// Once the lists had as much room, nothing is asked for. Nor is for what has no slots.
#[test]
fn clones_into_room() {
    let none = Refusal::All { after: 0 };
    let fresh = requested(0);
    let (clone, refused) = refusing(none, || fresh.try_clone());
    assert_eq!(
        (clone.map(|clone| told(&clone)), refused),
        (Ok(told(&fresh)), 0)
    );
    for slots in [0, 1, 3_000, 100_000] {
        let source = requested(slots);
        let mut target = requested(slots);
        common::flushed(&mut target);
        while target.top() > 0 {
            target.alloc().expect("a slot waits");
        }
        // Nothing waits any more, but there is room for as much as did.
        let back = || target.try_clone_from(&source);
        assert_eq!(refusing(none, back), (Ok(()), 0), "{slots}");
        assert_eq!(told(&target), told(&source));
    }
}

#[test]
fn a_flush_with_a_closure() {
    each_in_turn(|refusal| {
        let mut entities = three();
        entities.request_many(98).expect("handles");
        let (mut count, mut last) = (0, None);
        let with = || {
            entities.flush_with(|one| {
                count += 1;
                last = Some(one);
            })
        };
        let (_, refused) = insist(refusal, OutOfMemory, with);
        assert_eq!((count, last, entities.len()), (98, Some(handle(1, 2)), 100));
        refused
    });
}

#[test]
fn many_at_once() {
    each_in_turn(|refusal| {
        let mut entities = three();
        let (given, refused) = refusing(refusal, || entities.alloc_many(98));
        let all = given.unwrap_or_else(|error| {
            assert!(refused > 0);
            assert_eq!(error, AllocError::Memory);
            assert_eq!(
                (entities.len(), entities.total(), entities.top()),
                (2, 3, 1)
            );
            entities.alloc_many(98).expect("memory")
        });
        assert!(all.iter().all(|one| entities.is_alive(*one)));
        let wanted: Vec<Handle> = (3..100).map(|index| handle(index, 1)).collect();
        assert_eq!((all[0], &all[1..]), (handle(1, 2), &wanted[..]));
        refused
    });
    each_in_turn(|refusal| {
        let mut entities = three();
        let call = || entities.request_many(98);
        let (given, refused) = insist(refusal, ReserveError::Memory, call);
        assert_eq!((given.len(), entities.asked()), (98, 98));
        refused
    });
}

/// The allocator is back from a phase that was refused, and the closure wasn't called.
#[test]
fn a_phase_on_a_borrow() {
    each_block_in_turn(|refusal| {
        let mut entities = three();
        let phase = || entities.phase(5, |_, reservers| reservers[4].reserve());
        let (ran, refused) = refusing(refusal, phase);
        let ran = ran.unwrap_or_else(|error| {
            assert!(refused > 0);
            assert_eq!(error, ShareError::Memory);
            assert_eq!((entities.len(), entities.top()), (2, 1));
            assert!(!entities.needs_flush());
            let phase = entities.phase(5, |_, reservers| reservers[4].reserve());
            phase.expect("memory")
        });
        assert_eq!(ran, Ok(handle(1, 2)));
        assert_eq!((entities.len(), entities.reserved()), (2, 1));
        refused
    });
}

#[test]
#[cfg(feature = "std")]
fn a_pool_of_reservers() {
    let (shared, mut reservers) = three().share(5).expect("shared");
    each_in_turn(|refusal| {
        let all = std::mem::take(&mut reservers);
        let (pool, refused) = refusing(refusal, || forgeni::Reservers::new(all));
        let pool = pool.unwrap_or_else(|unpooled| {
            assert!(refused > 0);
            let (all, error) = unpooled.into_parts();
            assert_eq!((all.len(), error), (5, OutOfMemory));
            forgeni::Reservers::new(all).expect("memory")
        });
        assert_eq!(pool.count(), 5);
        reservers = pool.into_inner();
        refused
    });
    let pool = forgeni::Reservers::new(&mut reservers).expect("memory");
    let lend = || pool.with(|one| one.reserve());
    let (given, refused) = refusing(Refusal::All { after: 0 }, lend);
    assert_eq!((given, refused), (Ok(handle(1, 2)), 0));
    drop(pool);
    assert_eq!(shared.close(reservers).expect("closed").reserved(), 1);
}

#[test]
fn share_gives_the_allocator_back() {
    each_block_in_turn(|refusal| {
        let entities = three();
        let (shared, refused) = refusing(refusal, || entities.share(5));
        let (shared, mut reservers) = shared.unwrap_or_else(|unshared| {
            assert!(refused > 0);
            let (entities, error) = unshared.into_parts();
            assert_eq!(error, ShareError::Memory);
            assert_eq!((entities.len(), entities.top()), (2, 1));
            assert!(!entities.needs_flush());
            entities.share(5).expect("memory")
        });
        assert_eq!(reservers.len(), 5);
        assert_eq!(reservers[4].reserve(), Ok(handle(1, 2)));
        assert_eq!(shared.close(reservers).expect("closed").reserved(), 1);
        refused
    });
}

#[test]
fn reserving_many() {
    each_in_turn(|refusal| {
        let (shared, mut reservers) = three().share(1).expect("shared");
        let only = &mut reservers[0];
        let (given, refused) = insist(refusal, ReserveError::Memory, || only.reserve_many(3));
        assert_eq!(given, [handle(1, 2), handle(3, 1), handle(4, 1)]);
        assert_eq!(only.quota_left(), (1 << 40) - 3);
        shared.close(reservers).expect("closed");
        refused
    });
}

/// A request that the pool or the quota can't serve is refused for that, and asks for no memory.
#[test]
fn reserving_too_many() {
    let none = Refusal::All { after: 0 };
    let left = 9;
    let entities = Entities::with_limits(Limits::new(left, 1).expect("limits"));
    let (shared, mut reservers) = entities.share(2).expect("shared");
    let only = &mut reservers[0];
    // For no more than the pool had, the list comes first. If its allocation fails, nothing has
    // changed.
    let (given, refused) = refusing(none, || only.reserve_many(left));
    assert_eq!((given, refused), (Err(ReserveError::Memory), 1));
    assert_eq!(only.quota_left(), 1 << 40);

    let mut quota = only.quota_left();
    for (wanted, left) in [(left + 1, left), (u32::MAX, 0), (left + 1, 0)] {
        let (given, refused) = refusing(none, || only.reserve_many(wanted));
        let space = ReserveError::Space { wanted, left };
        assert_eq!((given, refused), (Err(space), 0));
        quota -= u64::from(wanted);
        assert_eq!(only.quota_left(), quota);
    }
    // The other reserver knows what was in the pool too, and so does one that comes back from a
    // refused close.
    let missing = shared.close(vec![]).expect_err("two are missing");
    let other = &mut reservers[1];
    let (given, refused) = refusing(none, || other.reserve_many(left + 1));
    let wanted = left + 1;
    assert_eq!(
        (given, refused),
        (Err(ReserveError::Space { wanted, left: 0 }), 0)
    );
    let (shared, _) = missing.into_parts().0;
    let kept = shared.close(vec![reservers.pop().expect("two")]);
    let (_, mut back) = kept.expect_err("one is missing").into_parts().0;
    let (given, refused) = refusing(none, || back[0].reserve_many(wanted));
    assert_eq!(
        (given, refused),
        (Err(ReserveError::Space { wanted, left: 0 }), 0)
    );
}

/// No close of a phase of an allocator takes memory, not even after one that was refused.
#[test]
fn closes_of_allocators_take_no_memory() {
    let (shared, mut reservers) = three().share(9).expect("shared");
    let away = reservers.pop().expect("nine");
    reservers[0].reserve().expect("a handle");
    let none = Refusal::All { after: 0 };
    let (left, refused) = refusing(none, || shared.close(reservers).expect_err("missing"));
    let (shared, reservers) = left.into_parts().0;
    assert_eq!((refused, reservers.len()), (0, 8));
    drop(away);
    let closed = || shared.close_lost(reservers).expect("closed");
    let (entities, refused) = refusing(none, closed);
    assert_eq!((refused, entities.reserved()), (0, 1));
}

/// After a close that found one in use there may be no room for the others, until there is memory.
#[test]
fn a_close_after_one_in_use() {
    let (shared, mut reservers) = three().share(9).expect("shared");
    let away = reservers.pop().expect("nine");
    let none = Refusal::All { after: 0 };
    let (left, _) = refusing(none, || shared.close_lost(reservers).expect_err("in use"));
    let (shared, mut reservers) = left.into_parts().0;
    assert_eq!((reservers.len(), shared.returned()), (0, 8));
    reservers.push(away);
    reservers[0].reserve().expect("a handle");
    assert_eq!(shared.close(reservers).expect("closed").reserved(), 1);
}

/// A value that was refused comes back, and the map is as it was.
#[test]
fn calls_of_a_map() {
    each_in_turn(|refusal| {
        let mut map = HandleMap::new();
        let one = handle(100, 2);
        let (inserted, refused) = refusing(refusal, || map.insert(one, 7));
        if let Err(back) = inserted {
            assert!(refused > 0);
            assert_eq!(back.into_parts(), (7, InsertError::Memory));
            assert_eq!((map.len(), map.capacity(), map.get(one)), (0, 0, None));
            assert!(map.insert(one, 7).expect("memory").is_none());
        }
        assert_eq!((map.len(), map.get(one)), (1, Some(&7)));

        // What has its slot takes no more.
        let (done, none) = refusing(Refusal::All { after: 0 }, || {
            let before = map.insert(one, 8).map_err(InsertError::from);
            let below = map.insert(handle(99, 1), 9).map_err(InsertError::from);
            let removed = map.remove(one);
            map.clear();
            (before, below, removed)
        });
        assert_eq!((done, none), ((Ok(Some(7)), Ok(None), Some(8)), 0));
        refused
    });
    each_in_turn(|refusal| {
        let mut map: HandleMap<u64> = HandleMap::new();
        let (_, refused) = insist(refusal, OutOfMemory, || map.reserve(1000));
        assert!(map.capacity() >= 1000);
        let with_capacity = || HandleMap::<u64>::with_capacity(1000).map(|map| map.capacity());
        let (capacity, also) = insist(refusal, OutOfMemory, with_capacity);
        assert!(capacity >= 1000);
        refused + also
    });
}

/// A vacant entry that runs out of memory hands its value back, and the map is as it was. What
/// lends values or moves them out takes no memory.
#[test]
fn entries_and_drains_of_maps() {
    let none = Refusal::All { after: 0 };
    for index in [100, 70_001] {
        let one = handle(index, 2);
        each_in_turn(|refusal| {
            let mut map = HandleMap::new();
            let (given, refused) = refusing(refusal, || map.entry(one).or_insert(7).map(|it| *it));
            if let Err(back) = given {
                assert!(refused > 0);
                assert_eq!(back.into_parts(), (7, InsertError::Memory));
                assert_eq!((map.len(), map.capacity(), map.get(one)), (0, 0, None));
                assert_eq!(map.entry(one).or_insert(7), Ok(&mut 7));
            }
            assert_eq!((map.len(), map.get(one)), (1, Some(&7)));
            let (done, unasked) = refusing(none, || {
                *map.entry(one).and_modify(|it| *it += 1).or_insert(0)? += 1;
                map.iter_mut().for_each(|(_, it)| *it += 1);
                let [it] = map.get_disjoint_mut([one]).expect("it has one");
                *it += 1;
                let (_, mut above) = map.split_at_mut(9);
                *above.get_mut(one).expect("it has one") += 1;
                Ok::<_, forgeni::HandedBack<i32, InsertError>>(map.drain().next())
            });
            assert_eq!((done, unasked), (Ok(Some((one, 12))), 0));
            refused
        });
        each_in_turn(|refusal| {
            let mut map = SparseMap::new();
            let (given, refused) = refusing(refusal, || map.entry(one).or_insert(7).map(|it| *it));
            if let Err(back) = given {
                assert!(refused > 0);
                assert_eq!(back.into_parts(), (7, InsertError::Memory));
                assert_eq!((map.len(), map.get(one)), (0, None));
                assert_eq!(map.entry(one).or_insert(7), Ok(&mut 7));
            }
            assert_eq!((map.len(), map.get(one)), (1, Some(&7)));
            let (done, unasked) = refusing(none, || {
                *map.entry(one).and_modify(|it| *it += 1).or_insert(0)? += 1;
                map.iter_mut().for_each(|(_, it)| *it += 1);
                let [it] = map.get_disjoint_mut([one]).expect("it has one");
                *it += 1;
                Ok::<_, forgeni::HandedBack<i32, InsertError>>(map.drain().next())
            });
            assert_eq!((done, unasked), (Ok(Some((one, 11))), 0));
            refused
        });
    }
}

/// A map with a value for each of the first slots.
fn numbers(count: u32) -> HandleMap<u64> {
    let numbers = (0..count).map(|index| (handle(index, 2), u64::from(index)));
    numbers.collect()
}

/// Whether the map is one of these numbers, and has that limit.
fn has_numbers(map: &HandleMap<u64>, count: u32, limit: u32) -> bool {
    let numbers = (0..count).map(|index| (handle(index, 2), u64::from(index)));
    map.len() == count as usize
        && map.limit() == limit
        && map.iter().map(|(one, value)| (one, *value)).eq(numbers)
}

/// A clone that is refused changes neither map, and what is done with one of two later leaves the
/// other.
#[test]
fn clones_of_a_map() {
    let none = Refusal::All { after: 0 };
    for count in [1, 3_000, 70_001] {
        let mut source = numbers(count);
        source.set_limit(count + 1);
        each_in_turn(|refusal| {
            let (mut clone, refused) = insist(refusal, OutOfMemory, || source.try_clone());
            assert!(has_numbers(&clone, count, count + 1));
            clone.insert(handle(0, 3), 9).expect("memory");
            clone.set_limit(0);
            assert!(has_numbers(&source, count, count + 1));
            refused
        });
        each_in_turn(|refusal| {
            let mut target = HandleMap::with_limit(7);
            if count > 1_000 {
                target.insert(handle(6, 9), 5).expect("memory");
            }
            let before = (target.len(), target.slots(), target.capacity());
            let (cloned, refused) = refusing(refusal, || target.try_clone_from(&source));
            if cloned.is_err() {
                assert!(refused > 0);
                let after = (target.len(), target.slots(), target.capacity());
                assert_eq!((after, target.limit()), (before, 7));
                assert_eq!(target.get(handle(6, 9)), (count > 1_000).then_some(&5));
                target.try_clone_from(&source).expect("memory");
            }
            assert!(has_numbers(&target, count, count + 1));

            // With room for it, another one is cloned without memory.
            target.remove(handle(0, 2));
            let (cloned, unasked) = refusing(none, || target.try_clone_from(&source));
            assert_eq!((cloned, unasked), (Ok(()), 0));
            assert!(has_numbers(&target, count, count + 1));
            assert!(has_numbers(&source, count, count + 1));
            refused
        });
    }
    let (empty, mut target) = (HandleMap::with_limit(3), numbers(70_001));
    let room = target.capacity();
    let (clone, unasked) = refusing(none, || {
        target
            .try_clone_from(&empty)
            .expect("no memory is asked for");
        empty.try_clone().expect("no memory is asked for")
    });
    assert_eq!(unasked, 0);
    assert!(has_numbers(&target, 0, 3) && has_numbers(&clone, 0, 3));
    assert_eq!((target.slots(), target.capacity()), (0, room));
}

tables! {
    #[derive(Debug, PartialEq)]
    struct Parts {
        place: HandleMap<u64>,
        speed: HandleMap<u64>,
        name: SparseMap<u64>,
    }
}

/// Whichever map of a struct gets no memory, all are as they were. With room for the source none is
/// asked for, nor by what drops values.
#[test]
fn clones_of_structs_of_maps() {
    let one = handle(7, 3);
    let parts = |count| Parts {
        place: numbers(count),
        speed: numbers(count),
        name: numbers(count).into_iter().collect(),
    };
    for count in [10, 3_000] {
        let source = parts(count);
        each_in_turn(|refusal| {
            let (clone, refused) = insist(refusal, OutOfMemory, || source.try_clone());
            assert_eq!(clone, source);
            refused
        });
        each_in_turn(|refusal| {
            let (mut target, before) = (parts(5), parts(5));
            let (cloned, refused) = refusing(refusal, || target.try_clone_from(&source));
            if cloned.is_err() {
                assert!(refused > 0);
                assert_eq!(target, before);
                target.try_clone_from(&source).expect("memory");
            }
            assert_eq!(target, source);
            let (done, unasked) = refusing(Refusal::All { after: 0 }, || {
                target.forget(one);
                target.sweep(&Entities::new());
                assert!(target.lens().iter().all(|(_, len)| *len == 0));
                target.try_clone_from(&source)?;
                target.clear();
                target.try_clone_from(&source)
            });
            assert_eq!((done, unasked), (Ok(()), 0));
            assert_eq!(target, source);
            refused
        });
    }
}

/// A tick that gets no memory changes nothing, and its value comes back. What has one, or room for
/// it, takes none.
fn ticks_of<M: AnyMap<Value = u64> + Clone + PartialEq + Debug>() {
    let none = Refusal::All { after: 0 };
    let [one, other, beyond] = [handle(70, 1), handle(90, 1), handle(5_000, 1)];
    each_in_turn(|refusal| {
        let mut map = Tracked::new(M::default(), 1);
        let values = (0..100).map(|index| (handle(index, 1), 0));
        map.map_mut(1).extend(values);
        let before = map.clone();

        let (lent, first) = refusing(refusal, || map.get_mut(one, 2).map(|it| it.is_some()));
        if lent.is_err() {
            assert!(lent == Err(OutOfMemory) && first > 0);
            assert_eq!(map, before);
            map.get_mut(one, 2).expect("memory");
        }
        assert!(map.changed_since(2).eq([(one, &0)]));

        let before = map.clone();
        let (set, second) = refusing(refusal, || map.set_if_neq(other, 5, 3));
        if let Err(back) = set {
            assert!(second > 0);
            assert_eq!(back.into_parts(), (5, OutOfMemory));
            assert_eq!(map, before);
            assert!(map.set_if_neq(other, 5, 3).expect("memory"));
        }
        assert!(map.changed_since(3).eq([(other, &5)]));

        let (before, slots) = (map.clone(), places(&map));
        let (inserted, third) = refusing(refusal, || map.insert(beyond, 7, 4));
        if let Err(back) = inserted {
            assert!(third > 0);
            assert_eq!(back.into_parts(), (7, InsertError::Memory));
            assert_eq!((&map, places(&map)), (&before, slots));
            assert_eq!(map.insert(beyond, 7, 4).expect("memory"), None);
        }
        assert!(map.changed_since(4).eq([(beyond, &7)]));

        let (clone, fourth) = insist(refusal, OutOfMemory, || map.try_clone());
        assert_eq!(clone, map);
        let (mut target, fifth) = (before.clone(), before);
        let (cloned, refused) = refusing(refusal, || target.try_clone_from(&map));
        if cloned.is_err() {
            assert!(cloned == Err(OutOfMemory) && refused > 0);
            assert_eq!(target, fifth);
            target.try_clone_from(&map).expect("memory");
        }
        assert_eq!(target, map);

        let (done, unasked) = refusing(none, || {
            let lent = map.get_mut(handle(3, 1), 5)?.is_some();
            let removed = map.remove(one).is_some();
            map.retain(|it, _| it != other);
            map.map_mut(6);
            map.try_clone_from(&target)?;
            map.clear();
            map.try_clone_from(&target)?;
            Ok::<_, OutOfMemory>((lent, removed))
        });
        assert_eq!((done, unasked), (Ok((true, true)), 0));
        assert_eq!(target, map);

        let mut anew = Tracked::new(map.into_inner(), 1);
        let (reserved, sixth) = insist(refusal, OutOfMemory, || anew.reserve_ticks());
        let (lent, unasked) = refusing(none, || anew.get_mut(beyond, 2).expect("room").is_some());
        assert_eq!((reserved, lent, unasked), ((), true, 0));
        first + second + third + fourth + refused + sixth
    });
}

/// What the ticks of a map that is refused must not change.
fn places<M: AnyMap>(map: &Tracked<M>) -> Vec<Handle> {
    map.iter().map(|(one, _)| one).collect()
}

#[test]
fn ticks_of_maps() {
    ticks_of::<HandleMap<u64>>();
    ticks_of::<SparseMap<u64>>();
    // A handle that the map refuses takes no memory for its tick.
    let none = Refusal::All { after: 0 };
    let mut map: Tracked<HandleMap<u8>> = Tracked::with_limit(9);
    map.insert(handle(8, 2), 1, 0).expect("memory");
    let refused = [
        handle(9, 1),
        handle(4_000_000_000, 1),
        Handle::PLACEHOLDER,
        handle(8, 1),
    ];
    let (told, unasked) = refusing(none, || {
        refused.map(|one| map.insert(one, 1, 1).map_err(InsertError::from))
    });
    let [limit, later] = [InsertError::Limit, InsertError::Later].map(Err);
    assert_eq!((told, unasked), ([limit, limit, limit, later], 0));
    assert_eq!(map.changed_since(1).count(), 0);
}

/// The ticks of ten values among a million slots take no room for the others, if the map is sparse.
#[test]
fn ticks_of_few_values() {
    let values = (0..10).map(|number| (handle(999_999 - number * 99_999, 1), number));
    let mut map = Tracked::new(values.collect::<SparseMap<u32>>(), 0);
    let all: Vec<Handle> = map.keys().collect();
    let (_, bytes) = held(|| {
        for one in &all {
            map.get_mut(*one, 1).expect("memory");
        }
    });
    assert!(
        map.changed_since(1).count() == 10 && bytes <= 200,
        "{bytes}"
    );
    // If all are lent, a map has no row.
    let mut map = Tracked::new(numbers(1_000), 0);
    let (_, bytes) = held(|| map.map_mut(1).values_mut().for_each(|it| *it += 1));
    assert_eq!((map.changed_since(1).count(), bytes), (1_000, 0));
}

/// A walk by a sparse map lists its handles. Without memory it goes over its first map, and comes
/// to the same. Other walks take none.
#[test]
fn walks_over_maps() {
    each_in_turn(|refusal| {
        let (mut places, speeds) = (numbers(3_000), numbers(200));
        let rare: SparseMap<u64> = numbers(100).into_iter().skip(50).collect();
        let wanted: u64 = (50..100).map(|it| 3 * it).sum();
        let (sum, refused) = refusing(refusal, || -> u64 {
            let walk = (&mut places, &speeds, &rare).join();
            walk.map(|(_, a, b, c)| *a + b + c).sum()
        });
        assert_eq!(sum, wanted);
        let few = || {
            let walks = [
                (&rare, &places).join().count(),
                (&speeds, &places).join().count(),
            ];
            (walks, (&mut places, &speeds).join().count())
        };
        let none = Refusal::All { after: 0 };
        assert_eq!(refusing(none, few), (([50, 200], 200), 0));
        refused
    });
}

/// A list of births without memory loses the first ones, and says so.
#[test]
fn a_list_of_births() {
    each_in_turn(|refusal| {
        let one = |tick: u64| handle(tick as u32, 1);
        let mut history = History::new();
        let ((), refused) = refusing(refusal, || {
            for tick in 0..40 {
                history.begin(tick);
                history.born(&[one(tick)]);
            }
        });
        for since in 0..41 {
            if let Some(told) = history.since(since) {
                assert!(told.eq((since..40).map(|tick| Change::Born(one(tick)))));
            }
        }
        assert_eq!(history.since(0).is_none(), refused > 0);
        assert!(history.since(40).is_some());
        refused
    });
}

/// A comparison of allocators takes no memory.
#[test]
fn allocators_that_are_compared() {
    let (one, mut other) = (requested(50), requested(50));
    let equal = || one == other;
    assert_eq!(refusing(Refusal::All { after: 0 }, equal), (true, 0));
    other.flush(&mut vec![]).expect("memory");
    let equal = || one == other;
    assert_eq!(refusing(Refusal::All { after: 0 }, equal), (false, 0));
}

/// Room for a sparse map, or for all that another one has.
#[test]
fn room_for_a_sparse_map() {
    let source: SparseMap<u64> = numbers(3_000).into_iter().collect();
    each_in_turn(|refusal| {
        let with_capacity = || SparseMap::<u64>::with_capacity(1_000);
        let (mut map, refused) = insist(refusal, OutOfMemory, with_capacity);
        assert_eq!((map.capacity(), map.slots()), (1_000, 0));
        let (_, also) = insist(refusal, OutOfMemory, || map.try_reserve(2_000));
        assert!(map.capacity() >= 2_000 && map.is_empty());
        let (_, last) = insist(refusal, OutOfMemory, || map.reserve_for(&source));
        let all = Refusal::All { after: 0 };
        assert_eq!(refusing(all, || map.try_clone_from(&source)), (Ok(()), 0));
        assert!(map == source);
        refused + also + last
    });
}

/// A storage of the first slots. An entity has a component in two of three slots.
fn stored(count: u32) -> Storage {
    let mut storage = Storage::new();
    for index in 0..count {
        let one = handle(index, 2);
        let ordinal = index;
        let born = storage.born(one, Birth { ordinal, ..BIRTH });
        born.expect("memory");
        if index % 3 > 0 {
            let items = [(HP, i64::from(index)), (ComponentId(9), 9)];
            let items = &items[..index as usize % 3];
            storage.insert(one, items).expect("memory");
        }
    }
    storage
}

/// Whether the storage is one of these.
fn is_stored(storage: &Storage, count: u32) -> bool {
    let is_there = |index| {
        let (one, ordinal) = (handle(index, 2), index);
        let hp = (index % 3 > 0).then_some(i64::from(index));
        storage.birth(one) == Some(Birth { ordinal, ..BIRTH })
            && storage.get(one, HP) == hp
            && storage.get(one, ComponentId(9)) == (index % 3 > 1).then_some(9)
            && storage.items(one).map(|items| items.len()) == Some(index as usize % 3)
    };
    storage.len() == count as usize && (0..count).all(is_there)
}

/// A clone that is refused leaves the storage, and what is done with one of two later leaves the
/// other.
#[test]
fn clones_of_a_storage() {
    for count in [1, 3_000, 70_001] {
        let source = stored(count);
        each_in_turn(|refusal| {
            let (mut clone, refused) = insist(refusal, OutOfMemory, || source.try_clone());
            assert!(is_stored(&clone, count) && clone.spare() >= source.spare());
            let last = handle(count - 1, 2);
            clone.insert(last, &MANY).expect("memory");
            clone.despawn(handle(0, 2)).expect("it lives");
            clone.born(handle(count, 1), BIRTH).expect("memory");
            assert!(is_stored(&source, count));
            refused
        });
        let (mut source, clone) = (stored(count), source.try_clone().expect("memory"));
        for index in (0..count).rev() {
            source.despawn(handle(index, 2)).expect("it lives");
        }
        assert!(is_stored(&clone, count));
        // Nobody lives in it, and it has room.
        let empty = source.try_clone().expect("memory");
        assert!(is_stored(&empty, 0) && empty.spare() >= count as usize);
    }
    let new = Storage::new();
    let (clone, unasked) = refusing(Refusal::All { after: 0 }, || new.try_clone());
    assert_eq!(unasked, 0);
    assert!(is_stored(&clone.expect("no memory is asked for"), 0));
}

/// Entities of as many slots more were born and have gone.
fn churned(count: u32) -> Storage {
    let mut storage = stored(count);
    for index in count..2 * count {
        storage.born(handle(index, 1), BIRTH).expect("memory");
        storage.despawn(handle(index, 1)).expect("it lives");
    }
    storage
}

/// If an allocation fails, the storage keeps its entities. With room it asks for none.
#[test]
fn clones_into_a_storage() {
    let none = Refusal::All { after: 0 };
    for (count, before) in [(1, 0), (5, 0), (7, 2), (3_000, 1_000), (70_001, 3)] {
        let source = churned(count);
        each_in_turn(|refusal| {
            let mut target = stored(before);
            let (done, refused) = refusing(refusal, || target.try_clone_from(&source));
            done.unwrap_or_else(|OutOfMemory| {
                assert!(refused > 0 && is_stored(&target, before));
                target.try_clone_from(&source).expect("memory");
            });
            assert!(is_stored(&target, count) && target.spare() >= source.spare());
            for index in count..2 * count {
                assert!(!target.contains(handle(index, 1)));
            }
            let room = target.len() + target.spare();
            let back = || target.try_clone_from(&stored(0));
            let (emptied, unasked) = refusing(none, back);
            assert_eq!((emptied, unasked, target.len()), (Ok(()), 0, 0));
            assert!(target.spare() >= room);
            let (again, unasked) = refusing(none, || target.try_clone_from(&source));
            assert_eq!((again, unasked), (Ok(()), 0), "{count} {before}");
            // What happens to one of them leaves the other.
            target.born(handle(count, 3), BIRTH).expect("memory");
            target.insert(handle(count, 3), &MANY).expect("memory");
            assert!(!source.contains(handle(count, 3)) && is_stored(&source, count));
            target.despawn(handle(count, 3)).expect("it lives");
            for index in (0..count).rev() {
                target.despawn(handle(index, 2)).expect("it lives");
            }
            assert!(target.is_empty() && is_stored(&source, count));
            refused
        });
    }
}

/// Components that only one of the two has: those of the target go, also where it has more of them.
#[test]
fn clones_with_other_components() {
    let [few, most] = [ComponentId(0), ComponentId(255)];
    let mut source = stored(0);
    source.born(handle(0, 1), BIRTH).expect("memory");
    let mut target = stored(0);
    for index in 0..3 {
        target.born(handle(index, 1), BIRTH).expect("memory");
        target
            .insert(handle(index, 1), &[(few, 1), (most, 2)])
            .expect("memory");
    }
    let both = (target.clone(), source.clone());
    target.clone_from(&source);
    assert_eq!(
        (target.len(), target.items(handle(0, 1)).unwrap().len()),
        (1, 0)
    );
    target.born(handle(1, 1), BIRTH).expect("memory");
    assert_eq!(target.items(handle(1, 1)).unwrap().len(), 0);
    source.clone_from(&both.0);
    for index in 0..3 {
        assert!(source
            .items(handle(index, 1))
            .unwrap()
            .eq([(few, 1), (most, 2)]));
    }
    let bare = &both.1;
    assert_eq!(bare.items(handle(0, 1)).unwrap().len(), 0);
}

/// Two entities lived, and one of them still does. Then three callers reserved.
fn traced() -> Vec<Call> {
    let mut calls = vec![
        Call::Alloc(Some(handle(0, 1).into())),
        Call::Alloc(Some(handle(1, 1).into())),
        Call::Free(handle(0, 1), Some(FreeReply::Freed)),
        Call::Reserve(Reservation::new(2, 1, handle(0, 2))),
    ];
    for index in 2..32 {
        let caller = index % 3;
        let one = Reservation::new(caller, 1, handle(index, 1));
        calls.push(Call::Reserve(one));
    }
    let born = (2..32).map(|index| handle(index, 1)).chain([handle(0, 2)]);
    calls.push(Call::Flush(Some(born.collect::<Vec<Handle>>().into())));
    calls.push(Call::Len(Some(32)));
    calls
}

/// After memory ran out, a checker takes no more calls: what it would say of them isn't known.
#[test]
fn calls_of_a_checker() {
    each_block_in_turn(|refusal| {
        let (mut checker, calls) = (Checker::new(Limits::GREATEST), traced());
        let run = [0, 1].map(|caller| Reservation::new(caller, 1, handle(33 - caller, 1)));
        let run = Vec::from(run);
        let (checked, refused) = refusing(refusal, || {
            calls.into_iter().try_for_each(|call| checker.call(call))?;
            checker.run(run)
        });
        if checked == Err(CheckError::Memory) {
            assert!(refused > 0, "nothing was refused");
            assert_eq!(checker.len(32), checked);
            assert_eq!(checker.run(vec![]), checked);
        } else {
            assert_eq!((checked, refused), (Ok(()), 0));
            checker.finish().expect("it agrees");
        }
        refused
    });
}

/// A run for which memory ran out is the last one.
#[test]
fn a_run_that_is_refused() {
    each_block_in_turn(|refusal| {
        let mut checker = Checker::new(Limits::GREATEST);
        let run = [0, 1, 2].map(|caller| Reservation::new(caller, 1, handle(caller, 1)));
        let run = Vec::from(run);
        let (checked, refused) = refusing(refusal, || checker.run(run));
        if checked == Err(CheckError::Memory) {
            assert!(refused > 0, "nothing was refused");
            let calls = checker.calls();
            assert_eq!(checker.len(0), checked);
            assert_eq!(checker.run(vec![]), checked);
            assert_eq!(checker.calls(), calls);
            assert_eq!(checker.finish(), checked);
        } else {
            assert_eq!((checked, refused), (Ok(()), 0));
            checker.finish().expect("it agrees");
        }
        refused
    });
}

/// A log doesn't have a reservation for which memory ran out.
#[test]
fn calls_of_a_log() {
    each_in_turn(|refusal| {
        let mut log = Log::new(3);
        let given: Vec<Vec<Handle>> = (0..9).map(|index| vec![handle(index, 1)]).collect();
        let (pushed, refused) = refusing(refusal, || {
            let push = |given| usize::from(log.push(1, given).is_ok());
            given.into_iter().map(push).sum::<usize>()
        });
        assert_eq!(pushed, log.reservations().len());
        assert_eq!(pushed < 9, refused > 0);
        refused
    });
}

/// A spawn without memory has reserved nothing and left no entry. Made again, it returns the handle
/// that it would have returned.
#[test]
fn a_spawn_in_a_log_of_commands() {
    let slots = (3..11).map(|index| handle(index, 1));
    let wanted: Vec<Entry<()>> = [handle(1, 2)]
        .into_iter()
        .chain(slots)
        .map(Entry::Spawn)
        .collect();
    each_in_turn(|refusal| {
        let (shared, mut reservers) = three().share(1).expect("shared");
        let only = &mut reservers[0];
        let mut log = forgeni::Log::new();
        let mut refusals = 0;
        for number in 0..wanted.len() {
            let quota = only.quota_left();
            let (spawned, refused) = refusing(refusal, || log.spawn(only));
            let one = spawned.unwrap_or_else(|error| {
                assert!(refused > 0);
                assert_eq!(error, ReserveError::Memory);
                assert_eq!(log.entries(), &wanted[..number]);
                assert_eq!(only.quota_left(), quota);
                log.spawn(only).expect("memory")
            });
            assert_eq!(Entry::Spawn(one), wanted[number]);
            assert_eq!(only.quota_left(), quota - 1);
            refusals += refused;
        }
        assert_eq!(log.entries(), wanted);
        assert_eq!(shared.close(reservers).expect("closed").reserved(), 9);
        refusals
    });
}

/// A command that is refused is dropped, and the log is as it was.
#[test]
fn a_push_to_a_log_of_commands() {
    each_in_turn(|refusal| {
        let command = Rc::new(());
        let mut log = forgeni::Log::new();
        let mut refusals = 0;
        for number in 0..9 {
            let (pushed, refused) = refusing(refusal, || log.push(Rc::clone(&command)));
            pushed.unwrap_or_else(|OutOfMemory| {
                assert!(refused > 0);
                assert_eq!(
                    (log.entries().len(), Rc::strong_count(&command)),
                    (number, number + 1)
                );
                log.push(Rc::clone(&command)).expect("memory");
            });
            assert_eq!(
                (log.entries().len(), Rc::strong_count(&command)),
                (number + 1, number + 2)
            );
            refusals += refused;
        }
        refusals
    });
}

/// A log that was cleared has its room, also for the entries of refused spawns.
#[test]
fn a_log_of_commands_that_was_cleared() {
    let mut entities = Entities::with_limits(Limits::new(2, 1).expect("limits"));
    let mut log = forgeni::Log::new();
    let mut fill = |log: &mut forgeni::Log<u64>| {
        for number in 0..4 {
            let spawned = log.spawn(&mut entities);
            spawned.map_or_else(ReserveError::or_memory, |_| Ok(()))?;
            log.push(number)?;
        }
        Ok::<(), OutOfMemory>(())
    };
    fill(&mut log).expect("memory");
    for _ in 0..3 {
        log.clear();
        let (filled, refused) = refusing(Refusal::All { after: 0 }, || fill(&mut log));
        assert_eq!((filled, refused, log.len()), (Ok(()), 0, 8));
    }
}

/// Two logs of 49 spawns each, which this allocator has reserved.
fn logs_of(entities: &mut Entities) -> Vec<forgeni::Log<u64>> {
    let mut logs = vec![forgeni::Log::new(), forgeni::Log::new()];
    for log in &mut logs {
        for number in 0..49 {
            log.spawn(entities).expect("a handle");
            log.push(number).expect("memory");
        }
    }
    logs
}

/// A sync point of logs that is refused leaves the allocator, the logs and the list of what is born
/// as they were. One that has begun hands on its entries without memory. Without new slots, and
/// with a list that has room, it begins without memory too.
#[test]
fn a_sync_point_of_logs() {
    let entries = |logs: &[forgeni::Log<u64>]| -> Vec<Entry<u64>> {
        logs.iter().flat_map(|log| log.entries().to_vec()).collect()
    };
    each_in_turn(|refusal| {
        let mut entities = three();
        let mut logs = logs_of(&mut entities);
        let (before, written) = (told(&entities), entries(&logs));
        let mut born = vec![handle(7, 7)];
        let begin = || SyncPoint::begin(&mut entities, &mut logs, &mut born);
        let (begun, refused) = refusing(refusal, begin);
        let mut sync = begun.unwrap_or_else(|error| {
            assert!(refused > 0);
            assert_eq!(error, BeginError::Memory);
            assert_eq!(logs.len(), 2);
            assert_eq!((told(&entities), entries(&logs)), (before, written.clone()));
            assert_eq!(born, [handle(7, 7)]);
            SyncPoint::begin(&mut entities, &mut logs, &mut born).expect("memory")
        });
        assert_eq!(
            (born.len(), born[0], born[98]),
            (99, handle(7, 7), handle(1, 2))
        );
        assert_eq!(entities.len(), 100);
        let mut left = written.into_iter();
        let hand_on = || {
            sync.apply(&mut entities, |_, entry| match left.next() {
                Some(next) if next == entry => Ok(()),
                _ => Err((entry, "another entry")),
            })
        };
        let (handed, none) = refusing(Refusal::All { after: 0 }, hand_on);
        assert_eq!((handed, none, left.next()), (Ok(()), 0, None));
        assert_eq!(sync.take_next(), None);

        for &one in &born[1..] {
            entities.free(one).expect("memory");
        }
        born.clear();
        let mut logs = logs_of(&mut entities);
        let begin = || SyncPoint::begin(&mut entities, &mut logs, &mut born).is_ok();
        let (begun, none) = refusing(Refusal::All { after: 0 }, begin);
        assert_eq!((begun, none, born.len(), logs.len()), (true, 0, 98, 0));
        refused
    });
}

/// Systems and the beginning of their sync point, on one worker. Before they run the allocator is
/// as it was. A system that stopped leaves what was reserved. If only what is born has no memory,
/// the logs come back.
#[cfg(feature = "std")]
#[test]
fn a_sync_point_of_systems() {
    let system = |commands: &mut LogCommands<'_, u64>| {
        for number in 0..49 {
            commands
                .spawn()
                .or_else(|refused| refused.or_memory().map(|()| handle(7, 7)))?;
            commands.push(number)?;
        }
        Ok::<(), OutOfMemory>(())
    };
    each_in_turn(|refusal| {
        let mut entities = three();
        let (before, mut born) = (told(&entities), vec![handle(7, 7)]);
        let run = || run_to_sync_point(&StdThreads, &mut entities, &[system; 2], 1, &mut born);
        let (begun, refused) = refusing(refusal, run);
        let Err(unbegun) = begun else {
            assert_eq!((born.len(), entities.len()), (99, 100));
            return refused;
        };
        assert!(refused > 0);
        assert_eq!(born, [handle(7, 7)]);
        let (mut logs, error) = unbegun.into_parts();
        match error {
            RunError::Memory => assert_eq!(told(&entities), before),
            RunError::Lost(_) => assert_eq!(entities.len(), 2),
            error => {
                assert_eq!((error, logs.len()), (RunError::Unborn, 2));
                let sync = SyncPoint::begin(&mut entities, &mut logs, &mut born);
                assert!(sync.is_ok() && entities.len() == 100);
                return refused;
            }
        }
        assert!(logs.is_empty());
        refused
    });
}

#[test]
fn calls_of_a_storage() {
    each_in_turn(|refusal| {
        let mut storage = stored(3);
        let spare = storage.spare();
        let (_, refused) = insist(refusal, OutOfMemory, || storage.reserve_slots(3_000));
        assert!(is_stored(&storage, 3) && storage.spare() >= spare);
        // The room is there: births by falling slot take memory for their own places alone.
        let (_, unasked) = refusing(Refusal::All { after: 0 }, || storage.reserve_slots(3_000));
        assert_eq!(unasked, 0);
        refused
    });
    each_in_turn(|refusal| {
        let mut storage = Storage::new();
        let one = handle(7, 1);
        let (_, refused) = insist(refusal, StorageError::Memory, || storage.born(one, BIRTH));
        assert_eq!((storage.len(), storage.birth(one)), (1, Some(BIRTH)));
        refused
    });
    each_in_turn(|refusal| {
        let mut storage = Storage::new();
        let one = handle(7, 1);
        storage.born(one, BIRTH).expect("memory");
        let (done, refused) = refusing(refusal, || storage.insert(one, &MANY));
        if let Err(error) = done {
            assert!(refused > 0);
            assert_eq!(error, StorageError::Memory);
            assert_eq!(storage.items(one).map(|items| items.len()), Some(0));
            storage.insert(one, &MANY).expect("memory");
        }
        assert!(storage.items(one).expect("there").eq(MANY));
        let (removed, unasked) = refusing(Refusal::All { after: 0 }, || {
            (storage.remove(one, HP), storage.despawn(one))
        });
        assert_eq!((removed, unasked), ((Ok(Some(10)), Ok(())), 0));
        refused
    });
}

/// A world with one entity that has all components, and one that has none.
fn two() -> World {
    let mut world = World::new();
    world.spawn(&MANY).expect("memory");
    world.spawn(&[]).expect("memory");
    world
}

/// An entity with its birth and its components.
type Told = (Handle, Birth, Vec<(ComponentId, i64)>);

fn all(world: &World) -> Vec<Told> {
    let living = world.by_birth().expect("memory");
    let one = |one| {
        let birth = world.birth(one).expect("alive");
        (one, birth, world.items(one).expect("alive").collect())
    };
    living.into_iter().map(one).collect()
}

#[test]
fn calls_of_a_world() {
    let before = all(&two());
    each_in_turn(|refusal| {
        let mut world = two();
        let (done, refused) = refusing(refusal, || world.spawn(&MANY));
        let one = done.unwrap_or_else(|error| {
            assert!(refused > 0);
            assert_eq!((error, all(&world)), (AllocError::Memory, before.clone()));
            world.spawn(&MANY).expect("memory")
        });
        assert_eq!((one, world.len()), (handle(2, 1), 3));
        assert_eq!(world.items(one).map(Vec::from_iter), Some(MANY.to_vec()));
        refused
    });
    each_in_turn(|refusal| {
        let mut world = two();
        let (done, refused) = refusing(refusal, || world.despawn(handle(0, 1)));
        let freed = done.unwrap_or_else(|error| {
            assert!(refused > 0);
            assert_eq!((error, all(&world)), (FreeError::Memory, before.clone()));
            world.despawn(handle(0, 1)).expect("memory")
        });
        assert_eq!((freed.next, world.len()), (Some(handle(0, 2)), 1));
        refused
    });
    each_in_turn(|refusal| {
        let world = two();
        let (list, refused) = insist(refusal, OutOfMemory, || world.by_birth());
        assert_eq!(list, [handle(0, 1), handle(1, 1)]);
        refused
    });
}

#[test]
fn open_gives_the_world_back() {
    let before = all(&two());
    each_block_in_turn(|refusal| {
        let world = two();
        let (opened, refused) = refusing(refusal, || world.open(3));
        let (open, systems) = opened.unwrap_or_else(|unopened| {
            assert!(refused > 0);
            let (world, error) = unopened.into_parts();
            assert_eq!(error, ShareError::Memory);
            assert_eq!(all(&world), before);
            world.open(3).expect("memory")
        });
        let (world, _) = open.close(systems).expect("closed");
        assert_eq!(all(&world), before);
        refused
    });
}

/// A phase of one system of that world.
fn phase() -> (Phase<OpenWorld>, Reserver<OpenWorld>) {
    let (open, mut systems) = two().open(1).expect("opened");
    (open, systems.pop().expect("a system"))
}

/// Ends the phase and lets its queue take effect. What every command has done, each of which was
/// issued once.
fn applied(open: Phase<OpenWorld>, only: Reserver<OpenWorld>) -> (World, Report) {
    let (mut world, queues) = open.close(vec![only]).expect("closed");
    let report = world.apply(queues).expect("memory");
    assert_eq!(report.faults, []);
    (world, report)
}

#[test]
fn a_spawn_by_command_reserves_once() {
    each_in_turn(|refusal| {
        let (open, mut only) = phase();
        let (one, refused) = insist(refusal, ReserveError::Memory, || only.spawn(&MANY));
        let (world, report) = applied(open, only);
        assert_eq!(report.born, [one]);
        assert_eq!(world.items(one).map(Vec::from_iter), Some(MANY.to_vec()));
        refused
    });
    each_in_turn(|refusal| {
        let (open, mut only) = phase();
        let (all, refused) = insist(refusal, ReserveError::Memory, || only.spawn_many(50, &MANY));
        let (world, report) = applied(open, only);
        assert_eq!((report.born, world.len()), (all, 52));
        refused
    });
}

#[test]
fn a_command_is_issued_once() {
    let (first, second) = (handle(0, 1), handle(1, 1));
    each_in_turn(|refusal| {
        let (open, mut only) = phase();
        let (_, refused) = insist(refusal, OutOfMemory, || only.insert(second, &MANY));
        let (world, _) = applied(open, only);
        assert_eq!(world.items(second).map(Vec::from_iter), Some(MANY.to_vec()));
        refused
    });
    each_in_turn(|refusal| {
        let (open, mut only) = phase();
        let (_, refused) = insist(refusal, OutOfMemory, || only.remove(first, HP));
        let (world, _) = applied(open, only);
        assert_eq!(
            world.items(first).map(Vec::from_iter),
            Some(MANY[1..].to_vec())
        );
        refused
    });
    // A second despawn would be a fault.
    each_in_turn(|refusal| {
        let (open, mut only) = phase();
        let (_, refused) = insist(refusal, OutOfMemory, || only.despawn(first));
        let (world, _) = applied(open, only);
        assert_eq!((world.len(), world.contains(first)), (1, false));
        refused
    });
}

/// All that a close needs was asked for by the opening.
#[test]
fn a_close_takes_no_memory() {
    let (open, mut systems) = two().open(3).expect("opened");
    systems[2].insert(handle(1, 1), &[(HP, 2)]).expect("memory");
    systems[1].insert(handle(1, 1), &[(HP, 1)]).expect("memory");
    let (closed, refused) = refusing(Refusal::All { after: 0 }, || open.close(systems));
    assert_eq!(refused, 0);
    let (mut world, queues) = closed.expect("closed");
    world.apply(queues).expect("memory");
    assert_eq!(world.get(handle(1, 1), HP), Some(2));
}

/// A world, and the queues of two systems that spawn, change and despawn, also what isn't alive.
fn with_queues() -> (World, Queues) {
    let (open, mut systems) = two().open(2).expect("opened");
    let new = systems[0].spawn_many(9, &MANY).expect("memory");
    systems[1].spawn(&MANY[2..]).expect("memory");
    systems[0].despawn(handle(0, 1)).expect("memory");
    systems[1].insert(new[3], &[(HP, 99)]).expect("memory");
    systems[1].remove(new[4], HP).expect("memory");
    for one in &new[5..] {
        systems[1].despawn(*one).expect("memory");
        systems[1].insert(*one, &MANY).expect("memory");
    }
    open.close(systems).expect("closed")
}

/// Ends a sync point that may have stopped, with ample memory. All faults. No other world takes
/// what is left of it.
fn ended(world: &mut World, done: Result<Report, SyncError>) -> Vec<Fault> {
    match done {
        Ok(report) => report.faults.to_vec(),
        Err(SyncError::Memory(queues)) => {
            let Err(SyncError::OtherWorld(queues)) = two().apply(queues) else {
                panic!("it is another world");
            };
            world.apply(queues).expect("memory").faults
        }
        Err(SyncError::Stopped(stopped)) => {
            let mut faults = stopped.so_far().faults.clone();
            let elsewhere = stopped.go_on(&mut two()).expect_err("another world");
            let (stopped, GoOnError::OtherWorld) = elsewhere.into_parts() else {
                panic!("it is another world");
            };
            assert_eq!(stopped.so_far().faults, faults);
            faults.extend(stopped.go_on(world).expect("memory").faults);
            faults
        }
        Err(other) => panic!("{other}"),
    }
}

#[test]
fn a_sync_point_goes_on_wherever_it_stopped() {
    let (mut world, queues) = with_queues();
    let wanted = world.apply(queues).expect("memory");
    let (wanted, world) = (wanted.faults, all(&world));
    assert_eq!((wanted.len(), world.len()), (4, 7));
    let mut stops = Vec::new();
    each_in_turn(|refusal| {
        let (mut world_2, queues) = with_queues();
        let (done, refused) = refusing(refusal, || world_2.apply(queues));
        assert!(done.is_ok() || refused > 0);
        if let Err(SyncError::Stopped(stopped)) = &done {
            stops.push(stopped.stop());
        }
        assert_eq!(ended(&mut world_2, done), wanted);
        assert_eq!(all(&world_2), world);
        refused
    });
    // It stopped in the middle of the spawn of many too, and at a fault.
    assert!(
        stops.iter().any(|stop| stop.system == 0 && stop.done > 0),
        "{stops:?}"
    );
    assert!(stops.iter().any(|stop| stop.system == 1), "{stops:?}");
}

/// The components that the first commands of three systems give to the world's second entity. Each
/// number is new in the world, so each command may take memory.
const GIVEN: [&[u8]; 3] = [&[20, 21, 22], &[], &[23, 24]];

/// How many the fourth system spawns at once, after a command without effect.
const SPAWNED: usize = 5;

/// A world, and the queues of four systems.
fn with_places() -> (World, Queues, Vec<Handle>) {
    let (open, mut systems) = two().open(4).expect("opened");
    for (system, given) in systems.iter_mut().zip(GIVEN) {
        for id in given {
            let command = system.insert(handle(1, 1), &[(ComponentId(*id), 1)]);
            command.expect("memory");
        }
    }
    systems[3]
        .remove(handle(1, 1), ComponentId(99))
        .expect("memory");
    let bundle = (30..36).map(|id| (ComponentId(id), 1)).collect::<Vec<_>>();
    let spawned = systems[3].spawn_many(SPAWNED as u32, &bundle);
    let spawned = spawned.expect("memory");
    let (world, queues) = open.close(systems).expect("closed");
    (world, queues, spawned)
}

/// If a sync point stops, only the commands before the place of the stop have taken effect, and of
/// a spawn of many only the first handles. It stops at each place that may take memory.
#[test]
fn the_place_of_a_stop() {
    let mut places = Vec::new();
    each_in_turn(|refusal| {
        let (mut world, queues, spawned) = with_places();
        let (done, refused) = refusing(refusal, || world.apply(queues));
        let Err(SyncError::Stopped(stopped)) = done else {
            return refused;
        };
        let place = stopped.stop();
        let Stop {
            system,
            command,
            done,
        } = place;
        places.push((system, command, done));
        let before = GIVEN.iter().zip(0..).flat_map(|(given, of)| {
            let taken = given.iter().enumerate();
            taken.filter(move |(number, _)| (of, *number) < (system, command))
        });
        let wanted: Vec<_> = before.map(|(_, id)| (ComponentId(*id), 1)).collect();
        let given = world.items(handle(1, 1)).map(Vec::from_iter);
        assert_eq!(given, Some(wanted), "{place:?}");
        for (number, one) in spawned.iter().enumerate() {
            let count = if number < done { 6 } else { 0 };
            let items = world.items(*one).expect("it was born");
            assert_eq!(items.count(), count, "{place:?}, {one}");
        }
        let so_far = format!("{:?}", stopped.so_far());
        let text = format!("Stopped {{ stop: {place:?}, so_far: {so_far}, .. }}");
        assert_eq!(format!("{stopped:?}"), text);
        let error = SyncError::Stopped(stopped);
        assert_eq!(
            error.to_string(),
            format!("out of memory at command {command} of system {system}")
        );
        let stopped = error.into_parts().expect_err("it stopped");
        let elsewhere = stopped.go_on(&mut two()).expect_err("another world");
        assert_eq!(elsewhere.to_string(), "the queues are of another world");
        let (stopped, _) = elsewhere.into_parts();
        assert_eq!(stopped.stop(), place);
        let rest = stopped.go_on(&mut world).expect("memory");
        assert_eq!(rest.faults, []);
        assert_eq!(world.len(), 2 + SPAWNED);
        refused
    });
    for command in [
        (0, 0, 0),
        (0, 1, 0),
        (0, 2, 0),
        (2, 0, 0),
        (2, 1, 0),
        (3, 1, 0),
    ] {
        assert!(places.contains(&command), "{command:?} in {places:?}");
    }
    assert!(places.iter().any(|place| place.2 > 0), "{places:?}");
    let at_spawn = |place: &(usize, usize, usize)| (place.0, place.1) == (3, 1);
    assert!(places.iter().all(|place| place.2 == 0 || at_spawn(place)));
}

/// It has its lists, and lends them and gives them away without memory.
#[test]
fn a_report_takes_no_memory() {
    let (mut world, queues) = with_queues();
    let report = world.apply(queues).expect("memory");
    let (born, faults) = (report.born.to_vec(), report.faults.to_vec());
    let none = Refusal::All { after: 0 };
    let (lent, refused) = refusing(none, || (report.born.len(), report.faults.len()));
    assert_eq!((lent, refused), ((born.len(), faults.len()), 0));
    let (parts, refused) = refusing(none, || (report.born, report.faults));
    assert_eq!((parts, refused), ((born, faults), 0));
}

/// The refusal at which the sync point stops first.
fn first_stop() -> Refusal {
    (0..1_000)
        .map(|after| Refusal::One { after })
        .find(|refusal| {
            let (mut world, queues) = with_queues();
            let (done, _) = refusing(*refusal, || world.apply(queues));
            matches!(done, Err(SyncError::Stopped(_)))
        })
        .expect("it stops")
}

/// It stops as early as it can, and what goes on is refused in turn too.
#[test]
fn what_goes_on_goes_on_again() {
    let (mut world, queues) = with_queues();
    let wanted = world.apply(queues).expect("memory").faults;
    let world = all(&world);
    let first = first_stop();
    each_in_turn(|refusal| {
        let (mut again, queues) = with_queues();
        let (done, _) = refusing(first, || again.apply(queues));
        let Err(SyncError::Stopped(stopped)) = done else {
            panic!("it doesn't stop");
        };
        let mut faults = stopped.so_far().faults.clone();
        let (done, refused) = refusing(refusal, || stopped.go_on(&mut again));
        match done {
            Ok(report) => faults.extend(report.faults),
            Err(unended) => {
                let (stopped, error) = unended.into_parts();
                assert_eq!(error, GoOnError::Memory);
                faults.extend(&stopped.so_far().faults);
                faults.extend(stopped.go_on(&mut again).expect("memory").faults);
            }
        }
        assert_eq!((faults, all(&again)), (wanted.clone(), world.clone()));
        refused
    });
}

#[test]
fn a_flush_of_a_world() {
    each_in_turn(|refusal| {
        let (mut world, queues) = with_queues();
        drop(queues);
        let (_, refused) = insist(refusal, OutOfMemory, || world.flush());
        assert_eq!((world.len(), world.frame()), (12, 1));
        refused
    });
}

#[cfg(feature = "std")]
mod frames {
    use super::*;
    use forgeni::{
        fill_in_blocks, run_frame, run_in_blocks, Blocks, Deals, FrameError, HandedBack, InWorld,
        LogCommands, Overflow, Phase, Reserver, RunError, SharedSource, View, WorldCommands,
    };

    /// Systems that issue commands with handles of this source.
    macro_rules! systems {
        ($module:ident, $Source:ident) => {
            mod $module {
                use super::*;

                type Ran = Result<(), OutOfMemory>;
                type Out<'a> = WorldCommands<'a, $Source>;

                pub fn launch(_: &View<'_>, commands: &mut Out<'_>) -> Ran {
                    commands
                        .spawn_many_with(4, &MANY)
                        .map_or_else(ReserveError::or_memory, |_| Ok(()))
                }

                pub fn change(view: &View<'_>, commands: &mut Out<'_>) -> Ran {
                    for one in view.with(HP)? {
                        commands.insert_with(one, &MANY[1..])?;
                        commands.remove(one, HP)?;
                    }
                    Ok(())
                }

                /// Twice, so that there are faults.
                fn clear(view: &View<'_>, commands: &mut Out<'_>) -> Ran {
                    for one in view.by_birth()? {
                        commands.despawn(one)?;
                        commands.despawn(one)?;
                    }
                    Ok(())
                }

                pub const SYSTEMS: [fn(&View<'_>, &mut Out<'_>) -> Ran; 3] =
                    [launch, change, clear];
            }
        };
    }

    systems!(of_one_cursor, SharedSource);
    systems!(of_blocks, Blocks);
    use of_one_cursor::{change, launch, SYSTEMS};

    /// What a frame with ample memory makes of that world.
    fn after_a_frame() -> (Vec<Fault>, Vec<Told>) {
        let mut world = two();
        let report = run_frame(&StdThreads, &mut world, &SYSTEMS, 1).expect("memory");
        assert_eq!(
            (report.born.len(), report.faults.len(), world.len()),
            (4, 2, 4)
        );
        (report.faults.to_vec(), all(&world))
    }

    /// The world is as before, except for what the systems that ran had reserved.
    fn expect_lost(mut world: World) {
        assert_eq!(all(&world), all(&two()));
        world.flush().expect("memory");
        assert!(world.len() == 2 || world.len() == 6, "{}", world.len());
        let born = world.by_birth().expect("memory");
        let bare = |one: &Handle| world.items(*one).map(Vec::from_iter) == Some(vec![]);
        assert_eq!(born.iter().filter(|one| bare(one)).count(), world.len() - 1);
    }

    #[test]
    fn refused_on_one_thread() {
        let wanted = after_a_frame();
        let (mut before, mut lost, mut unapplied, mut stopped) = (0, 0, 0, 0);
        each_in_turn(|refusal| {
            let mut world = two();
            let (done, refused) =
                refusing(refusal, || run_frame(&StdThreads, &mut world, &SYSTEMS, 1));
            let faults = match done {
                Ok(report) => report.faults.to_vec(),
                Err(FrameError::Memory) => {
                    before += 1;
                    assert_eq!(all(&world), all(&two()));
                    assert!(!world.needs_flush());
                    let again = run_frame(&StdThreads, &mut world, &SYSTEMS, 1);
                    again.expect("memory").faults
                }
                Err(FrameError::Lost(_)) => {
                    lost += 1;
                    expect_lost(world);
                    return refused;
                }
                Err(FrameError::Unapplied(queues)) => {
                    unapplied += 1;
                    ended(&mut world, Err(SyncError::Memory(queues)))
                }
                Err(FrameError::Stopped(at)) => {
                    stopped += 1;
                    ended(&mut world, Err(SyncError::Stopped(at)))
                }
                Err(other) => panic!("{other}"),
            };
            assert_eq!((faults, all(&world)), wanted);
            refused
        });
        assert!(
            before > 0 && lost > 0 && unapplied > 0 && stopped > 0,
            "{before}, {lost}, {unapplied}, {stopped}"
        );
    }

    /// The step of a frame in blocks whose allocation fails.
    #[derive(Clone, Copy, PartialEq)]
    enum Step {
        Fill,
        IntoWorld,
        Apply,
    }

    type Parts = (Phase<InWorld<Blocks>>, Vec<Reserver<InWorld<Blocks>>>);

    /// Blocks of six handles.
    fn opened() -> Parts {
        two().open_in::<Blocks>(&[6; 3]).expect("memory")
    }

    fn used_of(reservers: &[Reserver<InWorld<Blocks>>]) -> Vec<u32> {
        reservers.iter().map(|it| it.used()).collect()
    }

    /// The world after the phase, and how many allocations were refused meanwhile: the close takes
    /// no memory, and the rest is done again if it is refused.
    fn into_world<S: Deals>(
        (phase, reservers): (Phase<InWorld<S>>, Vec<Reserver<InWorld<S>>>),
        refusal: Refusal,
    ) -> (World, usize) {
        let close = || phase.close(reservers).expect("all are here");
        let (ended, unasked) = refusing(Refusal::All { after: 0 }, close);
        assert_eq!(unasked, 0);
        let past = ended.requested_past();
        let (world, refused) = refusing(refusal, || ended.into_world());
        let world = world.or_else(|refusal| {
            assert!(refused > 0);
            let (ended, error) = refusal.into_parts();
            assert_eq!((error, ended.requested_past()), (OutOfMemory, past));
            ended.into_world()
        });
        (world.expect("memory"), refused)
    }

    /// A frame in blocks on one worker, with memory refused in one step: what it comes to, whether
    /// it was broken off, and how many allocations were refused.
    fn in_blocks(at: Step, refusal: Refusal) -> ((Vec<Fault>, Vec<Told>), [usize; 3], usize) {
        let of = |step| if step == at { refusal } else { Refusal::None };
        let (phase, mut reservers) = opened();
        let mut fill =
            || fill_in_blocks(&StdThreads, &phase, &mut reservers, &of_blocks::SYSTEMS, 1);
        let (filled, refused) = refusing(of(Step::Fill), &mut fill);
        let (mut before, mut lost, mut stopped) = (0, 0, 0);
        let queues = match filled {
            Ok(queues) => queues,
            Err(RunError::Memory) => {
                before = 1;
                // Nothing has changed, so the same run succeeds.
                fill().expect("memory")
            }
            Err(RunError::Lost(_)) => {
                lost = 1;
                assert_eq!(used_of(&reservers), [6, 6, 6]);
                let (mut world, _) = into_world((phase, reservers), Refusal::None);
                assert_eq!(all(&world), all(&two()));
                world.flush().expect("memory");
                assert_eq!(world.len(), 2 + 3 * 6);
                return ((vec![], all(&two())), [before, lost, stopped], refused);
            }
            Err(other) => panic!("{other}"),
        };
        assert_eq!(used_of(&reservers), [4, 0, 0]);
        let (mut world, more) = into_world((phase, reservers), of(Step::IntoWorld));
        let (applied, again) = refusing(of(Step::Apply), || world.apply(queues));
        let faults = match applied {
            Ok(report) => report.faults.to_vec(),
            refused => {
                stopped = 1;
                ended(&mut world, refused)
            }
        };
        let told = all(&world);
        world.spawn(&[]).expect("nothing is reserved any more");
        (
            (faults, told),
            [before, lost, stopped],
            refused + more + again,
        )
    }

    #[test]
    fn a_frame_in_blocks_refused_on_one_thread() {
        let (wanted, ..) = in_blocks(Step::Fill, Refusal::None);
        let mut seen = [0; 3];
        for at in [Step::Fill, Step::IntoWorld, Step::Apply] {
            each_in_turn(|refusal| {
                let (done, cases, refused) = in_blocks(at, refusal);
                if cases[1] == 0 {
                    assert!(done == wanted);
                }
                for (seen, case) in seen.iter_mut().zip(cases) {
                    *seen += case;
                }
                refused
            });
        }
        assert!(seen.iter().all(|times| *times > 0), "{seen:?}");
    }

    /// What opens a phase in blocks: in `S`, of a world or an allocator.
    type Opens<S, T> =
        fn(T, &[u32]) -> Result<(Phase<S>, Vec<Reserver<S>>), HandedBack<T, ShareError>>;

    /// A world that isn't opened in blocks is handed back.
    #[test]
    fn a_world_is_handed_back_if_its_blocks_are_refused() {
        fn refuses<S: Deals>(open: Opens<InWorld<S>, World>) {
            let before = all(&two());
            each_block_in_turn(|refusal| {
                let world = two();
                let (opened, refused) = refusing(refusal, || open(world, &[6; 3]));
                let parts = opened.unwrap_or_else(|unopened| {
                    assert!(refused > 0);
                    let (world, error) = unopened.into_parts();
                    assert_eq!(error, ShareError::Memory);
                    assert_eq!(all(&world), before);
                    open(world, &[6; 3]).expect("memory")
                });
                let (world, _) = into_world(parts, Refusal::None);
                assert_eq!((all(&world), world.needs_flush()), (before.clone(), false));
                refused
            });
        }
        refuses::<Blocks>(World::open_in::<Blocks>);
        refuses::<Overflow>(World::open_in::<Overflow>);
    }

    /// An allocator that isn't shared in blocks is handed back. What the phase ends with gives it
    /// when there is memory.
    #[test]
    fn an_allocator_is_handed_back_if_its_blocks_are_refused() {
        fn refuses<S: Deals>(open: Opens<S, Entities>) {
            each_block_in_turn(|refusal| {
                let entities = three();
                let (opened, refused) = refusing(refusal, || open(entities, &[6; 3]));
                let (phase, mut reservers) = opened.unwrap_or_else(|unopened| {
                    assert!(refused > 0);
                    let (entities, error) = unopened.into_parts();
                    assert_eq!(error, ShareError::Memory);
                    assert_eq!((entities.len(), entities.top()), (2, 1));
                    assert!(!entities.needs_flush());
                    open(entities, &[6; 3]).expect("memory")
                });
                reservers[2].reserve_many(4).expect("of the block");
                let close = || phase.close(reservers).expect("all are here");
                let (ended, unasked) = refusing(Refusal::All { after: 0 }, close);
                assert_eq!(unasked, 0);
                let (entities, more) = refusing(refusal, || ended.into_entities());
                let entities = entities.or_else(|unended| {
                    assert!(more > 0);
                    let (ended, error) = unended.into_parts();
                    assert_eq!((error, ended.requested_past()), (OutOfMemory, 0));
                    ended.into_entities()
                });
                let entities = entities.expect("memory");
                assert_eq!((entities.len(), entities.reserved()), (2, 4));
                refused + more
            });
        }
        refuses::<Blocks>(Entities::share_in::<Blocks>);
        refuses::<Overflow>(Entities::share_in::<Overflow>);
    }

    /// The world after blocks that were used, and past them, is made again if memory ran out.
    #[test]
    fn a_world_behind_blocks_that_are_used() {
        each_in_turn(|refusal| {
            let (phase, mut reservers) = two().open_in::<Overflow>(&[2, 40]).expect("memory");
            for wanted in [2, 3] {
                reservers[0].reserve_many(wanted).expect("a handle");
            }
            let (mut world, refused) = into_world((phase, reservers), refusal);
            world.flush().expect("memory");
            assert_eq!(world.len(), 2 + 5);
            refused
        });
    }

    /// What is left of a block is lost with its reserver. What such a phase ends with gives the
    /// world when there is memory.
    #[test]
    fn a_world_in_blocks_closed_without_its_reservers() {
        each_in_turn(|refusal| {
            let (phase, reservers) = opened();
            drop(reservers);
            let (ended, unasked) = refusing(Refusal::All { after: 0 }, || phase.close_lost(vec![]));
            assert_eq!(unasked, 0);
            let ended = ended.expect("nobody else has one");
            let (world, refused) = refusing(refusal, || ended.into_world());
            let world = world.or_else(|refused| refused.into_parts().0.into_world());
            let mut world = world.expect("memory");
            world.flush().expect("memory");
            assert_eq!(world.len(), 2 + 3 * 6);
            refused
        });
    }

    /// A run of logs in blocks: refused before a system runs, nothing has changed. Later the logs
    /// are lost, and the blocks are used up.
    #[test]
    fn logs_in_blocks_refused_on_one_thread() {
        let fills = |commands: &mut LogCommands<'_, u64, Blocks>| -> Result<(), OutOfMemory> {
            for number in 0..5 {
                commands
                    .spawn()
                    .map_or_else(ReserveError::or_memory, |_| Ok(()))?;
                commands.push(number)?;
            }
            Ok(())
        };
        let (mut before, mut lost) = (0, 0);
        each_in_turn(|refusal| {
            let (phase, mut reservers) = opened();
            let mut run = || run_in_blocks(&StdThreads, &phase, &mut reservers, &[fills; 3], 1);
            let (ran, refused) = refusing(refusal, &mut run);
            let ran = match ran {
                Err(RunError::Memory) => {
                    before += 1;
                    run()
                }
                ran => ran,
            };
            let count = match ran {
                Ok(logs) => {
                    assert!(logs.iter().all(|log| log.len() == 10));
                    5
                }
                Err(error) => {
                    lost += 1;
                    assert!(matches!(error, RunError::Lost(_)));
                    6
                }
            };
            assert_eq!(used_of(&reservers), [count; 3]);
            let (mut world, _) = into_world((phase, reservers), Refusal::None);
            world.flush().expect("memory");
            assert_eq!(world.len(), 2 + 3 * count as usize);
            refused
        });
        assert!(before > 0 && lost > 0, "{before}, {lost}");
    }

    /// Allocations fail only on the worker that runs the system: starting a thread needs memory,
    /// and Rust has no form of it that returns an error.
    #[test]
    fn refused_on_a_worker() {
        for workers in [1, 2, 3] {
            in_turn(
                |after| Refusal::All { after },
                |refusal| {
                    let mut world = two();
                    let refused = std::sync::atomic::AtomicUsize::new(0);
                    let system = |view: &View<'_>, commands: &mut WorldCommands<'_>| {
                        let (ran, times) = refusing(refusal, || {
                            launch(view, commands)?;
                            change(view, commands)
                        });
                        refused.store(times, std::sync::atomic::Ordering::Relaxed);
                        ran
                    };
                    let ran = run_frame(&StdThreads, &mut world, &[system], workers);
                    let refused = refused.into_inner();
                    match ran {
                        Ok(report) => assert_eq!((report.born.len(), refused), (4, 0)),
                        Err(FrameError::Lost(_)) => expect_lost(world),
                        Err(other) => panic!("{other}"),
                    }
                    refused
                },
            );
        }
    }
}

/// Set in a process of its own: which request is refused there, and of which call.
const ONE_REFUSED: &str = "FORGENI_ONE_REFUSED";

/// Makes that call while one request is refused. It makes no more requests than a few.
fn with_one_refused(call: &str, after: usize) {
    use forgeni::{Blocks, Overflow};

    let refusal = Refusal::One { after };
    match call {
        "share" => {
            let entities = three();
            let (shared, refused) = refusing(refusal, || entities.share(5));
            assert_eq!(shared.is_err(), refused > 0);
        }
        "blocks" => {
            let entities = three();
            let (shared, refused) = refusing(refusal, || entities.share_in::<Blocks>(&[3; 5]));
            assert_eq!(shared.is_err(), refused > 0);
        }
        "behind" => {
            let entities = three();
            let (shared, refused) = refusing(refusal, || entities.share_in::<Overflow>(&[3; 5]));
            assert_eq!(shared.is_err(), refused > 0);
        }
        "world" => {
            let world = two();
            let (opened, refused) = refusing(refusal, || world.open_in::<Blocks>(&[3; 5]));
            assert_eq!(opened.is_err(), refused > 0);
        }
        "world_behind" => {
            let world = two();
            let (opened, refused) = refusing(refusal, || world.open_in::<Overflow>(&[3; 5]));
            assert_eq!(opened.is_err(), refused > 0);
        }
        _ => {
            let world = two();
            let (opened, refused) = refusing(refusal, || world.open(3));
            assert_eq!(opened.is_err(), refused > 0);
        }
    }
}

/// Of all requests of a call that opens a phase one can't be refused: that of the `Arc`, if another
/// thread has taken the memory that was there for it. It ends the process, as the docs say.
#[test]
fn one_request_ends_the_process() {
    let name = "one_request_ends_the_process";
    if let Ok(set) = std::env::var(ONE_REFUSED) {
        let (call, after) = set.split_once(' ').expect("two words");
        return with_one_refused(call, after.parse().expect("a number"));
    }
    for call in ["share", "open", "blocks", "behind", "world", "world_behind"] {
        let ends = |after: &usize| {
            let program = this_program();
            let run = std::process::Command::new(&program[0])
                .args(&program[1..])
                .args(["--exact", name])
                .env(ONE_REFUSED, format!("{call} {after}"))
                .output()
                .expect("a process");
            let said = String::from_utf8_lossy(&run.stderr).into_owned();
            let aborted = said.contains("memory allocation of") && said.contains("failed");
            assert_eq!(run.status.success(), !aborted, "{call} {after}: {said}");
            aborted
        };
        assert_eq!((0..12).filter(ends).count(), 1, "{call}");
    }
}

/// A value for which a sparse map ran out of memory comes back, and a clone that is refused changes
/// neither map.
#[test]
fn calls_of_a_sparse_map() {
    let none = Refusal::All { after: 0 };
    for index in [100, 70_001] {
        each_in_turn(|refusal| {
            let mut map = SparseMap::new();
            let one = handle(index, 2);
            let (inserted, refused) = refusing(refusal, || map.insert(one, 7));
            if let Err(back) = inserted {
                assert!(refused > 0);
                assert_eq!(back.into_parts(), (7, InsertError::Memory));
                assert_eq!((map.len(), map.get(one)), (0, None));
                assert!(map.insert(one, 7).expect("memory").is_none());
            }
            assert_eq!((map.len(), map.get(one)), (1, Some(&7)));

            // What has its slot takes no more.
            let (done, unasked) = refusing(none, || {
                let before = map.insert(one, 8).map_err(InsertError::from);
                let below = map.insert(handle(99, 1), 9).map_err(InsertError::from);
                let removed = map.remove(one);
                (before, below, removed)
            });
            assert_eq!((done, unasked), ((Ok(Some(7)), Ok(None), Some(8)), 0));

            let (clone, more) = insist(refusal, OutOfMemory, || map.try_clone());
            assert_eq!((clone.len(), clone.get(handle(99, 1))), (1, Some(&9)));
            let mut target: SparseMap<i32> = SparseMap::with_limit(7);
            target.insert(handle(6, 1), 5).expect("memory");
            let (cloned, again) = refusing(refusal, || target.try_clone_from(&map));
            if cloned.is_err() {
                assert!(again > 0);
                assert_eq!((target.len(), target.limit()), (1, 7));
                target.try_clone_from(&map).expect("memory");
            }
            assert!(target == map);
            target.clear();
            let (cloned, unasked) = refusing(none, || target.try_clone_from(&map));
            assert_eq!((cloned, unasked), (Ok(()), 0));
            assert!(target == clone);
            refused + more + again
        });
    }
}

/// Ten strings among a million slots take at most 5 MB, in whatever order they come.
#[test]
fn ten_among_a_million() {
    let slots: Vec<u32> = (0..10).map(|number| 999_999 - number * 99_999).collect();
    let scattered: Vec<u32> = (0..10).map(|at| slots[at * 7 % 10]).collect();
    for order in [
        slots.clone(),
        slots.iter().rev().copied().collect(),
        scattered,
    ] {
        let (map, bytes) = held(|| {
            let values = order
                .iter()
                .map(|index| (handle(*index, 1), index.to_string()));
            values.collect::<SparseMap<String>>()
        });
        assert!(map.slots() >= 1_000_000 && bytes <= 5_000_000, "{bytes}");
        assert_eq!((map.iter().count(), map.entries().len()), (10, 10));
    }
}
