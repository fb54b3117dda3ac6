//! Images of worlds: one byte by byte, as docs/FORMATS.md has it, and bytes that are none.

use crate::common::handle;
use forgeni::{Birth, ComponentId, Entities, ImageFault, Limits, StorageImageFault};
use forgeni::{SyncError, World, WorldImageFault};

const SPEED: ComponentId = ComponentId(0);

/// One entity that was spawned, with one component.
fn small() -> World {
    let mut world = World::with_limits(Limits::new(9, 2).expect("limits"));
    world.spawn(&[(SPEED, 40)]).expect("memory");
    world
}

/// Its image. The letters are `FORGENW` and `FORGENI`.
const SMALL: [&[u8]; 19] = [
    b"FORGENW\0",
    // The version, how often the world was flushed, and the length of the allocator's part.
    &[1, 0, 0, 0],
    &[0, 0, 0, 0, 0, 0, 0, 0],
    &[52, 0, 0, 0, 0, 0, 0, 0],
    // The allocator's part: version, limits, one slot that was made, none waits, none is reserved.
    b"FORGENI\0",
    &[1, 0, 0, 0],
    &[9, 0, 0, 0],
    &[2, 0, 0, 0],
    &[1, 0, 0, 0],
    &[0, 0, 0, 0],
    &[0, 0, 0, 0],
    &[0, 0, 0, 0, 0, 0, 0, 0],
    // Slot 0: its generation, and a living entity without a row.
    &[1, 0, 0, 0, 1, 0, 0, 0, 0, 0, 0, 0],
    // The entities' part: one component, and the birth 0.4294967295.0.
    &[1, 0, 0, 0],
    &[0, 0, 0, 0, 0, 0, 0, 0],
    &[255, 255, 255, 255, 0, 0, 0, 0],
    // It has component 0, and its value.
    &[1],
    &[40, 0, 0, 0, 0, 0, 0, 0],
    // How many `spawn` made since the last flush.
    &[1, 0, 0, 0],
];

/// Where the parts of the small image begin.
const LEN: usize = 20;
const ALLOCATOR: usize = 28;
const ENTITIES: usize = 80;
const COUNT: usize = 109;

fn written(world: &World) -> Vec<u8> {
    let mut image = vec![];
    world.write_image(&mut image).expect("memory");
    image
}

/// The small image with other bytes from this place on.
fn with(at: usize, bytes: &[u8]) -> Vec<u8> {
    let mut image = SMALL.concat();
    image[at..at + bytes.len()].copy_from_slice(bytes);
    image
}

fn fault(image: &[u8]) -> Option<WorldImageFault> {
    World::read_image(image).err()
}

#[test]
fn an_image_byte_by_byte() {
    let image = SMALL.concat();
    assert_eq!(image.len(), 113);
    assert_eq!(written(&small()), image);

    // It is appended.
    let mut list = vec![5, 5];
    small().write_image(&mut list).expect("memory");
    assert_eq!((&list[..2], &list[2..]), (&[5, 5][..], &image[..]));
}

#[test]
fn what_is_read_goes_on_alike() {
    let mut again = World::read_image(&SMALL.concat()).expect("an image");
    let cart = handle(0, 1);
    assert_eq!((again.len(), again.frame(), again.retired()), (1, 0, 0));
    assert_eq!(again.get(cart, SPEED), Some(40));
    let birth = |ordinal| Birth {
        frame: 0,
        system: u32::MAX,
        ordinal,
    };
    assert_eq!(again.birth(cart), Some(birth(0)));
    // The count of those that were spawned goes on.
    assert_eq!(again.spawn(&[]), Ok(handle(1, 1)));
    assert_eq!(again.birth(handle(1, 1)), Some(birth(1)));
    again.despawn(cart).expect("alive");
    assert_eq!(again.spawn(&[]), Ok(handle(0, 2)));
}

#[test]
fn an_empty_world() {
    let image = written(&World::new());
    assert_eq!(image.len(), 28 + 40 + 4 + 4);
    let mut again = World::read_image(&image).expect("an image");
    assert!(again.is_empty() && !again.needs_flush());
    assert_eq!(again.spawn(&[]), Ok(handle(0, 1)));
}

/// What the systems of a phase had reserved is in the image, and their queues are refused.
#[test]
fn with_requests_outstanding() {
    let (open, mut systems) = small().open(2).expect("a phase");
    let born = systems[0].spawn(&[(SPEED, 1)]).expect("memory");
    let (world, queues) = open.close(systems).expect("all queues");
    let mut again = World::read_image(&written(&world)).expect("an image");
    assert!(again.needs_flush() && again.len() == 1);

    let error = again.apply(queues).expect_err("another world");
    assert!(matches!(error, SyncError::OtherWorld(_)), "{error}");
    again.flush().expect("memory");
    assert_eq!((again.len(), again.frame()), (2, 1));
    assert_eq!((again.contains(born), again.get(born, SPEED)), (true, None));
}

#[test]
fn what_is_no_image() {
    let mut allocator = vec![];
    Entities::new().write_image(&mut allocator).expect("memory");
    for bytes in [
        &b""[..],
        b"FOR",
        b"FORGENW",
        b"FORGENW\0",
        b"an image of another program",
        &allocator,
    ] {
        assert_eq!(fault(bytes), Some(WorldImageFault::Magic), "{bytes:?}");
    }
}

#[test]
fn an_image_that_is_cut() {
    let image = SMALL.concat();
    for len in 0..image.len() {
        let expected = match len {
            0..12 => WorldImageFault::Magic,
            12..84 => WorldImageFault::Length,
            84..88 => WorldImageFault::Storage(StorageImageFault::Length),
            _ => WorldImageFault::Storage(StorageImageFault::Entity { place: 0 }),
        };
        assert_eq!(fault(&image[..len]), Some(expected), "{len} bytes");
    }
    let longer = [&image[..], &[0]].concat();
    let expected = WorldImageFault::Storage(StorageImageFault::Length);
    assert_eq!(fault(&longer), Some(expected));
}

#[test]
fn the_first_fault_and_its_place() {
    let width = |width| WorldImageFault::Storage(StorageImageFault::Width { width });
    let entity = WorldImageFault::Storage(StorageImageFault::Entity { place: 0 });
    let cases: &[(usize, &[u8], WorldImageFault)] = &[
        (0, b"f", WorldImageFault::Magic),
        (8, &[2], WorldImageFault::Version { version: 2 }),
        (
            8,
            &[0, 0, 0, 1],
            WorldImageFault::Version { version: 1 << 24 },
        ),
        // A part that is longer than all bytes. Nothing is allocated for it.
        (LEN, &[255; 8], WorldImageFault::Length),
        (LEN, &[82], WorldImageFault::Length),
        (
            LEN,
            &[40],
            WorldImageFault::Entities(ImageFault::Length { expected: 52 }),
        ),
        (
            ALLOCATOR,
            b"FORGENW",
            WorldImageFault::Entities(ImageFault::Magic),
        ),
        (
            ALLOCATOR + 40,
            &[3],
            WorldImageFault::Entities(ImageFault::Slot { index: 0 }),
        ),
        // The entity has row 0.
        (ALLOCATOR + 44, &[2], WorldImageFault::Row { index: 0 }),
        // Slot 0 is retired, and there are bytes of an entity.
        (
            ALLOCATOR + 40,
            &[0; 8],
            WorldImageFault::Storage(StorageImageFault::Length),
        ),
        (ENTITIES, &[1, 1], width(257)),
        (ENTITIES, &[255; 4], width(u32::MAX)),
        (ENTITIES, &[2], entity),
        // The last component is missing.
        (
            ENTITIES,
            &[0],
            WorldImageFault::Storage(StorageImageFault::Length),
        ),
        // A component is there or not.
        (ENTITIES + 20, &[2], entity),
    ];
    for (at, bytes, expected) in cases {
        assert_eq!(
            fault(&with(*at, bytes)),
            Some(*expected),
            "{bytes:?} at {at}"
        );
    }
}

/// What is read after one byte was changed has the changed bytes for its image, or else is refused.
#[test]
fn one_byte_changed() {
    let image = SMALL.concat();
    let mut read = 0;
    for at in 0..image.len() {
        for value in 0..=u8::MAX {
            if let Ok(world) = World::read_image(&with(at, &[value])) {
                assert_eq!(written(&world), with(at, &[value]), "{value} at {at}");
                read += 1;
            }
        }
    }
    // Each value of a phase, a birth, a component and the count is one.
    assert!(read > 256 * (8 + 16 + 8 + 4), "{read} images");
    assert!(World::read_image(&with(COUNT, &[255; 4])).is_ok());
}

/// Entities of all components and of none, and slots of every kind.
#[test]
fn many_entities() {
    let mut world = World::with_limits(Limits::new(20_000, 2).expect("limits"));
    for number in 0..10_000_i64 {
        let components: Vec<_> = (0..=255)
            .filter(|id| number % 256 == i64::from(*id) || number % 1_000 == 1)
            .map(|id| (ComponentId(id), i64::MIN + number))
            .collect();
        world.spawn(&components).expect("memory");
    }
    for index in (0..10_000).step_by(3) {
        world.despawn(handle(index, 1)).expect("alive");
    }
    let image = written(&world);
    let again = World::read_image(&image).expect("an image");
    assert_eq!(again.by_birth(), world.by_birth());
    for entity in world.by_birth().expect("memory") {
        assert_eq!(again.birth(entity), world.birth(entity));
        assert!(again
            .items(entity)
            .into_iter()
            .flatten()
            .eq(world.items(entity).expect("alive")));
    }
    assert_eq!(written(&again), image);
}
