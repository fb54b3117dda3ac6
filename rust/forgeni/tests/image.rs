//! Images of allocators: one byte by byte, as docs/FORMATS.md has it, and bytes that are none.

use crate::common::handle;
use forgeni::{Entities, Handle, ImageFault, Limits, State};

/// Nine slots of two generations, of which five were made. 0v1 lives with the row 7, and 4v1
/// without one. Slot 1 is retired. Slot 2 waits, and so does slot 3, which was freed after it.
/// Three handles were requested.
fn small() -> Entities {
    let mut entities = Entities::with_limits(Limits::new(9, 2).expect("limits"));
    entities.alloc_many(5).expect("handles");
    entities.try_set_row(handle(0, 1), 7).expect("alive");
    entities.free(handle(1, 1)).expect("alive");
    assert_eq!(entities.alloc(), Ok(handle(1, 2)));
    entities.free(handle(1, 2)).expect("alive");
    entities.free(handle(2, 1)).expect("alive");
    entities.free(handle(3, 1)).expect("alive");
    entities.request_many(3).expect("handles");
    entities
}

/// Its image, word by word. The letters are `FORGENI`.
const SMALL: [[u8; 4]; 25] = [
    [0x46, 0x4f, 0x52, 0x47],
    [0x45, 0x4e, 0x49, 0],
    // The version, the limits, the slots that were made, those that wait, and what is reserved.
    [1, 0, 0, 0],
    [9, 0, 0, 0],
    [2, 0, 0, 0],
    [5, 0, 0, 0],
    [2, 0, 0, 0],
    [3, 0, 0, 0],
    // What was asked for, in eight bytes.
    [3, 0, 0, 0],
    [0, 0, 0, 0],
    // Slot 0: its generation, a living entity with a row, and the row.
    [1, 0, 0, 0],
    [2, 0, 0, 0],
    [7, 0, 0, 0],
    // Slot 1 is retired.
    [0, 0, 0, 0],
    [0, 0, 0, 0],
    [0, 0, 0, 0],
    // Slots 2 and 3: the generations of their next entities, and that they wait, at which position.
    [2, 0, 0, 0],
    [3, 0, 0, 0],
    [0, 0, 0, 0],
    [2, 0, 0, 0],
    [3, 0, 0, 0],
    [1, 0, 0, 0],
    // Slot 4: a living entity without a row.
    [1, 0, 0, 0],
    [1, 0, 0, 0],
    [0, 0, 0, 0],
];

/// Where the words of the small image stand.
const VERSION: usize = 2;
const SLOTS: usize = 3;
const GENERATIONS: usize = 4;
const MADE: usize = 5;
const WAITING: usize = 6;
const RESERVED: usize = 7;
const ASKED: usize = 8;
const SLOT: [usize; 5] = [10, 13, 16, 19, 22];

fn written(entities: &Entities) -> Vec<u8> {
    let mut image = vec![];
    entities.write_image(&mut image).expect("memory");
    image
}

/// The small image with other words at these places.
fn with(words: &[(usize, u32)]) -> Vec<u8> {
    let mut image = SMALL;
    for &(at, word) in words {
        image[at] = word.to_le_bytes();
    }
    image.concat()
}

fn fault(image: &[u8]) -> Option<ImageFault> {
    Entities::read_image(image).err()
}

#[test]
fn an_image_byte_by_byte() {
    let image = SMALL.concat();
    assert_eq!(written(&small()), image);

    // It is appended.
    let mut list = vec![5, 5];
    small().write_image(&mut list).expect("memory");
    assert_eq!((&list[..2], &list[2..]), (&[5, 5][..], &image[..]));
}

#[test]
fn what_is_read_goes_on_alike() {
    let mut again = Entities::read_image(&SMALL.concat()).expect("an image");
    assert_eq!(
        again.iter().collect::<Vec<_>>(),
        [handle(0, 1), handle(4, 1)]
    );
    assert_eq!(
        (again.row(handle(0, 1)), again.row(handle(4, 1))),
        (Some(7), None)
    );
    assert_eq!(
        (again.total(), again.room(), again.top(), again.retired()),
        (5, 4, 2, 1)
    );
    assert_eq!(
        (again.asked(), again.reserved(), again.cursor()),
        (3, 3, -1)
    );
    assert_eq!(again.state(handle(5, 1)), State::Reserved);

    // The flush brings to life what was requested before the image was written.
    let mut born = vec![];
    again.flush(&mut born).expect("memory");
    assert_eq!(born, [handle(5, 1), handle(2, 2), handle(3, 2)]);
    // No slot waits any more, so the next handle is of a slot that was never made.
    assert_eq!(again.alloc(), Ok(handle(6, 1)));
}

#[test]
fn an_empty_allocator() {
    let image = written(&Entities::with_limits(Limits::new(3, 1).expect("limits")));
    assert_eq!(image.len(), 40);
    let mut again = Entities::read_image(&image).expect("an image");
    assert_eq!((again.total(), again.room()), (0, 3));
    assert_eq!(again.alloc(), Ok(handle(0, 1)));
}

#[test]
fn what_is_no_image() {
    let cases: [(&[u8], ImageFault); 4] = [
        (b"", ImageFault::Magic),
        (b"FORGEN", ImageFault::Magic),
        (b"an image of another program", ImageFault::Magic),
        (b"FORGENI\0", ImageFault::Length { expected: 40 }),
    ];
    for (bytes, expected) in cases {
        assert_eq!(fault(bytes), Some(expected), "{bytes:?}");
    }
}

#[test]
fn an_image_that_is_cut() {
    let image = SMALL.concat();
    for len in 0..image.len() {
        let expected = match len {
            0..8 => ImageFault::Magic,
            8..40 => ImageFault::Length { expected: 40 },
            _ => ImageFault::Length { expected: 100 },
        };
        assert_eq!(fault(&image[..len]), Some(expected), "{len} bytes");
    }
    let longer = [&image[..], &[0]].concat();
    assert_eq!(fault(&longer), Some(ImageFault::Length { expected: 100 }));
}

#[test]
fn the_first_fault_and_its_place() {
    const MOST: u32 = u32::MAX;
    let slot = |index| ImageFault::Slot { index };
    let position = |position| ImageFault::Position { position };
    let cases: &[(&[(usize, u32)], ImageFault)] = &[
        (&[(0, 0)], ImageFault::Magic),
        (&[(VERSION, 2)], ImageFault::Version { version: 2 }),
        (
            &[(VERSION, 0), (SLOTS, 0)],
            ImageFault::Version { version: 0 },
        ),
        (&[(SLOTS, 0)], ImageFault::Limits),
        (&[(GENERATIONS, 0)], ImageFault::Limits),
        (&[(GENERATIONS, 1 << 31)], ImageFault::Limits),
        (&[(MADE, 10)], ImageFault::Counts),
        (&[(MADE, MOST)], ImageFault::Counts),
        (&[(WAITING, 6)], ImageFault::Counts),
        (&[(WAITING, MOST)], ImageFault::Counts),
        // Counts that are consistent, of slots that are missing. Nothing is allocated for them.
        (
            &[(SLOTS, MOST), (MADE, MOST), (WAITING, 3)],
            ImageFault::Length {
                expected: 40 + 12 * 4_294_967_295,
            },
        ),
        // As many bytes as there are, if they are counted in 32 bits.
        (
            &[(SLOTS, MOST), (MADE, (1 << 30) + 5), (WAITING, 3)],
            ImageFault::Length {
                expected: 40 + 12 * 1_073_741_829,
            },
        ),
        // Fewer are reserved than were asked for, though there were enough, or more.
        (&[(RESERVED, 2)], ImageFault::Requests),
        (&[(RESERVED, 4)], ImageFault::Requests),
        // Six handles are there to be given: two of old slots, and four of fresh ones.
        (&[(RESERVED, 7), (ASKED, 7)], ImageFault::Requests),
        // 2^50 and one more.
        (
            &[(RESERVED, 0), (ASKED, 1), (ASKED + 1, 1 << 18)],
            ImageFault::Requests,
        ),
        // A generation below and past the limits.
        (&[(SLOT[0], 0)], slot(0)),
        (&[(SLOT[0], 3)], slot(0)),
        (&[(SLOT[2], 0)], slot(2)),
        (&[(SLOT[3], 3)], slot(3)),
        // A kind that there isn't, and rows of a slot without one.
        (&[(SLOT[4] + 1, 4)], slot(4)),
        (&[(SLOT[4] + 2, 9)], slot(4)),
        (&[(SLOT[1] + 2, 9)], slot(1)),
        // A retired slot has no generation.
        (&[(SLOT[1], 2)], slot(1)),
        // Two slots at one position, and a position past the last.
        (&[(SLOT[3] + 2, 0)], slot(3)),
        (&[(SLOT[3] + 2, 2)], slot(3)),
        (&[(SLOT[4] + 1, 3), (SLOT[4] + 2, 1)], slot(4)),
        (&[(SLOT[4] + 1, 3), (SLOT[4] + 2, MOST)], slot(4)),
        // A position without a slot: the one that waited there lives, or there is one more.
        (&[(SLOT[2] + 1, 1)], position(0)),
        (&[(SLOT[3] + 1, 2), (SLOT[2] + 2, 1)], position(0)),
        (&[(WAITING, 3)], position(2)),
        // The first of two faults.
        (&[(SLOT[0], 0), (SLOT[4], 0)], slot(0)),
        (&[(WAITING, 3), (SLOT[4], 0)], slot(4)),
    ];
    for (words, expected) in cases {
        assert_eq!(fault(&with(words)), Some(*expected), "{words:?}");
    }
}

#[test]
fn requests_that_were_refused() {
    // Seven handles were asked for, of which none is reserved: the first request was for too many.
    let image = with(&[(RESERVED, 0), (ASKED, 7)]);
    let mut again = Entities::read_image(&image).expect("an image");
    assert_eq!(
        (again.asked(), again.reserved(), again.cursor()),
        (7, 0, -5)
    );
    let mut born = vec![];
    again.flush(&mut born).expect("memory");
    assert_eq!((born, again.alloc()), (vec![], Ok(handle(3, 2))));

    // 2^50 is the most.
    let image = with(&[(RESERVED, 6), (ASKED, 0), (ASKED + 1, 1 << 18)]);
    let again = Entities::read_image(&image).expect("an image");
    assert_eq!((again.asked(), again.reserved()), (1 << 50, 6));
}

/// What is read after one byte was changed has the changed bytes for its image, or else is refused.
#[test]
fn one_byte_changed() {
    let image = SMALL.concat();
    let mut read = 0;
    for at in 0..image.len() {
        for value in 0..=u8::MAX {
            let mut changed = image.clone();
            changed[at] = value;
            if let Ok(entities) = Entities::read_image(&changed) {
                assert_eq!(written(&entities), changed, "{value} at {at}");
                read += 1;
            }
        }
    }
    // Each value of a row is one, and so are some of the limits, and what was there.
    assert!(read > 100, "{read} images");
}

/// More slots than any small table has, with handles of every kind.
#[test]
fn many_slots() {
    const COUNT: u32 = 100_000;
    let mut entities = Entities::with_limits(Limits::new(200_000, 2).expect("limits"));
    let handles = entities.alloc_many(COUNT).expect("handles");
    for one in handles.iter().filter(|one| one.index() % 3 == 0) {
        entities.try_set_row(*one, !one.index()).expect("alive");
    }
    // Every fifth slot has an entity that is freed, and every tenth one that is freed again.
    for one in handles.iter().filter(|one| one.index() % 10 == 0) {
        let next = entities.free(*one).expect("alive").next;
        assert_eq!(entities.alloc().ok(), next);
        entities.free(next.expect("one more")).expect("alive");
    }
    for one in handles.iter().filter(|one| one.index() % 10 == 5) {
        entities.free(*one).expect("alive");
    }
    entities.request_many(30_000).expect("handles");

    let image = written(&entities);
    assert_eq!(image.len(), 40 + 12 * 100_000);
    let mut again = Entities::read_image(&image).expect("an image");
    assert_eq!(
        (again.len(), again.top(), again.retired()),
        (80_000, 10_000, 10_000)
    );
    assert!(again.iter().eq(entities.iter()));
    assert!(again.iter().all(|one| again.row(one) == entities.row(one)));
    let mut born: [Vec<Handle>; 2] = [vec![], vec![]];
    entities.flush(&mut born[0]).expect("memory");
    again.flush(&mut born[1]).expect("memory");
    assert_eq!((born[0].len(), &born[0]), (30_000, &born[1]));
    assert_eq!(written(&again), written(&entities));
}
