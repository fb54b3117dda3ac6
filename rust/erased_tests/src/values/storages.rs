//! Entities as bytes: a worked image, each change of it, and one of many entities.

use crate::components::{Rows, StorageImageFault};
use crate::handles::write_word;
use crate::handles::{Birth, ComponentId, Handle};

/// Width 2. The first entity has the component 1, and the second one none.
const IMAGE: [u8; 48] = [
    2, 0, 0, 0, // the width
    1, 0, 0, 0, 0, 0, 0, 0, 2, 0, 0, 0, 3, 0, 0, 0, // frame 1, system 2, ordinal 3
    0, 1, 0xfe, 0xff, 0xff, 0xff, 0xff, 0xff, 0xff,
    0xff, // no component 0, and component 1 is -2
    2, 1, 0, 0, 0, 0, 0, 0, 0xff, 0xff, 0xff, 0xff, 0, 0, 0,
    0, // frame 258, no system, ordinal 0
    0, 0, // no components
];

fn handles() -> [Handle; 2] {
    [(0, 1), (2, 7)].map(|(index, generation)| Handle::new(index, generation).expect("a handle"))
}

/// The image of the entities, each at the place of its handle.
fn image(rows: &Rows, handles: &[Handle]) -> Vec<u8> {
    let width = rows.width();
    let mut out = Vec::with_capacity(4 + handles.len() * (16 + 9 * width as usize));
    write_word(&mut out, width);
    for (place, handle) in handles.iter().enumerate() {
        rows.write_entity(place, *handle, width, &mut out);
    }
    out
}

#[test]
fn worked_image() {
    let [first, second] = handles();
    let rows = Rows::read_image(&handles(), 2, &IMAGE).expect("two entities");
    let birth = |frame, system, ordinal| Birth {
        frame,
        system,
        ordinal,
    };
    assert_eq!(rows.birth_at(0, first), birth(1, 2, 3));
    assert_eq!(rows.birth_at(1, second), birth(258, u32::MAX, 0));
    assert!(rows.items_at(0, first).eq([(ComponentId(1), -2)]));
    assert_eq!(rows.items_at(1, second).count(), 0);
    assert_eq!(image(&rows, &handles()), IMAGE);
}

#[test]
fn each_cut_is_refused() {
    for end in 0..IMAGE.len() {
        assert!(
            Rows::read_image(&handles(), 2, &IMAGE[..end]).is_err(),
            "{end}"
        );
    }
    let longer = [&IMAGE[..], &[0]].concat();
    let refused = Rows::read_image(&handles(), 2, &longer).map(|_| ());
    assert_eq!(refused, Err(StorageImageFault::Length));
}

/// What is read of a changed image has that image.
#[test]
fn each_change_is_refused_or_another_image() {
    let mut read = 0;
    for at in 0..IMAGE.len() {
        for byte in (0..=255).filter(|byte| *byte != IMAGE[at]) {
            let mut bytes = IMAGE;
            bytes[at] = byte;
            if let Ok(rows) = Rows::read_image(&handles(), 2, &bytes) {
                assert_eq!(image(&rows, &handles()), bytes, "{at} {byte}");
                read += 1;
            }
        }
    }
    // Each byte of the births and of the value may be any.
    assert_eq!(read, 40 * 255);
}

#[test]
fn width_that_no_entity_has_is_refused() {
    for width in [0, 1, 3, 256, 257, u32::MAX] {
        let bytes = [&width.to_le_bytes()[..], &IMAGE[4..]].concat();
        assert!(Rows::read_image(&handles(), 2, &bytes).is_err(), "{width}");
    }
}

#[test]
fn many_entities() {
    let handles: Vec<Handle> = (0..100_000)
        .map(|index| Handle::new(3 * index, 1 + index % 5).expect("a handle"))
        .collect();
    let mut rows = Rows::new();
    rows.reserve(handles.len())
        .expect("memory for the entities");
    for (place, handle) in handles.iter().enumerate() {
        let birth = Birth {
            frame: 1,
            system: 0,
            ordinal: place as u32,
        };
        rows.push(*handle, birth);
        let items = [(ComponentId((place % 7) as u8), place as i64 - 50_000)];
        rows.insert_at(place, *handle, &items)
            .expect("memory for a component");
    }
    let bytes = image(&rows, &handles);
    assert_eq!(bytes.len(), 4 + 100_000 * (16 + 7 + 8));
    let again = Rows::read_image(&handles, 100_000, &bytes).expect("the same entities");
    assert_eq!(again.len(), 100_000);
    for (place, handle) in handles.iter().enumerate() {
        assert_eq!(
            again.birth_at(place, *handle),
            rows.birth_at(place, *handle)
        );
        let items = rows.items_at(place, *handle);
        assert!(again.items_at(place, *handle).eq(items));
    }
    assert_eq!(image(&again, &handles), bytes);
}
