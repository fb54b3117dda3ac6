//! An allocator is written as its image, and read from it.

use crate::common::{refused, refused_bytes};
use forgeni::{Entities, Handle, Limits};

/// An allocator of that many slots, of which every third waits and every third has a row, and three
/// handles are reserved. It can have twelve slots more.
fn used(slots: u32) -> Entities {
    let limits = Limits::new(slots + 15, 7).expect("limits");
    let mut entities = Entities::with_limits(limits);
    for one in entities.alloc_many(slots).expect("memory") {
        match one.index() % 3 {
            0 => drop(entities.free(one).expect("alive")),
            1 => entities.try_set_row(one, !one.index()).expect("alive"),
            _ => {}
        }
    }
    entities.request_many(3).expect("three handles");
    entities
}

fn image(entities: &Entities) -> Vec<u8> {
    let mut image = Vec::new();
    entities.write_image(&mut image).expect("memory");
    image
}

/// Both have the same image, and give the same handles from now on.
fn same(mut one: Entities, mut other: Entities) {
    assert!(image(&one) == image(&other));
    assert!(one.iter().eq(&other));
    let born = |entities: &mut Entities| {
        let mut born: Vec<Handle> = Vec::new();
        entities.flush(&mut born).expect("memory");
        born.extend(entities.alloc_many(10).expect("memory"));
        born
    };
    assert_eq!(born(&mut one), born(&mut other));
}

#[test]
fn allocators_of_all_sizes() {
    for slots in [0, 1, 3_000, 100_000] {
        let entities = used(slots);
        let image = image(&entities);

        let json = serde_json::to_string(&entities).expect("JSON");
        let numbers: Vec<String> = image.iter().map(u8::to_string).collect();
        assert!(json == format!("[{}]", numbers.join(",")));
        same(
            serde_json::from_str(&json).expect("an allocator"),
            used(slots),
        );

        let bytes = counted(&image);
        assert!(bincode::serialize(&entities).expect("bytes") == bytes);
        same(
            bincode::deserialize(&bytes).expect("an allocator"),
            entities,
        );
    }
}

#[test]
fn what_is_no_image() {
    let rows = [
        ("[]", "not an image of an allocator"),
        ("[1,2,3]", "not an image of an allocator"),
        ("[256]", "invalid value: integer `256`, expected u8"),
        (
            "{}",
            "invalid type: map, expected the bytes of an allocator's image",
        ),
        (
            "5",
            "invalid type: integer `5`, expected the bytes of an allocator's image",
        ),
        (r#""0v1""#, "not an image of an allocator"),
    ];
    for (json, message) in rows {
        refused::<Entities>(json, message);
    }
}

/// Bytes as bincode has them: how many they are, and then they.
fn counted(bytes: &[u8]) -> Vec<u8> {
    [&(bytes.len() as u64).to_le_bytes(), bytes].concat()
}

/// Each beginning of an image, and an image with one byte more.
#[test]
fn images_cut_short() {
    let mut image = image(&used(10));
    image.push(0);
    for end in (0..image.len()).filter(|end| end + 1 != image.len()) {
        let json = serde_json::to_string(&image[..end]).expect("JSON");
        assert!(serde_json::from_str::<Entities>(&json).is_err(), "{end}");
        let bytes = counted(&image[..end]);
        assert!(bincode::deserialize::<Entities>(&bytes).is_err(), "{end}");
    }
    assert!(bincode::deserialize::<Entities>(&counted(&image)).is_err());
    let json = serde_json::to_string(&image).expect("JSON");
    refused::<Entities>(&json, "160 bytes expected");
    refused_bytes::<Entities>(&counted(&[]), "not an image of an allocator");
}

#[test]
fn a_length_of_2_to_the_60() {
    for bytes in [&[][..], &[1, 2, 3]] {
        let bytes = [&(1_u64 << 60).to_le_bytes(), bytes].concat();
        let error = bincode::deserialize::<Entities>(&bytes).expect_err("too few");
        assert!(error.to_string().starts_with("io error"), "{error}");
    }
}
