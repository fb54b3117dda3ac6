//! A world is written as its image, and read from it.

use crate::common::{refused, refused_bytes};
use forgeni::{ComponentId, Limits, World};

/// A world of that many entities, of which every third was despawned.
fn used(entities: u32) -> World {
    let limits = Limits::new(entities + 15, 7).expect("limits");
    let mut world = World::with_limits(limits);
    for number in 0..entities {
        let items = [(ComponentId((number % 7) as u8), -i64::from(number))];
        let one = world.spawn(&items).expect("memory");
        if number % 3 == 0 {
            world.despawn(one).expect("alive");
        }
    }
    world
}

fn image(world: &World) -> Vec<u8> {
    let mut image = Vec::new();
    world.write_image(&mut image).expect("memory");
    image
}

/// Bytes as bincode has them: how many they are, and then they.
fn counted(bytes: &[u8]) -> Vec<u8> {
    [&(bytes.len() as u64).to_le_bytes(), bytes].concat()
}

#[test]
fn worlds_of_all_sizes() {
    for entities in [0, 1, 3_000, 30_000] {
        let world = used(entities);
        let image = image(&world);

        let json = serde_json::to_string(&world).expect("JSON");
        let numbers: Vec<String> = image.iter().map(u8::to_string).collect();
        assert!(json == format!("[{}]", numbers.join(",")));
        let again: World = serde_json::from_str(&json).expect("a world");
        assert!(self::image(&again) == image && again.by_birth() == world.by_birth());

        let bytes = counted(&image);
        assert!(bincode::serialize(&world).expect("bytes") == bytes);
        let mut again: World = bincode::deserialize(&bytes).expect("a world");
        assert!(self::image(&again) == image);
        assert_eq!(again.spawn(&[]), used(entities).spawn(&[]));
    }
}

#[test]
fn what_is_no_image() {
    let rows = [
        ("[]", "not an image of a world"),
        ("[1,2,3]", "not an image of a world"),
        ("[256]", "invalid value: integer `256`, expected u8"),
        (
            "{}",
            "invalid type: map, expected the bytes of a world's image",
        ),
        (r#""0v1""#, "not an image of a world"),
    ];
    for (json, message) in rows {
        refused::<World>(json, message);
    }
    refused_bytes::<World>(&counted(&[]), "not an image of a world");
}

/// Each beginning of an image, and an image with one byte more.
#[test]
fn images_cut_short() {
    let mut image = image(&used(10));
    image.push(0);
    for end in (0..=image.len()).filter(|end| end + 1 != image.len()) {
        let json = serde_json::to_string(&image[..end]).expect("JSON");
        assert!(serde_json::from_str::<World>(&json).is_err(), "{end}");
        let bytes = counted(&image[..end]);
        assert!(bincode::deserialize::<World>(&bytes).is_err(), "{end}");
    }
}
