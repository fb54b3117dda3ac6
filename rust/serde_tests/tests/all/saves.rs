//! A save of a game whose maps name others than its allocator: dead ones, those of another game,
//! and those of slots that no game has.

use forgeni::{tables, AnyMap, Entities, Handle, HandleMap, SparseMap, Tracked};
use serde::de::DeserializeSeed;

tables! {
    #[derive(Debug, PartialEq)]
    struct Parts {
        place: Tracked<HandleMap<u8>>,
        name: SparseMap<String>,
    }
}

/// A game of three slots: the first one has its second occupant, the second one nobody, and the
/// third one is reserved. And what a save has of it.
fn game() -> (Entities, Handle, Handle) {
    let mut entities = Entities::new();
    let all = entities.alloc_many(3).expect("entities");
    entities.free(all[1]).expect("alive");
    entities.free(all[0]).expect("alive");
    let alive = entities.alloc().expect("an entity");
    entities.free(all[2]).expect("alive");
    let reserved = entities.request().expect("a handle");
    (entities, alive, reserved)
}

fn read(parts: &mut Parts, json: &str) -> Result<(), String> {
    let read = parts.deserialize(&mut serde_json::Deserializer::from_str(json));
    read.map_err(|error| error.to_string())
}

/// What names others is named by `stale`, for who refuses it, and dropped by `sweep`. What is alive
/// or reserved stays.
#[test]
fn others_than_the_living() {
    let (entities, alive, reserved) = game();
    assert_eq!(
        (alive.to_string(), reserved.to_string()),
        ("0v2".to_owned(), "2v2".to_owned())
    );
    let image = bincode::serialize(&entities).expect("bytes");
    let entities: Entities = bincode::deserialize(&image).expect("an image");

    let good = r#"{"place":{"0v2":[1,0]},"name":{"2v2":"a","0v2":"b"}}"#;
    let mut saved = Parts::default();
    read(&mut saved, good).expect("a save");
    assert_eq!(saved.stale(&entities), None);
    saved.sweep(&entities);
    assert_eq!(serde_json::to_string(&saved).expect("JSON"), good);

    for (one, why) in [
        ("0v1", "dead"),
        ("1v1", "dead"),
        ("1v2", "not given yet"),
        ("9v1", "foreign"),
    ] {
        for map in ["place", "name"] {
            let value = if map == "place" { "[1,0]" } else { r#""a""# };
            let json = format!(r#"{{"{map}":{{"{one}":{value},"2v2":{value}}}}}"#);
            let mut parts = Parts::default();
            read(&mut parts, &json).expect(why);
            let stale = Some((map, one.parse().expect("a handle")));
            assert_eq!(parts.stale(&entities), stale, "{why}");
            parts.sweep(&entities);
            assert_eq!(parts.stale(&entities), None);
            let left: usize = parts.lens().iter().map(|(_, len)| len).sum();
            assert_eq!(left, 1, "{why}");
            assert!(parts.place.contains(reserved) || parts.name.contains(reserved));
        }
    }
}

/// Maps with the limit of the allocator take no more room than its slots need, whatever the save
/// says, and are as they were.
#[test]
fn room_for_slots_that_no_game_has() {
    let (entities, alive, _) = game();
    let mut parts = Parts {
        place: Tracked::with_limit(entities.total()),
        ..Parts::default()
    };
    parts.name.set_limit(entities.total());
    parts.place.insert(alive, 1, 0).expect("memory");
    for index in [3, 9, 200_000_000, 4_294_967_293u32] {
        for map in ["place", "name"] {
            let value = if map == "place" { "[1,0]" } else { r#""a""# };
            let json = format!(r#"{{"{map}":{{"0v1":{value},"{index}v1":{value}}}}}"#);
            let error = read(&mut parts, &json).expect_err("above the limit");
            let text = format!("{index}v1: the handle is above the map's limit");
            assert!(error.starts_with(&text), "{error}");
            assert_eq!(parts.lens(), [("place", 1), ("name", 0)]);
            let least = 4 * entities.total() as usize;
            assert!(parts.place.capacity() <= least && parts.name.slots() <= least);
        }
    }
    // The map alone, as a function over both kinds sees it.
    let stale = |map: &HandleMap<u8>| AnyMap::stale(map, &Entities::new());
    assert_eq!(stale(&parts.place), Some(alive));
}
