use crate::common::{refused, written};
use forgeni::{tables, Handle, HandleMap, SparseMap, Tracked};
use serde::de::DeserializeSeed;

fn handle(index: u32, generation: u32) -> Handle {
    Handle::new(index, generation).expect("a handle")
}

#[test]
fn what_is_written() {
    written(&HandleMap::<u8>::new(), "{}", &[0; 8]);
    let mut map = HandleMap::new();
    map.insert(handle(7, 2), 6u8).expect("memory");
    written(
        &map,
        r#"{"7v2":6}"#,
        &[1, 0, 0, 0, 0, 0, 0, 0, 7, 0, 0, 0, 2, 0, 0, 0, 6],
    );
    map.insert(handle(0, 1), 5).expect("memory");
    written(
        &map,
        r#"{"0v1":5,"7v2":6}"#,
        &[
            2, 0, 0, 0, 0, 0, 0, 0, 0, 0, 0, 0, 1, 0, 0, 0, 5, 7, 0, 0, 0, 2, 0, 0, 0, 6,
        ],
    );
}

/// One value in three slots, of generations from the least to the greatest.
#[test]
fn maps_of_many() {
    for count in [3_000u32, 100_000] {
        let map: HandleMap<u32> = (0..count)
            .map(|one| (handle(3 * one, 1 + one * 21_474), one))
            .collect();
        assert_eq!(map.len(), count as usize);

        let json = serde_json::to_string(&map).expect("JSON");
        let texts = (0..count).map(|one| format!("\"{}v{}\":{one}", 3 * one, 1 + one * 21_474));
        assert_eq!(json, format!("{{{}}}", texts.collect::<Vec<_>>().join(",")));
        assert!(serde_json::from_str::<HandleMap<u32>>(&json).expect("a map") == map);

        let mut bytes = u64::from(count).to_le_bytes().to_vec();
        for one in 0..count {
            bytes.extend((u64::from(1 + one * 21_474) << 32 | u64::from(3 * one)).to_le_bytes());
            bytes.extend(one.to_le_bytes());
        }
        assert!(bincode::serialize(&map).expect("bytes") == bytes);
        assert!(bincode::deserialize::<HandleMap<u32>>(&bytes).expect("a map") == map);
    }
}

/// In any order, and whatever was in the map before.
#[test]
fn what_is_read() {
    let map: HandleMap<u8> = serde_json::from_str(r#"{"7v2":6,"0v1":5,"3v9":4}"#).expect("a map");
    let read: Vec<_> = map
        .iter()
        .map(|(one, value)| (one.to_string(), *value))
        .collect();
    let text = |(one, value): (&str, u8)| (one.to_owned(), value);
    assert_eq!(read, [("0v1", 5), ("3v9", 4), ("7v2", 6)].map(text));
    assert_eq!(map.limit(), u32::MAX);
}

#[test]
fn two_handles_of_a_slot() {
    let taken = |one| format!("{one}: its slot has a value already at line 1 column");
    let later = |one| format!("{one}: a later occupant of the slot has a value at line 1 column");
    let rows = [
        (r#"{"7v2":6,"7v2":6}"#, taken("7v2")),
        (r#"{"7v2":6,"0v1":5,"7v3":6}"#, taken("7v3")),
        (r#"{"7v2":6,"0v1":5,"7v1":6}"#, later("7v1")),
    ];
    for (json, message) in rows {
        refused::<HandleMap<u8>>(json, &message);
    }
}

#[test]
fn what_is_no_map_of_handles() {
    let rows = [
        (r#"{"1v0":1}"#, r#""1v0": no handle has these numbers"#),
        (
            r#"{"4294967295v1":1}"#,
            r#""4294967295v1": no handle has these numbers"#,
        ),
        (
            r#"{"4294967296":1}"#,
            r#""4294967296": not of the form of a handle, as 0v1"#,
        ),
        (
            r#"{"0v1":256}"#,
            "invalid value: integer `256`, expected u8",
        ),
        (r#"{"0v1":"a"}"#, "invalid type: string \"a\", expected u8"),
        (
            r#"{"4294967294v2147483647":1}"#,
            "4294967294v2147483647: the handle is above the map's limit",
        ),
        (
            "5",
            "invalid type: integer `5`, expected a map from handles to values",
        ),
        (
            r#""0v1""#,
            "invalid type: string \"0v1\", expected a map from handles to values",
        ),
        (
            "[]",
            "invalid type: sequence, expected a map from handles to values",
        ),
        (r#"{"0v1":1"#, "EOF while parsing an object"),
    ];
    for (json, message) in rows {
        refused::<HandleMap<u8>>(json, message);
    }
}

fn read_into(map: &mut HandleMap<u8>, json: &str) -> Result<(), String> {
    map.deserialize(&mut serde_json::Deserializer::from_str(json))
        .map_err(|error| error.to_string())
}

/// A map that reads takes the place of its values, keeps its limit, and is as it was after an
/// error.
#[test]
fn into_a_map_with_a_limit() {
    let mut map = HandleMap::with_limit(8);
    map.insert(handle(1, 1), 1).expect("memory");

    for (json, message) in [
        (
            r#"{"0v1":5,"8v1":6}"#,
            "8v1: the handle is above the map's limit",
        ),
        (
            r#"{"0v1":5,"200000000v1":6}"#,
            "200000000v1: the handle is above the map's limit",
        ),
        (
            r#"{"0v1":5,"1v1":true}"#,
            "invalid type: boolean `true`, expected u8",
        ),
        (r#"{"0v1":5"#, "EOF while parsing an object"),
    ] {
        let error = read_into(&mut map, json).expect_err(json);
        assert!(error.starts_with(message), "{error}");
        assert_eq!(
            (map.len(), map.get(handle(1, 1)), map.limit()),
            (1, Some(&1), 8)
        );
    }

    read_into(&mut map, r#"{"0v1":5,"7v3":6}"#).expect("a map");
    let expected: HandleMap<u8> = [(handle(0, 1), 5), (handle(7, 3), 6)].into_iter().collect();
    assert_eq!((&map, map.limit()), (&expected, 8));

    read_into(&mut map, "{}").expect("a map");
    assert_eq!((map.len(), map.limit()), (0, 8));
}

/// A sparse map is written in the order of its entries, and read in that order.
#[test]
fn sparse_maps() {
    written(&SparseMap::<u8>::new(), "{}", &[0; 8]);
    let map = SparseMap::from([(handle(7, 2), 6u8), (handle(0, 1), 5)]);
    let bytes = [
        2, 0, 0, 0, 0, 0, 0, 0, 7, 0, 0, 0, 2, 0, 0, 0, 6, 0, 0, 0, 0, 1, 0, 0, 0, 5,
    ];
    written(&map, r#"{"7v2":6,"0v1":5}"#, &bytes);
    let read: SparseMap<u8> = bincode::deserialize(&bytes).expect("a map");
    assert_eq!(read.entries(), map.entries());
    let taken = "7v2: its slot has a value already at line 1 column";
    refused::<SparseMap<u8>>(r#"{"7v2":6,"7v2":6}"#, taken);
    let mut limited = SparseMap::<u8>::with_limit(7);
    let read = limited.deserialize(&mut serde_json::Deserializer::from_str(r#"{"7v2":6}"#));
    let error = read.expect_err("above the limit").to_string();
    assert!(
        error.starts_with("7v2: the handle is above the map's limit"),
        "{error}"
    );
    assert_eq!((limited.len(), limited.slots(), limited.limit()), (0, 0, 7));
}

tables! {
    #[derive(Debug, PartialEq)]
    struct Parts {
        place: HandleMap<u8>,
        name: SparseMap<String>,
    }
}

// The feature `serde` asks nothing of values that aren't written.
tables! {
    struct Unwritten { locks: HandleMap<std::sync::Mutex<u8>> }
}

/// Each value with its tick, whether that is its own or the one of all.
#[test]
fn tracked_maps() {
    let mut map = Tracked::new(HandleMap::from([(handle(7, 2), 6u8)]), 3);
    let bytes = [
        1, 0, 0, 0, 0, 0, 0, 0, 7, 0, 0, 0, 2, 0, 0, 0, 6, 3, 0, 0, 0, 0, 0, 0, 0,
    ];
    written(&map, r#"{"7v2":[6,3]}"#, &bytes);
    map.insert(handle(0, 1), 5, u64::MAX).expect("memory");
    let json = r#"{"0v1":[5,18446744073709551615],"7v2":[6,3]}"#;
    assert_eq!(serde_json::to_string(&map).expect("JSON"), json);
    let read: Tracked<HandleMap<u8>> = serde_json::from_str(json).expect("a map");
    assert!(read == map && read.changed_since(4).eq([(handle(0, 1), &5)]));

    // A tick that is read first isn't that of what follows.
    let json = r#"{"9v1":["a",8],"4v1":["b",0],"5v1":["c",2]}"#;
    let mut rare: Tracked<SparseMap<String>> = serde_json::from_str(json).expect("a map");
    let ticks = [9, 4, 5].map(|index| rare.tick(handle(index, 1)));
    assert_eq!(ticks, [Some(8), Some(0), Some(2)]);
    assert_eq!(serde_json::to_string(&rare).expect("JSON"), json);
    // What is written to it has no tick before those.
    rare.get_mut(handle(4, 1), 1).expect("memory");
    assert_eq!(rare.tick(handle(4, 1)), Some(8));

    let mut limited: Tracked<HandleMap<u8>> = Tracked::with_limit(8);
    limited.insert(handle(1, 1), 1, 2).expect("memory");
    let before = limited.clone();
    for (json, message) in [
        (
            r#"{"7v2":[5]}"#,
            "invalid length 1, expected a tuple of size 2",
        ),
        (
            r#"{"7v2":[5,-1]}"#,
            "invalid value: integer `-1`, expected u64",
        ),
        (
            r#"{"7v2":5}"#,
            "invalid type: integer `5`, expected a tuple of size 2",
        ),
        (
            r#"{"200000000v1":[5,1]}"#,
            "200000000v1: the handle is above the map's limit",
        ),
        (
            r#"{"7v2":[5,1],"7v2":[5,1]}"#,
            "7v2: its slot has a value already",
        ),
        (
            r#"{"7v2":[5,1],"7v1":[5,1]}"#,
            "7v1: a later occupant of the slot has a value",
        ),
    ] {
        let read = limited.deserialize(&mut serde_json::Deserializer::from_str(json));
        let error = read.expect_err(json).to_string();
        assert!(error.starts_with(message), "{json}: {error}");
        assert_eq!((&limited, limited.limit()), (&before, 8));
    }
}

#[test]
fn structs_of_maps() {
    let empty = r#"{"place":{},"name":{}}"#;
    written(&Parts::default(), empty, &[0; 16]);
    let mut parts = Parts::default();
    parts.place.insert(handle(1, 1), 7).expect("memory");
    parts
        .name
        .insert(handle(1, 1), "a".to_owned())
        .expect("memory");
    let json = r#"{"place":{"1v1":7},"name":{"1v1":"a"}}"#;
    let one = [1, 0, 0, 0, 0, 0, 0, 0, 1, 0, 0, 0, 1, 0, 0, 0];
    let bytes = [&one[..], &[7], &one, &[1, 0, 0, 0, 0, 0, 0, 0, b'a']].concat();
    written(&parts, json, &bytes);

    // In any order, and with a map left out.
    let turned = r#"{"name":{"1v1":"a"},"place":{"1v1":7}}"#;
    assert_eq!(serde_json::from_str::<Parts>(turned).expect("maps"), parts);
    let part: Parts = serde_json::from_str(r#"{"name":{"1v1":"a"}}"#).expect("a map");
    assert_eq!(part.lens(), [("place", 0), ("name", 1)]);

    for (json, message) in [
        (r#"{"place":{},"place":{}}"#, "duplicate field `place`"),
        (
            r#"{"speed":{}}"#,
            "unknown field `speed`, expected `place` or `name`",
        ),
        (
            r#"{"place":{"1v1":true}}"#,
            "invalid type: boolean `true`, expected u8",
        ),
        (
            "5",
            "invalid type: integer `5`, expected a struct of the maps place name",
        ),
        ("[{}]", "fewer than the maps place name"),
    ] {
        refused::<Parts>(json, message);
    }

    // In place: the limits stay, and after an error all is as it was.
    parts.name.set_limit(2);
    let mut read = |json| {
        let read = parts.deserialize(&mut serde_json::Deserializer::from_str(json));
        (
            read.map_err(|error| error.to_string()),
            parts.lens().map(|(_, len)| len),
        )
    };
    let (error, lens) = read(r#"{"place":{},"name":{"200000000v1":"b"}}"#);
    let error = error.expect_err("above the limit");
    assert!(
        error.starts_with("200000000v1: the handle is above the map's limit"),
        "{error}"
    );
    assert_eq!(lens, [1, 1]);
    assert_eq!(read(r#"{"place":{"1v1":7}}"#), (Ok(()), [1, 0]));
    assert_eq!(
        (parts.name.limit(), Unwritten::default().lens()),
        (2, [("locks", 0)])
    );
}
