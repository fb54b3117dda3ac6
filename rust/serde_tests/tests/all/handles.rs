use crate::common::{refused, refused_bytes, written};
use forgeni::Handle;
use serde::{Deserialize, Serialize};
use std::collections::BTreeMap;

fn handle(index: u32, generation: u32) -> Handle {
    Handle::new(index, generation).expect("a handle")
}

#[test]
fn the_least_the_greatest_and_one_between() {
    let rows = [
        (handle(0, 1), r#""0v1""#, [0, 0, 0, 0, 1, 0, 0, 0]),
        (handle(12, 3), r#""12v3""#, [12, 0, 0, 0, 3, 0, 0, 0]),
        (
            handle(0x0102_0304, 0x0506_0708),
            r#""16909060v84281096""#,
            [4, 3, 2, 1, 8, 7, 6, 5],
        ),
        (
            Handle::PLACEHOLDER,
            r#""4294967294v2147483647""#,
            [0xfe, 0xff, 0xff, 0xff, 0xff, 0xff, 0xff, 0x7f],
        ),
    ];
    for (one, json, bytes) in rows {
        written(&one, json, &bytes);
        assert_eq!(u64::from_le_bytes(bytes), one.to_bits());
    }
}

/// In a format that people read the bits are read too.
#[test]
fn a_number_in_json() {
    let rows = [
        ("4294967296", handle(0, 1)),
        ("12884901900", handle(12, 3)),
        ("9223372036854775806", Handle::PLACEHOLDER),
    ];
    for (json, one) in rows {
        assert_eq!(serde_json::from_str::<Handle>(json).expect(json), one);
    }
}

#[test]
fn texts_of_no_handle() {
    let (shape, range) = (
        "not of the form of a handle, as 0v1",
        "no handle has these numbers",
    );
    let rows = [
        ("", shape),
        ("v", shape),
        ("12", shape),
        ("4294967296", shape),
        ("01v1", shape),
        ("1v01", shape),
        ("+1v1", shape),
        ("1V1", shape),
        (" 1v1", shape),
        ("1v1 ", shape),
        ("1v1v1", shape),
        ("１v1", shape),
        ("1v0", range),
        ("4294967295v1", range),
        ("0v2147483648", range),
        ("99999999999999999999v1", range),
    ];
    for (text, reason) in rows {
        let json = format!("\"{text}\"");
        refused::<Handle>(&json, &format!("{json}: {reason} at line 1 column"));
    }
}

#[test]
fn bits_of_no_handle() {
    let rows = [
        0,
        5,
        u64::from(u32::MAX),
        (1 << 32) + u64::from(u32::MAX),
        1 << 63,
        u64::MAX,
    ];
    for bits in rows {
        let message =
            format!("invalid value: integer `{bits}`, expected a handle, as 12v3, or its bits");
        refused::<Handle>(&bits.to_string(), &message);
        refused_bytes::<Handle>(&bits.to_le_bytes(), &message);
    }
}

#[test]
fn what_is_no_handle_at_all() {
    let rows = [
        ("true", "boolean `true`"),
        ("null", "null"),
        ("-1", "integer `-1`"),
        ("1.5", "floating point `1.5`"),
        ("18446744073709551616", "floating point"),
        ("[0,1]", "sequence"),
        (r#"{"index":0,"generation":1}"#, "map"),
    ];
    for (json, what) in rows {
        refused::<Handle>(json, &format!("invalid type: {what}"));
    }
    refused_bytes::<Handle>(&[0, 0, 0, 0, 1, 0, 0], "io error: unexpected end of file");
}

#[test]
fn inside_of_other_types() {
    written(
        &Some(handle(12, 3)),
        r#""12v3""#,
        &[1, 12, 0, 0, 0, 3, 0, 0, 0],
    );
    written(&None::<Handle>, "null", &[0]);
    written(
        &BTreeMap::from([(handle(2, 1), 7u8), (handle(0, 2), 8)]),
        r#"{"0v2":8,"2v1":7}"#,
        &[
            2, 0, 0, 0, 0, 0, 0, 0, 0, 0, 0, 0, 2, 0, 0, 0, 8, 2, 0, 0, 0, 1, 0, 0, 0, 7,
        ],
    );
}

#[derive(Debug, PartialEq, Serialize, Deserialize)]
#[serde(untagged)]
enum Target {
    One(Handle),
    Place { x: u32, y: u32 },
}

#[derive(Debug, PartialEq, Serialize, Deserialize)]
struct Arrow {
    #[serde(flatten)]
    shot: Shot,
    target: Target,
}

#[derive(Debug, PartialEq, Serialize, Deserialize)]
struct Shot {
    by: Handle,
}

/// serde keeps what it has read until it knows the type, and then it isn't the format that says
/// whether people read it.
#[test]
fn behind_untagged_and_flattened_types() {
    let shot = || Shot { by: handle(3, 4) };
    let arrow = |target| Arrow {
        shot: shot(),
        target,
    };
    let rows = [
        (
            r#"{"by":"3v4","target":"7v1"}"#,
            arrow(Target::One(handle(7, 1))),
        ),
        (
            r#"{"by":"3v4","target":{"x":1,"y":2}}"#,
            arrow(Target::Place { x: 1, y: 2 }),
        ),
    ];
    for (json, one) in rows {
        assert_eq!(serde_json::to_string(&one).expect("JSON"), json);
        assert_eq!(serde_json::from_str::<Arrow>(json).expect(json), one);
    }
    // As a format would hand it on that people don't read.
    let bits = r#"{"by":17179869187,"target":4294967303}"#;
    let read: Arrow = serde_json::from_str(bits).expect(bits);
    assert_eq!(read, arrow(Target::One(handle(7, 1))));
}
