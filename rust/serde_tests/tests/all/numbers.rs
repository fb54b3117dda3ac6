use crate::common::{refused, refused_bytes, written};
use forgeni::{Birth, BlockSize, ComponentId, Limits};
use std::collections::BTreeMap;

#[test]
fn components() {
    for number in [0, 7, u8::MAX] {
        written(&ComponentId(number), &number.to_string(), &[number]);
    }
    written(
        &BTreeMap::from([(ComponentId(1), 2u8)]),
        r#"{"1":2}"#,
        &[1, 0, 0, 0, 0, 0, 0, 0, 1, 2],
    );
    refused::<ComponentId>("256", "invalid value: integer `256`, expected u8");
    refused::<ComponentId>("-1", "invalid value: integer `-1`, expected u8");
    refused::<ComponentId>("\"1\"", "invalid type: string \"1\", expected u8");
}

#[test]
fn births() {
    let birth = |frame, system, ordinal| Birth {
        frame,
        system,
        ordinal,
    };
    written(
        &birth(2, 0, 1),
        "[2,0,1]",
        &[2, 0, 0, 0, 0, 0, 0, 0, 0, 0, 0, 0, 1, 0, 0, 0],
    );
    written(
        &birth(0x0102_0304_0506_0708, 0x090a_0b0c, 0x0d0e_0f10),
        "[72623859790382856,151653132,219025168]",
        &[8, 7, 6, 5, 4, 3, 2, 1, 12, 11, 10, 9, 16, 15, 14, 13],
    );
    written(
        &birth(u64::MAX, Birth::NO_SYSTEM, u32::MAX),
        "[18446744073709551615,4294967295,4294967295]",
        &[0xff; 16],
    );
}

#[test]
fn no_births() {
    let rows = [
        ("[2,3]", "invalid length 2, expected a tuple of size 3"),
        ("[]", "invalid length 0, expected a tuple of size 3"),
        ("[2,3,1,0]", "trailing characters"),
        ("[-1,0,1]", "invalid value: integer `-1`, expected u64"),
        (
            "[2,4294967296,1]",
            "invalid value: integer `4294967296`, expected u32",
        ),
        (
            "[2,0,4294967296]",
            "invalid value: integer `4294967296`, expected u32",
        ),
        ("5", "invalid type: integer `5`, expected a tuple of size 3"),
        (
            r#""2.0.1""#,
            "invalid type: string \"2.0.1\", expected a tuple of size 3",
        ),
        ("{}", "invalid type: map, expected a tuple of size 3"),
    ];
    for (json, message) in rows {
        refused::<Birth>(json, message);
    }
    refused_bytes::<Birth>(&[0; 15], "io error: unexpected end of file");
}

#[test]
fn limits() {
    let limits = |slots, generations| Limits::new(slots, generations).expect("limits");
    written(&limits(1000, 4), "[1000,4]", &[0xe8, 3, 0, 0, 4, 0, 0, 0]);
    written(&limits(1, 1), "[1,1]", &[1, 0, 0, 0, 1, 0, 0, 0]);
    written(
        &Limits::GREATEST,
        "[4294967295,2147483647]",
        &[0xff, 0xff, 0xff, 0xff, 0xff, 0xff, 0xff, 0x7f],
    );
}

#[test]
fn no_limits() {
    for [slots, generations] in [[0u32, 1], [1, 0], [1, 1 << 31], [u32::MAX, u32::MAX]] {
        let message = format!("no allocator has {slots} slots of {generations} generations");
        refused::<Limits>(&format!("[{slots},{generations}]"), &message);
        let bytes = [slots.to_le_bytes(), generations.to_le_bytes()].concat();
        refused_bytes::<Limits>(&bytes, &message);
    }
    refused::<Limits>("[1]", "invalid length 1, expected a tuple of size 2");
}

#[test]
fn sizes_of_blocks() {
    for limit in [0, 1, 63, 64, 65, 101, 1000, u32::MAX] {
        for wanted in [0, 1, 31, 32, 33, 50, 51, 500, 1 << 31, u32::MAX] {
            let mut size = BlockSize::new(limit);
            let bytes = |size: BlockSize| [size.size().to_le_bytes(), limit.to_le_bytes()].concat();
            written(&size, &format!("[{},{limit}]", size.size()), &bytes(size));
            size.adapt(wanted);
            written(&size, &format!("[{},{limit}]", size.size()), &bytes(size));
        }
    }
    for [size, limit] in [
        [0u32, 1],
        [63, 64],
        [65, 1000],
        [1001, 1000],
        [u32::MAX, 1000],
    ] {
        let message = format!("no block adapts to {size} handles with a limit of {limit}");
        refused::<BlockSize>(&format!("[{size},{limit}]"), &message);
    }
}
