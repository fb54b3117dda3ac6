//! Input that says there is much to come.

use crate::common::refused_bytes;
use forgeni::HandleMap;
use serde::de::{value, Deserializer, Visitor};
use serde::de::{DeserializeSeed, Error as _, IntoDeserializer, MapAccess};

/// As bincode has it: how many there are, and then the handles and values.
fn of_length(length: u64, entries: &[(u64, u8)]) -> Vec<u8> {
    let mut bytes = length.to_le_bytes().to_vec();
    for (bits, value) in entries {
        bytes.extend(bits.to_le_bytes());
        bytes.push(*value);
    }
    bytes
}

#[test]
fn a_length_of_2_to_the_60() {
    let entries = [(1 << 32, 5), ((1 << 32) + 1, 6)];
    for length in [3, 1 << 32, 1 << 60, u64::MAX] {
        for count in 0..=entries.len() {
            let bytes = of_length(length, &entries[..count]);
            refused_bytes::<HandleMap<u8>>(&bytes, "io error: unexpected end of file");
        }
    }
}

#[test]
fn bytes_of_no_map() {
    let handle = 7 + (2 << 32);
    let later = handle + (1 << 32);
    let bits = "invalid value: integer `5`, expected a handle, as 12v3, or its bits";
    let rows = [
        (of_length(1, &[(5, 1)]), bits),
        (
            of_length(2, &[(handle, 1), (handle, 1)]),
            "7v2: its slot has a value already",
        ),
        (
            of_length(2, &[(handle, 1), (later, 1)]),
            "7v3: its slot has a value already",
        ),
        (
            of_length(2, &[(later, 1), (handle, 1)]),
            "7v2: a later occupant of the slot has a value",
        ),
    ];
    for (bytes, message) in rows {
        refused_bytes::<HandleMap<u8>>(&bytes, message);
    }
}

/// A map that says it has `usize::MAX` entries, and has one.
struct Boasting(Option<u64>);

impl<'de> MapAccess<'de> for Boasting {
    type Error = value::Error;

    fn next_key_seed<K: DeserializeSeed<'de>>(
        &mut self,
        seed: K,
    ) -> Result<Option<K::Value>, value::Error> {
        let key = self.0.take();
        key.map(|bits| seed.deserialize(bits.into_deserializer()))
            .transpose()
    }

    fn next_value_seed<V: DeserializeSeed<'de>>(
        &mut self,
        seed: V,
    ) -> Result<V::Value, value::Error> {
        seed.deserialize(9u8.into_deserializer())
    }

    fn size_hint(&self) -> Option<usize> {
        Some(usize::MAX)
    }
}

impl<'de> Deserializer<'de> for Boasting {
    type Error = value::Error;

    fn deserialize_any<V: Visitor<'de>>(self, _: V) -> Result<V::Value, value::Error> {
        Err(value::Error::custom("a map alone"))
    }

    fn deserialize_map<V: Visitor<'de>>(self, visitor: V) -> Result<V::Value, value::Error> {
        visitor.visit_map(self)
    }

    serde::forward_to_deserialize_any! {
        bool i8 i16 i32 i64 i128 u8 u16 u32 u64 u128 f32 f64 char
        str string bytes byte_buf option unit
        unit_struct newtype_struct seq tuple tuple_struct struct enum identifier ignored_any
    }
}

/// Room is that of the slots, whatever the input says of how many there are.
#[test]
fn a_map_that_boasts() {
    let mut map: HandleMap<u8> = HandleMap::new();
    map.deserialize(Boasting(Some(1 << 32))).expect("one entry");
    assert_eq!((map.len(), map.slots()), (1, 1));
    assert!(map.capacity() < 100, "{}", map.capacity());
}
