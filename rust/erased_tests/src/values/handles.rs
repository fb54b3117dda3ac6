//! How handles are printed, their order and their hash, and decimals.

use crate::handles::{read_decimal, Handle, ParseHandleError};
use std::collections::HashMap;

#[test]
fn printed() {
    for (bits, text) in [
        (4294967296, "0v1"),
        (9223372036854775806, "4294967294v2147483647"),
    ] {
        let handle = Handle::from_bits(bits).expect("a handle");
        assert_eq!(handle.to_string(), text);
    }
}

#[test]
fn decimals() {
    assert_eq!(read_decimal(b"4294967295"), Ok(4294967295));
    assert_eq!(read_decimal(b"4294967296"), Err(ParseHandleError::Range));
    assert_eq!(read_decimal(b"01"), Err(ParseHandleError::Shape));
    assert_eq!(read_decimal(b"+1"), Err(ParseHandleError::Shape));
}

#[test]
fn order_and_hash() {
    let first = Handle::new(0, 2).expect("a handle");
    let second = Handle::new(1, 1).expect("a handle");
    assert!((first.index(), first.generation()) == (0, 2) && first < second);
    // A hash map finds the second one by its text.
    let names = HashMap::from([(first, 'a'), (second, 'b')]);
    assert_eq!(
        names.get(&Handle::read_text(b"1v1").expect("a handle")),
        Some(&'b')
    );
}
