// Made of crates/ent_storage/src/places.rt by rust/erase. It isn't edited by hand.

//! How many places there are.

/// How many entities a storage has at most: the places are numbered in 32 bits. A `usize` of 32
/// bits has no such number.
pub const MOST_PLACES: u64 = 4_294_967_296;
