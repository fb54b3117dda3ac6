//! The kit's map by rising key: a call that may grow it returns a `Result`.
//!
//! The contracts are those of the kit's `std_collections/src/btree_map/methods.rt`
//! and `linked_list/methods.rt`.

pub use ::alloc::collections::LinkedList;

use super::alloc::{AllocError, AllocFailed};
use super::vec::FallibleVec;
use ::alloc::collections::btree_map::{Entry, Iter};
use ::alloc::vec::Vec;
use core::ops::{Deref, DerefMut};

/// A map by rising key. It is Rust's.
#[derive(Debug, PartialEq)]
pub struct BTreeMap<K, V>(::alloc::collections::BTreeMap<K, V>);

/// At least as much memory as a node of Rust's map takes: at most 11 pairs and 12 nodes below, and
/// where it hangs.
#[repr(C)]
struct Node<K, V>([Option<(K, V)>; 11], [usize; 14]);

/// How many nodes the insertion of a new key into a map of so many makes at most: one for each
/// level that is full, and one above.
///
/// The first 11 keys are in one node. A node that isn't the top has at least 5 keys, so each level
/// has at least six times as many nodes as the one above.
fn nodes_for(keys: usize) -> usize {
    match keys {
        0 => 1,
        1..=10 => 0,
        _ => 2 + keys.ilog2() as usize / 2,
    }
}

/// Asks for so many nodes, and gives them back. Each is asked for by itself, as the map does, so
/// the allocator has just what the map takes next.
fn ask_for_nodes<K, V>(count: usize) -> Result<(), AllocError> {
    let Some(others) = count.checked_sub(1) else {
        return Ok(());
    };
    let node = Vec::<Node<K, V>>::with_capacity_fallibly(1)?;
    let asked = ask_for_nodes::<K, V>(others);
    drop(core::hint::black_box(node));
    asked
}

impl<K: Ord, V> BTreeMap<K, V> {
    /// The contract: no pairs. It doesn't allocate.
    pub fn new() -> Self {
        BTreeMap(::alloc::collections::BTreeMap::new())
    }

    /// The contract: the key has the value, and the one that it had comes back; or the pair comes
    /// back in an `Err`, and nothing has changed. It takes no memory for a key that has a value,
    /// and that key stays.
    ///
    /// Rust has no stable map that returns if memory runs out. So as much as it can take is asked
    /// for and given back first. If another thread takes it meanwhile, and no other memory is left,
    /// the program ends.
    pub fn insert(&mut self, key: K, value: V) -> Result<Option<V>, AllocFailed<(K, V)>> {
        let nodes = nodes_for(self.0.len());
        match self.0.entry(key) {
            Entry::Occupied(mut entry) => Ok(Some(entry.insert(value))),
            Entry::Vacant(entry) => match ask_for_nodes::<K, V>(nodes) {
                Ok(()) => {
                    entry.insert(value);
                    Ok(None)
                }
                Err(AllocError) => Err(AllocFailed {
                    value: (entry.into_key(), value),
                }),
            },
        }
    }
}

impl<K, V> Deref for BTreeMap<K, V> {
    type Target = ::alloc::collections::BTreeMap<K, V>;

    fn deref(&self) -> &Self::Target {
        &self.0
    }
}

impl<K, V> DerefMut for BTreeMap<K, V> {
    fn deref_mut(&mut self) -> &mut Self::Target {
        &mut self.0
    }
}

impl<'a, K, V> IntoIterator for &'a BTreeMap<K, V> {
    type Item = (&'a K, &'a V);
    type IntoIter = Iter<'a, K, V>;

    fn into_iter(self) -> Self::IntoIter {
        self.0.iter()
    }
}

#[cfg(test)]
mod tests {
    use super::super::refusing::refuse;
    use super::*;

    #[test]
    fn it_is_a_map_by_rising_key() {
        let mut map = BTreeMap::new();
        for key in [5_u32, 1, 9, 1] {
            map.insert(key, key * 2).expect("memory");
        }
        assert!(map.iter().eq([(&1, &2), (&5, &10), (&9, &18)]));
        assert_eq!(map.insert(5, 0), Ok(Some(10)));
        assert_eq!(map.insert(6, 1), Ok(None));
        assert_eq!(map.get(&5), Some(&0));
        assert_eq!(map.remove(&5), Some(0));
        map.clear();
        assert!(map.is_empty());
    }

    #[test]
    fn a_refused_insertion_changes_nothing_and_a_key_with_a_value_needs_none() {
        let mut map = BTreeMap::new();
        let refused = |pair| Err(AllocFailed { value: pair });
        assert_eq!(refuse(|| map.insert(1_u32, 2_u64)), refused((1, 2)));
        assert!(map.is_empty());
        map.insert(1, 2).expect("memory");
        assert_eq!(refuse(|| map.insert(1, 3)), Ok(Some(2)));
        // The first 11 keys are in one node.
        for key in 2..=11 {
            assert_eq!(refuse(|| map.insert(key, 3)), Ok(None));
        }
        assert_eq!(refuse(|| map.insert(12, 3)), refused((12, 3)));
        assert!(map.iter().eq((1..=11)
            .map(|key| (key, 3))
            .collect::<Vec<_>>()
            .iter()
            .map(|(key, value)| (key, value))));
    }

    #[test]
    fn as_many_nodes_are_asked_for_as_an_insertion_makes() {
        assert_eq!([0, 1, 10, 11, 12].map(nodes_for), [1, 0, 0, 3, 3]);
        assert_eq!(refuse(|| ask_for_nodes::<u32, u64>(0)), Ok(()));
        assert_eq!(refuse(|| ask_for_nodes::<u32, u64>(1)), Err(AllocError));
        assert_eq!(ask_for_nodes::<u32, u64>(9), Ok(()));
    }
}
