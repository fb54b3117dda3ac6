//! The kit's maps: each call that may grow one returns a `Result`.

pub use crate::kit::collections::BTreeMap;

use crate::kit::alloc::AllocFailed;
use std::hash::Hash;
use std::ops::Deref;

/// A map by hash.
pub struct HashMap<K, V>(std::collections::HashMap<K, V>);

impl<K: Eq + Hash, V> HashMap<K, V> {
    pub fn new() -> Self {
        HashMap(std::collections::HashMap::new())
    }

    pub fn insert(&mut self, key: K, value: V) -> Result<Option<V>, AllocFailed<(K, V)>> {
        Ok(self.0.insert(key, value))
    }
}

impl<K, V> Deref for HashMap<K, V> {
    type Target = std::collections::HashMap<K, V>;

    fn deref(&self) -> &Self::Target {
        &self.0
    }
}
