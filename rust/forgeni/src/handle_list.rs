//! Lists of handles in traces: impls of Rust's traits that calls and replies need for what they
//! derive. The erased tests take this file too.

use crate::traces::HandleList;
use core::hash::{Hash, Hasher};

impl Clone for HandleList {
    fn clone(&self) -> Self {
        Self::new(self.as_slice().to_vec())
    }
}

impl Hash for HandleList {
    fn hash<H: Hasher>(&self, state: &mut H) {
        self.as_slice().hash(state);
    }
}
