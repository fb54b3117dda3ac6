// Made of crates/spawnrun_lib/src/bindings.rt by rust/erase. It isn't edited by hand.

use alloc::vec::Vec;
use crate::kit::vec::FallibleVec;
use crate::handles::{Handle, OutOfMemory};

/// The lists of handles to which the names of a system are bound, by the numbers of the names.
pub(super) struct Bindings {
    lists: Vec<Vec<Handle>>,
}

impl Bindings {
    /// No name is bound. It doesn't allocate.
    #[inline]
    pub(super) fn new() -> Self
        // ensures { result ≡ [] }
    {
        Bindings {
            lists: Vec::new(),
        }
    }

    /// What is bound to the name: nothing, unless it was bound.
    #[inline]
    pub(super) fn get(&self, name: usize) -> &[Handle]
        // ensures { result.now ≡ names_of self.now name }
    {
        match self.lists.get(name) {
            Some(list) => list,
            None => &[],
        }
    }

    /// Makes room for the name. A list that is added is empty.
    #[inline]
    pub(super) fn reach(&mut self, name: usize) -> Result<(), OutOfMemory>
        // ensures same { OnOk result (names_of self.new ≡ names_of self.old) }
        // ensures long { OnOk result (name < length self.new) }
    {
        while self.lists.len() <= name {
            self.lists.push_fallibly(Vec::new())?;
        }
        Ok(())
    }

    /// Binds the name, for which there is room, to the list. What was bound to it is forgotten.
    #[inline]
    pub(super) fn bind(&mut self, name: usize, list: Vec<Handle>)
        // requires { name < length self.old }
        // ensures { names_of self.new ≡ bound name list.items (names_of self.old) }
    {
        self.lists[name] = list;
    }
}
