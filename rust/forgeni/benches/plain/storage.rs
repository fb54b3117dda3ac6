//! The living entities in one vector, with a sparse index by slot, and each component in a sparse
//! set by the entities' places in that vector.

use super::allocator::Handle;
use super::bundle::Item;

/// When and by whom an entity was brought to life.
#[derive(Clone, Copy)]
pub struct Birth {
    // Nothing reads them. They are here because an entity of `ent_storage` has them too.
    #[allow(dead_code)]
    pub frame: u64,
    #[allow(dead_code)]
    pub system: u32,
    pub ordinal: u32,
}

#[derive(Clone, Copy)]
struct Living {
    handle: Handle,
    #[allow(dead_code)]
    birth: Birth,
}

#[derive(Default)]
pub struct Storage {
    living: Vec<Living>,
    /// By slot: the place of its entity. It counts only if the entity there has the handle.
    places: Vec<u32>,
    /// By number of the component.
    components: Vec<SparseSet>,
}

impl Storage {
    pub fn len(&self) -> usize {
        self.living.len()
    }

    pub fn reserve(&mut self, additional: usize) {
        self.living.reserve(additional);
    }

    /// The place of the entity, if it is there.
    pub fn place(&self, handle: Handle) -> Option<usize> {
        let place = *self.places.get(handle.index as usize)? as usize;
        let living = self.living.get(place)?;
        (living.handle.to_bits() == handle.to_bits()).then_some(place)
    }

    pub fn get(&self, handle: Handle, id: u8) -> Option<i64> {
        let place = self.place(handle)?;
        self.components.get(usize::from(id))?.get(place)
    }

    /// Adds an entity without components, if it is not there.
    pub fn born(&mut self, handle: Handle, birth: Birth) {
        if self.place(handle).is_some() {
            return;
        }
        let slot = handle.index as usize;
        if slot >= self.places.len() {
            self.places.resize(slot + 1, 0);
        }
        self.places[slot] = self.living.len() as u32;
        self.living.push(Living { handle, birth });
    }

    /// Sets each of the components of the entity at the place.
    pub fn insert(&mut self, place: usize, items: &[Item]) {
        for (id, value) in items {
            let number = usize::from(*id);
            if number >= self.components.len() {
                self.components.resize_with(number + 1, SparseSet::default);
            }
            self.components[number].set(place, *value);
        }
    }

    /// Takes the component out of the entity at the place.
    pub fn remove(&mut self, place: usize, id: u8) -> Option<i64> {
        self.components.get_mut(usize::from(id))?.remove(place)
    }

    /// Takes out the entity at the place. The last one moves there.
    pub fn despawn(&mut self, place: usize) {
        let last = self.living.len() - 1;
        self.living.swap_remove(place);
        if let Some(moved) = self.living.get(place) {
            self.places[moved.handle.index as usize] = place as u32;
        }
        for component in &mut self.components {
            component.swap_remove(place, last);
        }
    }
}

/// The values of one component.
#[derive(Default)]
struct SparseSet {
    /// Places and values, in no order.
    dense: Vec<(u32, i64)>,
    /// By place: the position of its pair. It counts only if the pair there has the place.
    sparse: Vec<u32>,
}

impl SparseSet {
    fn position(&self, place: usize) -> Option<usize> {
        let position = *self.sparse.get(place)? as usize;
        let pair = self.dense.get(position)?;
        (pair.0 as usize == place).then_some(position)
    }

    fn get(&self, place: usize) -> Option<i64> {
        Some(self.dense[self.position(place)?].1)
    }

    fn set(&mut self, place: usize, value: i64) {
        if let Some(position) = self.position(place) {
            self.dense[position].1 = value;
            return;
        }
        if place >= self.sparse.len() {
            self.sparse.resize(place + 1, 0);
        }
        self.sparse[place] = self.dense.len() as u32;
        self.dense.push((place as u32, value));
    }

    fn remove(&mut self, place: usize) -> Option<i64> {
        let position = self.position(place)?;
        let (_, value) = self.dense.swap_remove(position);
        if let Some(moved) = self.dense.get(position) {
            self.sparse[moved.0 as usize] = position as u32;
        }
        Some(value)
    }

    /// Takes the value of the place out, and moves that of the last place there.
    fn swap_remove(&mut self, place: usize, last: usize) {
        self.remove(place);
        if place == last {
            return;
        }
        if let Some(position) = self.position(last) {
            self.dense[position].0 = place as u32;
            self.sparse[place] = position as u32;
        }
    }
}
