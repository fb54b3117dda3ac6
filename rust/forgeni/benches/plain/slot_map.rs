//! A slot map of keys alone, and a secondary map for the values, of the form of the crate slotmap,
//! in safe Rust.

use std::num::NonZeroU32;

#[derive(Clone, Copy)]
pub struct Key {
    pub index: u32,
    version: NonZeroU32,
}

/// A slot. Its version is odd while it has an occupant, and then the next free one says nothing.
struct Slot {
    version: u32,
    next_free: u32,
}

#[derive(Default)]
pub struct SlotMap {
    slots: Vec<Slot>,
    first_free: u32,
    len: u32,
}

impl SlotMap {
    /// A key of a slot that is free, or of a new one.
    pub fn insert(&mut self) -> Key {
        let index = self.first_free;
        let version = match self.slots.get_mut(index as usize) {
            Some(slot) => {
                self.first_free = slot.next_free;
                slot.version |= 1;
                slot.version
            }
            None => {
                self.slots.push(Slot {
                    version: 1,
                    next_free: 0,
                });
                self.first_free = self.slots.len() as u32;
                1
            }
        };
        self.len += 1;
        let version = NonZeroU32::new(version).expect("it is odd");
        Key { index, version }
    }

    /// Takes the key out, if it is there.
    pub fn remove(&mut self, key: Key) -> bool {
        match self.slots.get_mut(key.index as usize) {
            Some(slot) if slot.version == key.version.get() => {
                slot.next_free = self.first_free;
                slot.version = slot.version.wrapping_add(1);
                self.first_free = key.index;
                self.len -= 1;
                true
            }
            _ => false,
        }
    }
}

enum Place<T> {
    Vacant,
    Occupied { version: NonZeroU32, value: T },
}

pub struct SecondaryMap<T> {
    places: Vec<Place<T>>,
    len: usize,
}

impl<T> Default for SecondaryMap<T> {
    fn default() -> Self {
        Self {
            places: Vec::new(),
            len: 0,
        }
    }
}

impl<T> SecondaryMap<T> {
    pub fn insert(&mut self, key: Key, value: T) -> Option<T> {
        let (index, version) = (key.index as usize, key.version);
        if index >= self.places.len() {
            self.places.resize_with(index + 1, || Place::Vacant);
        }
        let place = &mut self.places[index];
        match place {
            Place::Occupied {
                version: there,
                value: old,
            } => {
                if *there == version {
                    return Some(std::mem::replace(old, value));
                }
                // An earlier key does nothing, also where the versions have come round.
                if (version.get().wrapping_sub(there.get()) as i32) < 0 {
                    return None;
                }
            }
            Place::Vacant => self.len += 1,
        }
        *place = Place::Occupied { version, value };
        None
    }

    pub fn get(&self, key: Key) -> Option<&T> {
        match self.places.get(key.index as usize) {
            Some(Place::Occupied { version, value }) if *version == key.version => Some(value),
            _ => None,
        }
    }

    pub fn remove(&mut self, key: Key) -> Option<T> {
        let place = self.places.get_mut(key.index as usize)?;
        match place {
            Place::Occupied { version, .. } if *version == key.version => {
                let before = std::mem::replace(place, Place::Vacant);
                self.len -= 1;
                match before {
                    Place::Occupied { value, .. } => Some(value),
                    Place::Vacant => None,
                }
            }
            _ => None,
        }
    }

    pub fn iter(&self) -> impl Iterator<Item = (Key, &T)> {
        let places = self.places.iter().enumerate();
        places.filter_map(|(index, place)| match *place {
            Place::Occupied { version, ref value } => {
                let index = index as u32;
                Some((Key { index, version }, value))
            }
            Place::Vacant => None,
        })
    }
}

/// A secondary map of two vectors: one of the versions, 0 where there is none, and one of the
/// values.
#[derive(Default)]
pub struct ApartMap<T> {
    versions: Vec<u32>,
    values: Vec<T>,
}

impl<T: Copy + Default> ApartMap<T> {
    pub fn insert(&mut self, key: Key, value: T) {
        let index = key.index as usize;
        if index >= self.versions.len() {
            self.versions.resize(index + 1, 0);
            self.values.resize(index + 1, T::default());
        }
        self.versions[index] = key.version.get();
        self.values[index] = value;
    }

    pub fn get(&self, key: Key) -> Option<&T> {
        match self.versions.get(key.index as usize) {
            Some(version) if *version == key.version.get() => self.values.get(key.index as usize),
            _ => None,
        }
    }

    pub fn remove(&mut self, key: Key) -> Option<T> {
        let version = self.versions.get_mut(key.index as usize)?;
        if *version != key.version.get() {
            return None;
        }
        *version = 0;
        self.values.get(key.index as usize).copied()
    }

    pub fn iter(&self) -> impl Iterator<Item = &T> {
        let places = self.versions.iter().zip(&self.values);
        places.filter_map(|(version, value)| (*version > 0).then_some(value))
    }
}
