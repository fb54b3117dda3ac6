//! Sparse sets in plain Rust: what living entities are made of.

/// Index and generation.
pub type Handle = (u32, u32);

/// Frame, system and ordinal.
pub type Birth = (u64, u32, u32);

#[derive(Default)]
struct Column {
    dense: Vec<(usize, i64)>,
    sparse: Vec<usize>,
}

impl Column {
    fn position(&self, place: usize) -> Option<usize> {
        let position = *self.sparse.get(place)?;
        (self.dense.get(position)?.0 == place).then_some(position)
    }

    fn set(&mut self, place: usize, value: i64) {
        if let Some(position) = self.position(place) {
            self.dense[position].1 = value;
            return;
        }
        if self.sparse.len() <= place {
            self.sparse.resize(place + 1, 0);
        }
        self.sparse[place] = self.dense.len();
        self.dense.push((place, value));
    }

    fn remove(&mut self, place: usize) {
        if let Some(position) = self.position(place) {
            self.dense.swap_remove(position);
            if let Some(moved) = self.dense.get(position) {
                self.sparse[moved.0] = position;
            }
        }
    }

    fn relocate(&mut self, from: usize, to: usize) {
        if let Some(position) = self.position(from) {
            self.dense[position].0 = to;
            self.sparse[to] = position;
        }
    }
}

/// Sparse sets: the entities in a vector, the place of each slot in another one, and for each
/// component its values by place.
#[derive(Default)]
pub struct SparseSet {
    places: Vec<u32>,
    rows: Vec<(Handle, Birth)>,
    columns: Vec<Column>,
}

impl SparseSet {
    fn place(&self, handle: Handle) -> Option<usize> {
        let place = *self.places.get(handle.0 as usize)? as usize;
        (self.rows.get(place)?.0 == handle).then_some(place)
    }

    fn get_at(&self, place: usize, id: u8) -> Option<i64> {
        let column = self.columns.get(id as usize)?;
        Some(column.dense[column.position(place)?].1)
    }

    fn despawn_at(&mut self, place: usize) {
        let last = self.rows.len() - 1;
        for column in &mut self.columns {
            column.remove(place);
            column.relocate(last, place);
        }
        self.rows.swap_remove(place);
        if let Some(moved) = self.rows.get(place) {
            self.places[moved.0 .0 as usize] = place as u32;
        }
    }
}

impl SparseSet {
    pub fn born(&mut self, handle: Handle, ordinal: u32) -> bool {
        if self.place(handle).is_some() {
            return false;
        }
        let index = handle.0 as usize;
        if self.places.len() <= index {
            self.places.resize(index + 1, u32::MAX);
        }
        self.places[index] = self.rows.len() as u32;
        self.rows.push((handle, (0, 0, ordinal)));
        true
    }

    pub fn despawn(&mut self, handle: Handle) -> bool {
        let Some(place) = self.place(handle) else {
            return false;
        };
        self.despawn_at(place);
        true
    }

    pub fn insert(&mut self, handle: Handle, id: u8, value: i64) -> bool {
        let Some(place) = self.place(handle) else {
            return false;
        };
        while self.columns.len() <= id as usize {
            self.columns.push(Column::default());
        }
        self.columns[id as usize].set(place, value);
        true
    }

    pub fn get(&self, handle: Handle, id: u8) -> Option<i64> {
        self.get_at(self.place(handle)?, id)
    }
}
