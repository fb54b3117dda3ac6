//! The living entities and their components.

use crate::pool::{Handle, Pool};

/// A component's number and a value.
pub type Item = (u8, i64);

/// A frame, a system and an ordinal. A later birth is greater.
#[derive(Clone, Copy, PartialEq, Eq, PartialOrd, Ord)]
pub struct Birth(pub u32, pub u32, pub u32);

struct Row {
    birth: Birth,
    handle: Handle,
    alive: bool,
}

const NOWHERE: u32 = u32::MAX;

/// A sparse set: the values of a component one after the other, and where that of each slot lies.
#[derive(Default)]
struct Column {
    values: Vec<i64>,
    indexes: Vec<u32>,
    places: Vec<u32>,
}

impl Column {
    fn place(&self, index: u32) -> Option<usize> {
        let place = *self.places.get(index as usize)?;
        (place != NOWHERE).then_some(place as usize)
    }

    fn insert(&mut self, index: u32, value: i64) {
        match self.place(index) {
            Some(place) => self.values[place] = value,
            None => {
                let length = self.places.len().max(index as usize + 1);
                self.places.resize(length, NOWHERE);
                self.places[index as usize] = self.values.len() as u32;
                self.values.push(value);
                self.indexes.push(index);
            }
        }
    }

    fn remove(&mut self, index: u32) {
        let Some(place) = self.place(index) else {
            return;
        };
        self.places[index as usize] = NOWHERE;
        self.values.swap_remove(place);
        self.indexes.swap_remove(place);
        if let Some(&moved) = self.indexes.get(place) {
            self.places[moved as usize] = place as u32;
        }
    }
}

pub struct World {
    pub pool: Pool,
    /// By rising births. A dead entity keeps its row until the next sweep.
    rows: Vec<Row>,
    dead: usize,
    columns: Vec<Column>,
}

impl World {
    pub fn new(pool: Pool, components: usize) -> World {
        let columns = (0..components).map(|_| Column::default()).collect();
        World {
            pool,
            rows: Vec::new(),
            dead: 0,
            columns,
        }
    }

    /// Brings a handle to life that was reserved before the last flush.
    pub fn spawn(&mut self, handle: Handle, birth: Birth) {
        self.pool.set_row(handle.index, self.rows.len() as u32);
        self.rows.push(Row {
            birth,
            handle,
            alive: true,
        });
    }

    /// Gives an entity these components. False if it isn't alive; so of the other two changes.
    pub fn insert(&mut self, handle: Handle, items: &[Item]) -> bool {
        let alive = self.pool.row(handle).is_some();
        if alive {
            for &(component, value) in items {
                self.columns[component as usize].insert(handle.index, value);
            }
        }
        alive
    }

    pub fn remove(&mut self, handle: Handle, component: u8) -> bool {
        let alive = self.pool.row(handle).is_some();
        if alive {
            self.columns[component as usize].remove(handle.index);
        }
        alive
    }

    pub fn despawn(&mut self, handle: Handle) -> bool {
        let Some(row) = self.pool.row(handle) else {
            return false;
        };
        for column in &mut self.columns {
            column.remove(handle.index);
        }
        self.pool.free(handle.index);
        self.rows[row as usize].alive = false;
        self.dead += 1;
        true
    }

    /// Drops the rows of the dead once they are more than those of the living.
    pub fn sweep(&mut self) {
        if self.dead > self.alive() {
            self.rows.retain(|row| row.alive);
            self.dead = 0;
            for (place, row) in self.rows.iter().enumerate() {
                self.pool.set_row(row.handle.index, place as u32);
            }
        }
    }

    pub fn alive(&self) -> usize {
        self.rows.len() - self.dead
    }

    /// Each living entity, in the order of births.
    pub fn entities(&self) -> impl Iterator<Item = (Birth, Handle)> {
        let alive = self.rows.iter().filter(|row| row.alive);
        alive.map(|row| (row.birth, row.handle))
    }

    /// Each entity that has the component, in the order of births.
    pub fn having(&self, component: u8) -> Vec<Handle> {
        let indexes = self.columns[component as usize].indexes.iter();
        let mut rows: Vec<u32> = indexes.map(|&index| self.pool.row_at(index)).collect();
        rows.sort_unstable();
        rows.iter()
            .map(|&row| self.rows[row as usize].handle)
            .collect()
    }

    pub fn with_birth(&self, birth: Birth) -> Option<Handle> {
        let row = &self.rows[self
            .rows
            .binary_search_by_key(&birth, |row| row.birth)
            .ok()?];
        row.alive.then_some(row.handle)
    }

    pub fn value(&self, handle: Handle, component: usize) -> Option<i64> {
        let column = &self.columns[component];
        Some(column.values[column.place(handle.index)?])
    }
}
