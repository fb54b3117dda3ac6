// Made of crates/ent_replay/src/caller_table.rt by rust/erase. It isn't edited by hand.

use alloc::vec::Vec;
use crate::kit::vec::FallibleVec;
use crate::handles::OutOfMemory;

/// A value for each of some callers, whose numbers are small.
///
/// It has a place for each number up to the greatest of a caller that had a value since the last
/// `clear`.
pub(super) struct CallerTable<V> {
    table: Vec<Option<V>>,
    // How many places have a value.
    count: usize,
}

impl<V: Copy> CallerTable<V> {
    /// No caller has a value. It doesn't allocate.
    #[inline]
    pub(super) fn new() -> Self
        // ensures { result ≡ map.empty }
    {
        CallerTable {
            table: Vec::new(),
            count: 0,
        }
    }

    /// Whether no caller has a value.
    #[inline]
    pub(super) fn is_empty(&self) -> bool
        // ensures { IsTrue result ↔ (self.now ≡ map.empty) }
    {
        self.count == 0
    }

    /// The caller's value, found in constant time.
    #[inline]
    pub(super) fn get(&self, caller: u32) -> Option<V>
        // ensures { result ≡ map.get self.now caller }
    {
        let place = caller as usize;
        if place < self.table.len() {
            self.table[place]
        } else {
            None
        }
    }

    /// Writes the caller's value. It takes memory for all callers up to this one.
    ///
    /// # Errors
    ///
    /// Nothing changes if memory runs out.
    #[inline]
    pub(super) fn insert(&mut self, caller: u32, value: V) -> Result<(), OutOfMemory>
        // ensures ok { OnOk result (self.new ≡ map.insert self.old caller value) }
        // ensures err { OnErr result (self.new ≡ self.old) }
    {
        lay_out(&mut self.table, caller)?;
        self.count = put(&mut self.table, self.count, caller, value);
        Ok(())
    }

    /// Writes the value of a caller that has one. It doesn't allocate.
    #[inline]
    pub(super) fn replace(&mut self, caller: u32, value: V)
        // requires { IsSome (map.get self.old caller) }
        // ensures { self.new ≡ map.insert self.old caller value }
    {
        self.count = put(&mut self.table, self.count, caller, value);
    }

    /// Takes the caller's value out, if there is one.
    #[inline]
    pub(super) fn remove(&mut self, caller: u32)
        // ensures { self.new ≡ map.remove self.old caller }
    {
        if (caller as usize) < self.table.len() {
            self.count = empty(&mut self.table, self.count, caller);
        }
    }

    /// Takes all values out.
    #[inline]
    pub(super) fn clear(&mut self)
        // ensures { self.new ≡ map.empty }
    {
        self.table.clear();
        self.count = 0;
    }
}

/// Gives the caller a place in the table, if it has none.
#[inline]
fn lay_out<V: Copy>(table: &mut Vec<Option<V>>, caller: u32) -> Result<(), OutOfMemory>
    // ensures place { OnOk result (caller < vec_len table.new) }
    // ensures values { by_place table.new.items ≡ by_place table.old.items }
    // ensures count { values_in table.new.items ≡ values_in table.old.items }
{
    let place = caller as usize;
    if place < table.len() {
        return Ok(());
    }
    Ok(table.resize_fallibly(place + 1, None)?)
}

/// Writes the caller's value, and returns how many values there are then.
#[inline]
fn put<V: Copy>(table: &mut [Option<V>], count: usize, caller: u32, value: V) -> usize
    // requires place { caller < length table.old }
    // requires count { count ≡ values_in table.old }
    // ensures values { by_place table.new ≡ map.insert (by_place table.old) caller value }
    // ensures count { result ≡ values_in table.new }
{
    let place = caller as usize;
    let old = table[place];
    table[place] = Some(value);
    match old {
        Some(_) => count,
        None => count + 1,
    }
}

/// Takes the caller's value out, and returns how many values there are then.
#[inline]
fn empty<V: Copy>(table: &mut [Option<V>], count: usize, caller: u32) -> usize
    // requires place { caller < length table.old }
    // requires count { count ≡ values_in table.old }
    // ensures values { by_place table.new ≡ map.remove (by_place table.old) caller }
    // ensures count { result ≡ values_in table.new }
{
    let place = caller as usize;
    let old = table[place];
    table[place] = None;
    match old {
        Some(_) => count - 1,
        None => count,
    }
}
