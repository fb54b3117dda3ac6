// Made of crates/ent_storage/src/sparse_set.rt by rust/erase. It isn't edited by hand.

use alloc::vec::Vec;
use crate::kit::vec::FallibleVec;
use super::lists::overwrite;
use super::places::MOST_PLACES;
use crate::kit::alloc::AllocError;

/// The values of one component, by the places of the entities that have it.
///
/// The dense vector has a pair of place and value for each of these entities, in no order. The
/// sparse vector has at a place the position of its pair. An entry counts only if the pair there
/// has the place, so nothing is cleared when a pair is removed.
pub struct SparseSet {
    dense: Vec<(usize, i64)>,
    sparse: Vec<u32>,
}

impl SparseSet {
    /// A set of no values, without room.
    ///
    /// <details><summary>Contract</summary>
    ///
    /// <code style="display: block; tab-size: 4; white-space: pre-wrap">// In the words of [contracts](crate::contracts):
    /// ensures { result ≡ [no_column](crate::contracts::ent_storage::sparse_set#no_column) }
    /// </code>
    ///
    /// </details>
    #[inline]
    pub fn new() -> Self {
        SparseSet {
            dense: Vec::new(),
            sparse: Vec::new(),
        }
    }

    /// A set with the same values.
    ///
    /// <details><summary>Contract</summary>
    ///
    /// <code style="display: block; tab-size: 4; white-space: pre-wrap">// In the words of [contracts](crate::contracts):
    /// ensures { [IfOk](crate::contracts::logic#IfOk) result ([IsCopy](crate::contracts::ent_storage::copies#IsCopy) self.now) }
    /// </code>
    ///
    /// </details>
    #[inline]
    pub fn try_clone(&self) -> Result<Self, AllocError> {
        if self.sparse.is_empty() {
            return Ok(SparseSet::new());
        }
        let mut dense = Vec::with_capacity_fallibly(self.dense.len())?;
        dense.extend_from_slice_fallibly(&self.dense)?;
        let mut sparse = Vec::with_capacity_fallibly(self.sparse.len())?;
        sparse.extend_from_slice_fallibly(&self.sparse)?;
        Ok(SparseSet { dense, sparse })
    }

    /// Makes room for the values of another set. After an `Err` the values are as before.
    ///
    /// <details><summary>Contract</summary>
    ///
    /// <code style="display: block; tab-size: 4; white-space: pre-wrap">// In the words of [contracts](crate::contracts):
    /// ensures values { self.new.values ≡ self.old.values }
    /// ensures ok { [OnOk](crate::contracts::logic#OnOk) result ([HasRoomFor](crate::contracts::ent_storage::sparse_set#HasRoomFor) self.new source.now) }
    /// ensures kept { (other : [Column](crate::contracts::ent_storage::sparse_set#Column)) → [HasRoomFor](crate::contracts::ent_storage::sparse_set#HasRoomFor) self.old other → [HasRoomFor](crate::contracts::ent_storage::sparse_set#HasRoomFor) self.new other }
    /// ensures memory { [OnErr](crate::contracts::logic#OnErr) result (source.now.values ≢ [map.empty](crate::contracts::logic#FinMap.empty)) }
    /// </code>
    ///
    /// </details>
    #[inline]
    pub fn reserve_for(&mut self, source: &SparseSet) -> Result<(), AllocError> {
        if source.dense.is_empty() {
            return Ok(());
        }
        let values = source.dense.len().saturating_sub(self.dense.len());
        self.dense.reserve_fallibly(values)?;
        let places = source.sparse.len().saturating_sub(self.sparse.len());
        self.sparse.reserve_fallibly(places)
    }

    /// Takes over the values of another set. There has to be room for them.
    #[inline]
    pub(crate) fn take_over(&mut self, source: &SparseSet)
        // requires { HasRoomFor self.old source.now }
        // ensures values { self.new.values ≡ source.now.values }
        // ensures none { self.old ≡ no_column → self.new ≡ no_column }
    {
        self.dense.clear();
        if !source.dense.is_empty() {
            overwrite(&mut self.dense, &source.dense);
            overwrite(&mut self.sparse, &source.sparse);
        }
    }

    /// Takes all values out. The room stays.
    ///
    /// <details><summary>Contract</summary>
    ///
    /// <code style="display: block; tab-size: 4; white-space: pre-wrap">// In the words of [contracts](crate::contracts):
    /// ensures values { self.new.values ≡ [map.empty](crate::contracts::logic#FinMap.empty) }
    /// ensures none { self.old ≡ [no_column](crate::contracts::ent_storage::sparse_set#no_column) → self.new ≡ [no_column](crate::contracts::ent_storage::sparse_set#no_column) }
    /// </code>
    ///
    /// </details>
    #[inline]
    pub fn clear(&mut self) {
        self.dense.clear();
    }

    /// Returns `true` if there is any value.
    ///
    /// <details><summary>Contract</summary>
    ///
    /// <code style="display: block; tab-size: 4; white-space: pre-wrap">// In the words of [contracts](crate::contracts):
    /// ensures some { [IsTrue](crate::contracts::logic#IsTrue) result → self.now.values ≢ [map.empty](crate::contracts::logic#FinMap.empty) }
    /// ensures none { ¬ ([IsTrue](crate::contracts::logic#IsTrue) result) → self.now.values ≡ [map.empty](crate::contracts::logic#FinMap.empty) }
    /// </code>
    ///
    /// </details>
    #[inline]
    pub fn has_values(&self) -> bool {
        !self.dense.is_empty()
    }

    /// The place and the value of each entity that has the component.
    ///
    /// <details><summary>Contract</summary>
    ///
    /// <code style="display: block; tab-size: 4; white-space: pre-wrap">// In the words of [contracts](crate::contracts):
    /// ensures has { (p : [ℕ](crate::contracts::logic#ℕ)) (v : [ℤ](crate::contracts::logic#ℤ)) → [Contains](crate::contracts::logic#Contains) result.now (p, v)
    /// &#9;→ [map.get](crate::contracts::logic#FinMap.get) self.now.values p ≡ [Some](crate::contracts::logic#Some) v }
    /// ensures all { (p : [ℕ](crate::contracts::logic#ℕ)) (v : [ℤ](crate::contracts::logic#ℤ)) → [map.get](crate::contracts::logic#FinMap.get) self.now.values p ≡ [Some](crate::contracts::logic#Some) v
    /// &#9;→ [Contains](crate::contracts::logic#Contains) result.now (p, v) }
    /// ensures once { (j k p : [ℕ](crate::contracts::logic#ℕ)) (v w : [ℤ](crate::contracts::logic#ℤ)) → [slice_get](crate::contracts::logic#slice_get) result.now j ≡ [Some](crate::contracts::logic#Some) (p, v)
    /// &#9;→ [slice_get](crate::contracts::logic#slice_get) result.now k ≡ [Some](crate::contracts::logic#Some) (p, w) → j ≡ k }
    /// </code>
    ///
    /// </details>
    #[inline]
    pub fn pairs(&self) -> &[(usize, i64)] {
        &self.dense
    }

    /// The value of the place, if it has one.
    ///
    /// <details><summary>Contract</summary>
    ///
    /// <code style="display: block; tab-size: 4; white-space: pre-wrap">// In the words of [contracts](crate::contracts):
    /// ensures { result ≡ [map.get](crate::contracts::logic#FinMap.get) self.now.values place }
    /// </code>
    ///
    /// </details>
    #[inline]
    pub fn get(&self, place: usize) -> Option<i64> {
        let position = position_of(&self.dense, &self.sparse, place)?;
        Some(self.dense[position as usize].1)
    }

    /// Sets the value of the place. There has to be room for it if it has none.
    #[inline(always)]
    pub(crate) fn set(&mut self, place: usize, value: i64)
        // requires { HasRoomAt self.old place }
        // ensures { self.new.values ≡ map.insert self.old.values place value }
    {
        match position_of(&self.dense, &self.sparse, place) {
            Some(position) => self.dense[position as usize] = (place, value),
            None => {
                self.sparse[place] = self.dense.len() as u32;
                self.dense.push_reserved((place, value));
            }
        }
    }

    /// Returns `true` if there is room for any place.
    ///
    /// <details><summary>Contract</summary>
    ///
    /// <code style="display: block; tab-size: 4; white-space: pre-wrap">// In the words of [contracts](crate::contracts):
    /// ensures { [IsTrue](crate::contracts::logic#IsTrue) result → 0 \< self.now.places }
    /// </code>
    ///
    /// </details>
    #[inline]
    pub fn has_places(&self) -> bool {
        !self.sparse.is_empty()
    }

    /// Returns `true` if there is room for one value more, and for one of the place.
    ///
    /// <details><summary>Contract</summary>
    ///
    /// <code style="display: block; tab-size: 4; white-space: pre-wrap">// In the words of [contracts](crate::contracts):
    /// ensures { [IsTrue](crate::contracts::logic#IsTrue) result → [HasRoomAt](crate::contracts::ent_storage::sparse_set#HasRoomAt) self.now place }
    /// </code>
    ///
    /// </details>
    #[inline]
    pub fn has_room(&self, place: usize) -> bool {
        (self.dense.len() as u64) < (self.dense.sized_capacity() as u64).min(MOST_PLACES)
            && place < self.sparse.len()
    }

    /// Makes room for a value of the place. After an `Err` the values are as before.
    ///
    /// <details><summary>Contract</summary>
    ///
    /// <code style="display: block; tab-size: 4; white-space: pre-wrap">// In the words of [contracts](crate::contracts):
    /// ensures values { self.new.values ≡ self.old.values }
    /// ensures ok { [OnOk](crate::contracts::logic#OnOk) result ([HasRoomAt](crate::contracts::ent_storage::sparse_set#HasRoomAt) self.new place) }
    /// ensures kept { [HasRoomAt](crate::contracts::ent_storage::sparse_set#HasRoomAt) self.old place → [HasRoomAt](crate::contracts::ent_storage::sparse_set#HasRoomAt) self.new place }
    /// </code>
    ///
    /// </details>
    #[inline]
    pub fn reserve(&mut self, place: usize) -> Result<(), AllocError> {
        if self.dense.len() as u64 >= MOST_PLACES {
            return Err(AllocError);
        }
        self.dense.reserve_fallibly(1)?;
        let places = place.checked_add(1).ok_or(AllocError)?;
        self.sparse
            .reserve_fallibly(places.saturating_sub(self.sparse.len()))?;
        // All the room is put to use at once, so that the next places are there.
        self.sparse.resize_fallibly(self.sparse.sized_capacity(), 0)
    }

    /// Takes the value of the place out, and returns it. It doesn't allocate.
    ///
    /// <details><summary>Contract</summary>
    ///
    /// <code style="display: block; tab-size: 4; white-space: pre-wrap">// In the words of [contracts](crate::contracts):
    /// ensures value { result ≡ [map.get](crate::contracts::logic#FinMap.get) self.old.values place }
    /// ensures after { self.new.values ≡ [map.remove](crate::contracts::logic#FinMap.remove) self.old.values place }
    /// ensures absent { result ≡ [None](crate::contracts::logic#None) → self.new ≡ self.old }
    /// </code>
    ///
    /// </details>
    #[inline(always)]
    pub fn remove(&mut self, place: usize) -> Option<i64> {
        let position = position_of(&self.dense, &self.sparse, place)?;
        let (_, value) = self.dense.swap_remove(position as usize);
        if (position as usize) < self.dense.len() {
            self.sparse[self.dense[position as usize].0] = position;
        }
        Some(value)
    }

    /// Moves the value of the later place, if it has one, to the earlier place, which has none. It
    /// doesn't allocate.
    #[inline(always)]
    fn relocate(&mut self, from: usize, to: usize)
        // requires before { to < from }
        // requires free { map.get self.old.values to ≡ None }
        // ensures { IsMovedDown to from self.old.values self.new.values }
    {
        if let Some(position) = position_of(&self.dense, &self.sparse, from) {
            self.dense[position as usize].0 = to;
            self.sparse[to] = position;
        }
    }

    /// Takes the value of the place out, and moves that of the last place there. It doesn't
    /// allocate.
    #[inline(always)]
    pub(crate) fn swap_remove(&mut self, place: usize, last: usize)
        // requires { place ≤ last }
        // ensures { IsMovedDown place last self.old.values self.new.values }
    {
        let _ = self.remove(place);
        if place < last {
            self.relocate(last, place);
        }
    }
}

/// The position of the pair that the place has in the dense vector.
#[inline]
fn position_of(dense: &[(usize, i64)], sparse: &[u32], place: usize) -> Option<u32>
    // requires { IsDense dense.now sparse.now }
    // ensures found { IfSome result
    //     (λ position. HoldsAt (λ pair. pair.0 ≡ place) dense.now position) }
    // ensures inside { IfSome result (λ position. position < length dense.now) }
    // ensures absent { result ≡ None
    //     → map.get (map.from_entries {R = nat_cmp} dense.now) place ≡ None }
{
    let position = *sparse.get(place)?;
    let pair = dense.get(position as usize)?;
    if pair.0 == place {
        Some(position)
    } else {
        None
    }
}
