// Made of crates/ent_storage/src/columns.rt by rust/erase. It isn't edited by hand.

use alloc::vec::Vec;
use crate::kit::vec::FallibleVec;
use super::sparse_set::SparseSet;
use crate::handles::ComponentId;
use crate::kit::alloc::AllocError;

/// A copy of each column.
///
/// <details><summary>Contract</summary>
///
/// <code style="display: block; tab-size: 4; white-space: pre-wrap">// In the words of [contracts](crate::contracts):
/// ensures { [IfOk](crate::contracts::logic#IfOk) result (λ copies. [AllZip](crate::contracts::logic#AllZip) [IsCopy](crate::contracts::ent_storage::copies#IsCopy) columns.now copies.items) }
/// </code>
///
/// </details>
#[inline]
pub fn try_clone(columns: &[SparseSet]) -> Result<Vec<SparseSet>, AllocError> {
    let mut copies = Vec::with_capacity_fallibly(columns.len())?;
    for column in columns {
        copies.push_fallibly(column.try_clone()?)?;
    }
    Ok(copies)
}

/// Makes room for the values of other columns. All values are as before.
#[inline]
pub(crate) fn reserve_for(
    columns: &mut Vec<SparseSet>,
    used: &mut Vec<u8>,
    source: &[SparseSet],
) -> Result<(), AllocError>
    // requires numbered { length columns.old.items ≤ 256 }
    // requires source_numbered { length source.now ≤ 256 }
    // requires in_use { AreInUse used.old.items columns.old.items }
    // ensures in_use { AreInUse used.new.items columns.new.items }
    // ensures values { (number : ℕ) → (column_at columns.new.items number).values
    //     ≡ (column_at columns.old.items number).values }
    // ensures ok { OnOk result ((number : ℕ) → HasRoomFor (column_at columns.new.items number)
    //     (column_at source.now number)) }
    // ensures numbered { length columns.new.items ≤ 256 }
    // ensures memory { OnErr result
    //     (¬ ((number : ℕ) → (column_at source.now number).values ≡ map.empty)) }
{
    for number in 0..source.len() {
        reserve_one_for(columns, used, number, &source[number])?;
    }
    Ok(())
}

/// Makes room for the values of another column in that of the number.
#[inline]
fn reserve_one_for(
    columns: &mut Vec<SparseSet>,
    used: &mut Vec<u8>,
    number: usize,
    source: &SparseSet,
) -> Result<(), AllocError>
    // requires number { number < 256 }
    // requires numbered { length columns.old.items ≤ 256 }
    // requires in_use { AreInUse used.old.items columns.old.items }
    // ensures in_use { AreInUse used.new.items columns.new.items }
    // ensures values { (other : ℕ) → (column_at columns.new.items other).values
    //     ≡ (column_at columns.old.items other).values }
    // ensures ok { OnOk result (HasRoomFor (column_at columns.new.items number) source.now) }
    // ensures kept { (other : ℕ) (column : Column)
    //     → HasRoomFor (column_at columns.old.items other) column
    //     → HasRoomFor (column_at columns.new.items other) column }
    // ensures numbered { length columns.new.items ≤ 256 }
    // ensures memory { OnErr result (source.now.values ≢ map.empty) }
{
    if !source.has_values() {
        return Ok(());
    }
    put_in_use(columns, used, ComponentId(number as u8))?;
    columns[number].reserve_for(source)
}

/// Gives each column the values of the other one of its number. There has to be room for them.
#[inline]
pub(crate) fn take_over(columns: &mut [SparseSet], source: &[SparseSet])
    // requires { (number : ℕ) → HasRoomFor (column_at columns.old number)
    //     (column_at source.now number) }
    // ensures values { (number : ℕ) → (column_at columns.new number).values
    //     ≡ (column_at source.now number).values }
    // ensures rest { (number : ℕ) → column_at columns.old number ≡ no_column
    //     → column_at columns.new number ≡ no_column }
    // ensures len { length columns.new ≡ length columns.old }
{
    for number in 0..columns.len() {
        take_over_one(columns, number, source);
    }
}

/// Gives the column of the number the values of the other one.
#[inline]
fn take_over_one(columns: &mut [SparseSet], number: usize, source: &[SparseSet])
    // requires inside { number < length columns.old }
    // requires room { HasRoomFor (column_at columns.old number) (column_at source.now number) }
    // ensures values { (column_at columns.new number).values
    //     ≡ (column_at source.now number).values }
    // ensures others { (other : ℕ) → other ≢ number
    //     → column_at columns.new other ≡ column_at columns.old other }
    // ensures rest { column_at columns.old number ≡ no_column
    //     → column_at columns.new number ≡ no_column }
    // ensures len { length columns.new ≡ length columns.old }
{
    match source.get(number) {
        Some(column) => columns[number].take_over(column),
        None => columns[number].clear(),
    }
}

/// The value of the component at the place, if the entity there has it.
///
/// <details><summary>Contract</summary>
///
/// <code style="display: block; tab-size: 4; white-space: pre-wrap">// In the words of [contracts](crate::contracts):
/// ensures { result ≡ [value_at](crate::contracts::ent_storage::living#value_at) columns.now place id }
/// </code>
///
/// </details>
#[inline]
pub fn value(columns: &[SparseSet], place: usize, id: ComponentId) -> Option<i64> {
    columns.get(id.0 as usize)?.get(place)
}

/// Makes room for the items at the place. After an `Err` all values are as before.
#[inline(always)]
pub(crate) fn reserve_all(
    columns: &mut Vec<SparseSet>,
    used: &mut Vec<u8>,
    place: usize,
    items: &[(ComponentId, i64)],
) -> Result<(), AllocError>
    // requires numbered { length columns.old.items ≤ 256 }
    // requires in_use { AreInUse used.old.items columns.old.items }
    // ensures in_use { AreInUse used.new.items columns.new.items }
    // ensures values { (number : ℕ) → (column_at columns.new.items number).values
    //     ≡ (column_at columns.old.items number).values }
    // ensures ok { OnOk result
    //     (All (λ item. HasRoomAt (column_at columns.new.items item.0.0) place) items.now) }
    // ensures growing { OnErr result (0 < missing (components_at columns.old.items place) items.now) }
    // ensures numbered { length columns.new.items ≤ 256 }
{
    for item in items {
        reserve(columns, used, place, item.0)?;
    }
    Ok(())
}

/// Makes room for a value of the component at the place. It takes memory only if there is none.
#[inline(always)]
fn reserve(
    columns: &mut Vec<SparseSet>,
    used: &mut Vec<u8>,
    place: usize,
    id: ComponentId,
) -> Result<(), AllocError>
    // requires numbered { length columns.old.items ≤ 256 }
    // requires in_use { AreInUse used.old.items columns.old.items }
    // ensures in_use { AreInUse used.new.items columns.new.items }
    // ensures values { (number : ℕ) → (column_at columns.new.items number).values
    //     ≡ (column_at columns.old.items number).values }
    // ensures ok { OnOk result (HasRoomAt (column_at columns.new.items id.0) place) }
    // ensures kept { (number : ℕ) → HasRoomAt (column_at columns.old.items number) place
    //     → HasRoomAt (column_at columns.new.items number) place }
    // ensures growing { OnErr result (value_at columns.old.items place id ≡ None) }
    // ensures numbered { length columns.new.items ≤ 256 }
{
    if has_room(columns, place, id) || value(columns, place, id).is_some() {
        return Ok(());
    }
    put_in_use(columns, used, id)?;
    columns[id.0 as usize].reserve(place)
}

/// Whether a value of the component can be set at the place without memory. It may say no of a
/// place that has a value.
#[inline]
fn has_room(columns: &[SparseSet], place: usize, id: ComponentId) -> bool
    // ensures { IsTrue result → HasRoomAt (column_at columns.now id.0) place }
{
    match columns.get(id.0 as usize) {
        Some(column) => column.has_room(place),
        None => false,
    }
}

/// Makes the component's column one that is there and in use. All values are as before.
#[inline(always)]
fn put_in_use(
    columns: &mut Vec<SparseSet>,
    used: &mut Vec<u8>,
    id: ComponentId,
) -> Result<(), AllocError>
    // requires numbered { length columns.old.items ≤ 256 }
    // requires in_use { AreInUse used.old.items columns.old.items }
    // ensures in_use { AreInUse used.new.items columns.new.items }
    // ensures same { (number : ℕ) → column_at columns.new.items number
    //     ≡ column_at columns.old.items number }
    // ensures there { OnOk result (id.0 < length columns.new.items) }
    // ensures ok { OnOk result (Contains used.new.items id.0) }
    // ensures numbered { length columns.new.items ≤ 256 }
{
    if is_in_use(columns, id) {
        return Ok(());
    }
    grow(columns, id.0 as usize + 1)?;
    mark(used, id.0)
}

/// Whether the component's column has had room before, and so is there and in use.
#[inline]
fn is_in_use(columns: &[SparseSet], id: ComponentId) -> bool
    // ensures there { IsTrue result → id.0 < length columns.now }
    // ensures places { IsTrue result → 0 < (column_at columns.now id.0).places }
{
    match columns.get(id.0 as usize) {
        Some(column) => column.has_places(),
        None => false,
    }
}

/// Writes down that the column of the number is in use. The numbers stay in rising order.
#[inline(never)]
fn mark(used: &mut Vec<u8>, number: u8) -> Result<(), AllocError>
    // ensures in_use { (columns : List Column) → number < length columns
    //     → AreInUse used.old.items columns → AreInUse used.new.items columns }
    // ensures ok { OnOk result (Contains used.new.items number) }
{
    if let Err(gap) = used.binary_search(&number) {
        used.insert_fallibly(gap, number)?;
    }
    Ok(())
}

/// Adds columns without values until there are that many.
#[inline(never)]
fn grow(columns: &mut Vec<SparseSet>, count: usize) -> Result<(), AllocError>
    // requires numbered { length columns.old.items ≤ 256 }
    // requires count { count ≤ 256 }
    // ensures same { (number : ℕ) → column_at columns.new.items number
    //     ≡ column_at columns.old.items number }
    // ensures ok { OnOk result (count ≤ length columns.new.items) }
    // ensures longer { length columns.old.items ≤ length columns.new.items }
    // ensures numbered { length columns.new.items ≤ 256 }
{
    for _ in columns.len()..count {
        columns.push_fallibly(SparseSet::new())?;
    }
    Ok(())
}

/// Sets each of the items at the place. There has to be room for them.
#[inline(always)]
pub(crate) fn set_all(columns: &mut [SparseSet], place: usize, items: &[(ComponentId, i64)])
    // requires { All (λ item. HasRoomAt (column_at columns.old item.0.0) place) items.now }
    // ensures here { components_at columns.new place
    //     ≡ with_items (components_at columns.old place) items.now }
    // ensures others { (other : ℕ) (id : ComponentId) → other ≢ place
    //     → value_at columns.new other id ≡ value_at columns.old other id }
    // ensures rest { (number : ℕ) → column_at columns.old number ≡ no_column
    //     → column_at columns.new number ≡ no_column }
    // ensures len { length columns.new ≡ length columns.old }
{
    for item in items {
        set(columns, place, *item);
    }
}

/// Sets the value of one component at the place. There has to be room for it.
#[inline]
fn set(columns: &mut [SparseSet], place: usize, item: (ComponentId, i64))
    // requires { HasRoomAt (column_at columns.old item.0.0) place }
    // ensures set { (column_at columns.new item.0.0).values
    //     ≡ map.insert (column_at columns.old item.0.0).values place item.1 }
    // ensures others { (number : ℕ) → number ≢ item.0.0
    //     → column_at columns.new number ≡ column_at columns.old number }
    // ensures len { length columns.new ≡ length columns.old }
{
    columns[item.0.0 as usize].set(place, item.1);
}

/// Takes the value of one component at the place out, and returns it.
///
/// <details><summary>Contract</summary>
///
/// <code style="display: block; tab-size: 4; white-space: pre-wrap">// In the words of [contracts](crate::contracts):
/// ensures value { result ≡ [value_at](crate::contracts::ent_storage::living#value_at) columns.old place id }
/// ensures here { [components_at](crate::contracts::ent_storage::living#components_at) columns.new place
/// &#9;≡ [map.remove](crate::contracts::logic#FinMap.remove) ([components_at](crate::contracts::ent_storage::living#components_at) columns.old place) id }
/// ensures others { (other : [ℕ](crate::contracts::logic#ℕ)) (id : ComponentId) → other ≢ place
/// &#9;→ [value_at](crate::contracts::ent_storage::living#value_at) columns.new other id ≡ [value_at](crate::contracts::ent_storage::living#value_at) columns.old other id }
/// ensures rest { (number : [ℕ](crate::contracts::logic#ℕ)) → [column_at](crate::contracts::ent_storage::living#column_at) columns.old number ≡ [no_column](crate::contracts::ent_storage::sparse_set#no_column)
/// &#9;→ [column_at](crate::contracts::ent_storage::living#column_at) columns.new number ≡ [no_column](crate::contracts::ent_storage::sparse_set#no_column) }
/// ensures len { [length](crate::contracts::logic#length) columns.new ≡ [length](crate::contracts::logic#length) columns.old }
/// </code>
///
/// </details>
#[inline(always)]
pub fn remove(columns: &mut [SparseSet], place: usize, id: ComponentId) -> Option<i64> {
    let number = id.0 as usize;
    if number < columns.len() {
        columns[number].remove(place)
    } else {
        None
    }
}

/// Takes all values at the place out, and moves those at the last place there. Only the columns in
/// use are looked at.
#[inline(always)]
pub(crate) fn swap_remove(columns: &mut [SparseSet], used: &[u8], place: usize, last: usize)
    // requires before { place ≤ last }
    // requires in_use { AreInUse used.now columns.old }
    // ensures in_use { AreInUse used.now columns.new }
    // ensures moved { (number : ℕ) → IsMovedDown place last (column_at columns.old number).values
    //     (column_at columns.new number).values }
    // ensures len { length columns.new ≡ length columns.old }
{
    for number in used {
        columns[*number as usize].swap_remove(place, last);
    }
}
