// Made of crates/ent_storage/src/items.rt by rust/erase. It isn't edited by hand.

use super::columns;
use super::sparse_set::SparseSet;
use crate::handles::ComponentId;

/// An iterator over the components of one entity and their values, in ascending order of number.
///
/// It is created by [`Storage::items`](super::Storage::items). It borrows the storage and copies
/// nothing. It looks at the components that any entity has ever had, at most 256 of them.
///
/// ```
/// use forgeni::{ComponentId, Items, World};
///
/// fn print(items: Items<'_>) -> String {
///     items.map(|(id, value)| format!("{}={value} ", id.0)).collect()
/// }
///
/// let mut world = World::new();
/// let cart = world.spawn(&[(ComponentId(7), 2), (ComponentId(3), 1)])?;
/// assert_eq!(world.items(cart).map(print), Some("3=1 7=2 ".into()));
/// # Ok::<(), Box<dyn std::error::Error>>(())
/// ```
#[must_use]
pub struct Items<'a> {
    columns: &'a [SparseSet],
    used: &'a [u8],
    place: usize,
    left: usize,
}

impl<'a> Items<'a> {
    /// The items at the place. The numbers are those of the columns in use.
    #[inline]
    pub(super) fn new(columns: &'a [SparseSet], used: &'a [u8], place: usize) -> Self
        // requires { AreInUse used.now columns.now }
        // ensures { result ≡ map.entries (components_at columns.now place) }
    {
        Items {
            columns,
            used,
            place,
            left: count_of(columns, used, place),
        }
    }

    /// The same items once more. It doesn't allocate.
    #[inline]
    fn again(&self) -> Self
        // ensures { result ≡ self.now }
    {
        Items {
            columns: self.columns,
            used: self.used,
            place: self.place,
            left: self.left,
        }
    }
}

impl Clone for Items<'_> {
    #[inline]
    fn clone(&self) -> Self {
        self.again()
    }
}

impl Iterator for Items<'_> {
    type Item = (ComponentId, i64);

    #[inline]
    fn next(&mut self) -> Option<(ComponentId, i64)> {
        let (item, rest) = first_of(self.columns, self.used, self.place)?;
        self.used = rest;
        self.left -= 1;
        Some(item)
    }

    #[inline]
    fn size_hint(&self) -> (usize, Option<usize>)
        // ensures lower { IsWithinCount result.0 (item_count (λ items. items) self.now) }
        // ensures upper { IfSome result.1 (UpTo (item_count (λ items. items) self.now)) }
        // ensures exact { result ≡ (length self.now, Some (length self.now)) }
    {
        (self.left, Some(self.left))
    }
}

impl ExactSizeIterator for Items<'_> {
    #[inline]
    fn len(&self) -> usize {
        self.size_hint().0
    }
}

/// How many of the numbers have a value at the place.
#[inline]
fn count_of(columns: &[SparseSet], used: &[u8], place: usize) -> usize
    // ensures { result ≡ count_by
    //     (λ number. is_some (value_at columns.now place (record { 0 = number }))) used.now }
{
    used.iter()
        .filter(|number| columns::value(columns, place, ComponentId(**number)).is_some())
        .count()
}

/// The first item at the place, and the numbers after its own.
#[inline]
fn first_of<'a>(
    columns: &[SparseSet],
    used: &'a [u8],
    place: usize,
) -> Option<((ComponentId, i64), &'a [u8])>
    // ensures found { IfSome result (λ first. items_of used.now columns.now place
    //     ≡ first.0 ∷ items_of first.1.now columns.now place) }
    // ensures none { result ≡ None → items_of used.now columns.now place ≡ [] }
{
    for (position, number) in used.iter().enumerate() {
        let id = ComponentId(*number);
        if let Some(value) = columns::value(columns, place, id) {
            return Some(((id, value), &used[position + 1..]));
        }
    }
    None
}
