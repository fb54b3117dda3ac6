// Made of crates/ent_queue/src/bundle_ref.rt by rust/erase. It isn't edited by hand.

use crate::commands::reading::{read_u8, read_u16, read_u64};
use crate::handles::ComponentId;

/// How many bytes an item has: its component's number, and its value.
const ITEM: usize = 9;

/// The components of one command and their values, read in place.
pub struct BundleRef<'a> {
    items: &'a [[u8; ITEM]],
}

impl<'a> BundleRef<'a> {
    /// The bundle at the front of the bytes, and the bytes after it.
    #[inline]
    pub(super) fn read(bytes: &'a [u8]) -> (Self, &'a [u8])
        // requires header { 2 ≤ length bytes.now }
        // requires items { 2 + 9 * number_2 bytes.now ≤ length bytes.now }
        // requires is { IsBundle (unpacked_bundle bytes.now) }
        // ensures value { result.0 ≡ unpacked_bundle bytes.now }
        // ensures rest { result.1.now ≡ drop (9 * number_2 bytes.now) (drop 2 bytes.now) }
    {
        let (count, bytes) = read_u16(bytes);
        let (items, rest) = bytes.split_at(ITEM * usize::from(count));
        let (items, _) = items.as_chunks();
        (BundleRef { items }, rest)
    }

    /// Returns the number of components.
    ///
    /// <details><summary>Contract</summary>
    ///
    /// <code style="display: block; tab-size: 4; white-space: pre-wrap">// In the words of [contracts](crate::contracts):
    /// ensures { result ≡ [length](crate::contracts::logic#length) self.now }
    /// </code>
    ///
    /// </details>
    #[inline]
    pub fn len(&self) -> usize {
        self.items.len()
    }

    /// Returns `true` if there is none.
    ///
    /// <details><summary>Contract</summary>
    ///
    /// <code style="display: block; tab-size: 4; white-space: pre-wrap">// In the words of [contracts](crate::contracts):
    /// ensures { [IsTrue](crate::contracts::logic#IsTrue) result ↔ (self.now ≡ \[\]) }
    /// </code>
    ///
    /// </details>
    #[inline]
    pub fn is_empty(&self) -> bool {
        self.items.is_empty()
    }

    /// Returns the components and their values, in strictly ascending order of number.
    ///
    /// <details><summary>Contract</summary>
    ///
    /// <code style="display: block; tab-size: 4; white-space: pre-wrap">// In the words of [contracts](crate::contracts):
    /// ensures items { result ≡ self.now }
    /// ensures rising { [T](crate::contracts::logic#T) ([is_sorted](crate::contracts::logic#FinMap.is_sorted) [component_cmp](crate::contracts::ent_handle::component#component_cmp) self.now) }
    /// </code>
    ///
    /// </details>
    #[inline]
    pub fn iter(&self) -> BundleItems<'a> {
        BundleItems { left: self.items }
    }
}

/// Yields the components of one command and their values, in strictly ascending order of number.
pub struct BundleItems<'a> {
    left: &'a [[u8; ITEM]],
}

impl Iterator for BundleItems<'_> {
    type Item = (ComponentId, i64);

    #[inline]
    fn next(&mut self) -> Option<(ComponentId, i64)> {
        let (first, others) = self.left.split_first()?;
        self.left = others;
        Some(item_of(first))
    }

    #[inline]
    fn size_hint(&self) -> (usize, Option<usize>)
        // ensures lower { IsWithinCount result.0 (item_count (λ items. items) self.now) }
        // ensures upper { IfSome result.1 (UpTo (item_count (λ items. items) self.now)) }
        // ensures exact { result ≡ (length self.now, Some (length self.now)) }
    {
        (self.left.len(), Some(self.left.len()))
    }
}

impl ExactSizeIterator for BundleItems<'_> {
    #[inline]
    fn len(&self) -> usize {
        self.left.len()
    }
}

/// The component and its value.
#[inline]
fn item_of(bytes: &[u8; ITEM]) -> (ComponentId, i64)
    // ensures { result ≡ unpacked_item bytes.now }
{
    let (id, value) = read_u8(bytes);
    let (value, _) = read_u64(value);
    (ComponentId(id), value.cast_signed())
}
