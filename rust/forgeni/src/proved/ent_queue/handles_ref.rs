// Made of crates/ent_queue/src/handles_ref.rt by rust/erase. It isn't edited by hand.

use crate::commands::reading::read_handle;
use crate::handles::Handle;

/// How many bytes a handle has.
const HANDLE: usize = 8;

/// The handles of one command, read in place.
pub struct HandlesRef<'a> {
    handles: &'a [[u8; HANDLE]],
}

impl<'a> HandlesRef<'a> {
    /// That many handles at the front of the bytes, and the bytes after them.
    #[inline]
    pub(super) fn read(bytes: &'a [u8], count: u32) -> (Self, &'a [u8])
        // requires long { 8 * count ≤ length bytes.now }
        // requires each { All IsHandle (unpacked_handles count bytes.now) }
        // ensures value { result.0 ≡ unpacked_handles count bytes.now }
        // ensures rest { result.1.now ≡ drop (8 * count) bytes.now }
    {
        let (handles, rest) = bytes.split_at(HANDLE * count as usize);
        let (handles, _) = handles.as_chunks();
        (HandlesRef { handles }, rest)
    }

    /// Returns the number of handles.
    ///
    /// <details><summary>Contract</summary>
    ///
    /// <code style="display: block; tab-size: 4; white-space: pre-wrap">// In the words of [contracts](crate::contracts):
    /// ensures { result ≡ [length](crate::contracts::logic#length) self.now }
    /// </code>
    ///
    /// </details>
    #[inline]
    pub fn len(&self) -> usize {
        self.handles.len()
    }

    /// Returns `true` if there is none.
    ///
    /// <details><summary>Contract</summary>
    ///
    /// <code style="display: block; tab-size: 4; white-space: pre-wrap">// In the words of [contracts](crate::contracts):
    /// ensures { [IsTrue](crate::contracts::logic#IsTrue) result ↔ (self.now ≡ \[\]) }
    /// </code>
    ///
    /// </details>
    #[inline]
    pub fn is_empty(&self) -> bool {
        self.handles.is_empty()
    }

    /// The handles, in the order of the reply.
    ///
    /// <details><summary>Contract</summary>
    ///
    /// <code style="display: block; tab-size: 4; white-space: pre-wrap">// In the words of [contracts](crate::contracts):
    /// ensures { result ≡ self.now }
    /// </code>
    ///
    /// </details>
    #[inline]
    pub fn iter(&self) -> Handles<'a> {
        Handles {
            left: HandlesRef {
                handles: self.handles,
            },
        }
    }
}

/// Yields the handles of one command, in the order of the reply.
pub struct Handles<'a> {
    left: HandlesRef<'a>,
}

impl Iterator for Handles<'_> {
    type Item = Handle;

    #[inline]
    fn next(&mut self) -> Option<Handle> {
        let left = &mut self.left;
        let (first, others) = left.handles.split_first()?;
        left.handles = others;
        Some(handle_of(first))
    }

    #[inline]
    fn size_hint(&self) -> (usize, Option<usize>)
        // ensures lower { IsWithinCount result.0 (item_count (λ handles. handles) self.now) }
        // ensures upper { IfSome result.1 (UpTo (item_count (λ handles. handles) self.now)) }
        // ensures exact { result ≡ (length self.now, Some (length self.now)) }
    {
        (self.left.len(), Some(self.left.len()))
    }
}

impl ExactSizeIterator for Handles<'_> {
    #[inline]
    fn len(&self) -> usize {
        self.left.len()
    }
}

/// The handle that these bytes are.
#[inline]
fn handle_of(bytes: &[u8; HANDLE]) -> Handle
    // requires { IsHandle (unpacked_handle bytes.now) }
    // ensures { result ≡ unpacked_handle bytes.now }
{
    read_handle(bytes).0
}
