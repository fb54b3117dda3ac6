// Made of crates/ent_replay/src/handle_list.rt by rust/erase. It isn't edited by hand.

use alloc::vec::Vec;
use crate::kit::vec::FallibleVec;
use crate::handles::{Handle, OutOfMemory};
use core::fmt;

/// The handles of an answer, in their order.
///
/// ```
/// use forgeni::{trace, Handle};
///
/// let born: Vec<Handle> = vec!["0v1".parse()?, "1v1".parse()?];
/// // It is printed as a line of a trace has it.
/// let reply = trace::FlushReply::from(born);
/// assert_eq!(trace::Call::Flush(Some(reply)).to_string(), "flush => born 0v1 1v1");
/// # Ok::<(), Box<dyn std::error::Error>>(())
/// ```
pub struct HandleList {
    handles: Vec<Handle>,
}

impl HandleList {
    /// Creates a list of these handles. It doesn't allocate.
    ///
    /// ```
    /// use forgeni::trace;
    ///
    /// let list = trace::HandleList::new(vec!["0v1".parse()?, "1v1".parse()?]);
    /// assert_eq!(list.iter().map(|one| one.index()).collect::<Vec<_>>(), [0, 1]);
    /// # Ok::<(), Box<dyn std::error::Error>>(())
    /// ```
    ///
    /// <details><summary>Contract</summary>
    ///
    /// <code style="display: block; tab-size: 4; white-space: pre-wrap">// In the words of [contracts](crate::contracts):
    /// ensures { result ≡ handles.items }
    /// </code>
    ///
    /// </details>
    #[must_use]
    #[inline]
    pub fn new(handles: Vec<Handle>) -> Self {
        HandleList { handles }
    }

    /// Returns the handles as a slice.
    ///
    /// ```
    /// use forgeni::{trace, Handle};
    ///
    /// let handles: Vec<Handle> = vec!["0v1".parse()?, "1v1".parse()?];
    /// let list = trace::HandleList::from(handles.clone());
    /// assert_eq!(list.as_slice(), handles);
    /// # Ok::<(), Box<dyn std::error::Error>>(())
    /// ```
    ///
    /// <details><summary>Contract</summary>
    ///
    /// <code style="display: block; tab-size: 4; white-space: pre-wrap">// In the words of [contracts](crate::contracts):
    /// ensures { result.now ≡ self.now }
    /// </code>
    ///
    /// </details>
    #[must_use]
    #[inline]
    pub fn as_slice(&self) -> &[Handle] {
        &self.handles
    }

    /// Returns the number of handles.
    ///
    /// ```
    /// use forgeni::trace;
    ///
    /// let list = trace::HandleList::new(vec!["0v1".parse()?, "1v1".parse()?]);
    /// assert_eq!(list.len(), 2);
    /// # Ok::<(), forgeni::ParseHandleError>(())
    /// ```
    ///
    /// <details><summary>Contract</summary>
    ///
    /// <code style="display: block; tab-size: 4; white-space: pre-wrap">// In the words of [contracts](crate::contracts):
    /// ensures { result ≡ [length](crate::contracts::logic#length) self.now }
    /// </code>
    ///
    /// </details>
    #[must_use]
    #[inline]
    pub fn len(&self) -> usize {
        self.handles.len()
    }

    /// Returns `true` if there are no handles.
    ///
    /// ```
    /// use forgeni::trace;
    ///
    /// assert!(trace::HandleList::new(Vec::new()).is_empty());
    /// ```
    ///
    /// <details><summary>Contract</summary>
    ///
    /// <code style="display: block; tab-size: 4; white-space: pre-wrap">// In the words of [contracts](crate::contracts):
    /// ensures { [IsTrue](crate::contracts::logic#IsTrue) result ↔ (self.now ≡ \[\]) }
    /// </code>
    ///
    /// </details>
    #[must_use]
    #[inline]
    pub fn is_empty(&self) -> bool {
        self.handles.is_empty()
    }

    /// A copy.
    #[inline]
    pub(super) fn try_copy(&self) -> Result<HandleList, OutOfMemory>
        // ensures { IfOk result (λ copy. copy ≡ self.now) }
    {
        let mut handles = Vec::new();
        handles.extend_from_slice_fallibly(&self.handles)?;
        Ok(HandleList { handles })
    }

    /// Returns the handles, without copying them.
    ///
    /// ```
    /// use forgeni::{trace, Entities};
    ///
    /// let reply = trace::ReserveReply::from(Entities::new().request_many(3)?);
    /// if let trace::ReserveReply::Handles(list) = reply {
    ///     assert_eq!(list.into_vec().len(), 3);
    /// }
    /// # Ok::<(), Box<dyn std::error::Error>>(())
    /// ```
    ///
    /// <details><summary>Contract</summary>
    ///
    /// <code style="display: block; tab-size: 4; white-space: pre-wrap">// In the words of [contracts](crate::contracts):
    /// ensures { result.items ≡ self }
    /// </code>
    ///
    /// </details>
    #[must_use]
    #[inline]
    pub fn into_vec(self) -> Vec<Handle> {
        let HandleList { handles } = self;
        handles
    }
}

impl fmt::Debug for HandleList {
    #[inline]
    fn fmt(&self, f: &mut fmt::Formatter<'_>) -> fmt::Result {
        let handles = self.as_slice();
        write!(f, "{handles:?}")
    }
}

impl PartialEq for HandleList {
    #[inline]
    fn eq(&self, other: &HandleList) -> bool {
        self.as_slice() == other.as_slice()
    }
}

impl Eq for HandleList {}

impl From<Vec<Handle>> for HandleList {
    #[inline]
    fn from(handles: Vec<Handle>) -> Self {
        HandleList::new(handles)
    }
}
