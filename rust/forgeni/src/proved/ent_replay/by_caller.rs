// Made of crates/ent_replay/src/by_caller.rt by rust/erase. It isn't edited by hand.

use crate::handles::OutOfMemory;
use crate::kit::collections::BTreeMap;

/// A value for each of some callers.
pub struct ByCaller<V> {
    values: BTreeMap<u32, V>,
}

impl<V: Copy> ByCaller<V> {
    /// No caller has a value. It doesn't allocate.
    ///
    /// <details><summary>Contract</summary>
    ///
    /// <code style="display: block; tab-size: 4; white-space: pre-wrap">// In the words of [contracts](crate::contracts):
    /// ensures { result ≡ [map.empty](crate::contracts::logic#FinMap.empty) }
    /// </code>
    ///
    /// </details>
    #[inline]
    pub fn new() -> Self {
        ByCaller {
            values: BTreeMap::new(),
        }
    }

    /// Returns `true` if no caller has a value.
    ///
    /// <details><summary>Contract</summary>
    ///
    /// <code style="display: block; tab-size: 4; white-space: pre-wrap">// In the words of [contracts](crate::contracts):
    /// ensures { [IsTrue](crate::contracts::logic#IsTrue) result ↔ (self.now ≡ [map.empty](crate::contracts::logic#FinMap.empty)) }
    /// </code>
    ///
    /// </details>
    #[inline]
    pub fn is_empty(&self) -> bool {
        self.values.is_empty()
    }

    /// The caller's value, found in logarithmic time.
    ///
    /// <details><summary>Contract</summary>
    ///
    /// <code style="display: block; tab-size: 4; white-space: pre-wrap">// In the words of [contracts](crate::contracts):
    /// ensures { result ≡ [map.get](crate::contracts::logic#FinMap.get) self.now caller }
    /// </code>
    ///
    /// </details>
    #[inline]
    pub fn get(&self, caller: u32) -> Option<V> {
        self.values.get(&caller).copied()
    }

    /// Writes the caller's value.
    ///
    /// # Errors
    ///
    /// Nothing changes if memory runs out.
    ///
    /// <details><summary>Contract</summary>
    ///
    /// <code style="display: block; tab-size: 4; white-space: pre-wrap">// In the words of [contracts](crate::contracts):
    /// ensures ok { [OnOk](crate::contracts::logic#OnOk) result (self.new ≡ [map.insert](crate::contracts::logic#FinMap.insert) self.old caller value) }
    /// ensures err { [OnErr](crate::contracts::logic#OnErr) result (self.new ≡ self.old) }
    /// </code>
    ///
    /// </details>
    #[inline]
    pub fn insert(&mut self, caller: u32, value: V) -> Result<(), OutOfMemory> {
        self.values.insert(caller, value)?;
        Ok(())
    }

    /// Writes the value of a caller that has one. It doesn't allocate.
    #[inline]
    pub(crate) fn replace(&mut self, caller: u32, value: V)
        // requires { IsSome (map.get self.old caller) }
        // ensures { self.new ≡ map.insert self.old caller value }
    {
        if let Some(old) = self.values.get_mut(&caller) {
            *old = value;
        }
    }

    /// Takes the caller's value out, if there is one.
    ///
    /// <details><summary>Contract</summary>
    ///
    /// <code style="display: block; tab-size: 4; white-space: pre-wrap">// In the words of [contracts](crate::contracts):
    /// ensures { self.new ≡ [map.remove](crate::contracts::logic#FinMap.remove) self.old caller }
    /// </code>
    ///
    /// </details>
    #[inline]
    pub fn remove(&mut self, caller: u32) {
        let _ = self.values.remove(&caller);
    }

    /// Takes all values out.
    ///
    /// <details><summary>Contract</summary>
    ///
    /// <code style="display: block; tab-size: 4; white-space: pre-wrap">// In the words of [contracts](crate::contracts):
    /// ensures { self.new ≡ [map.empty](crate::contracts::logic#FinMap.empty) }
    /// </code>
    ///
    /// </details>
    #[inline]
    pub fn clear(&mut self) {
        self.values.clear();
    }
}
