// Made of crates/ent_storage/src/bundle.rt by rust/erase. It isn't edited by hand.

use crate::components::pairs::search;
use crate::handles::{ComponentId, OutOfMemory};
use crate::kit::smallvec::SmallVec;

/// Components and their values, in strictly ascending order of number: what an entity is given.
/// Contracts see it as a list.
///
/// Up to `INLINE` components are stored in the bundle itself, without an allocation.
///
/// ```
/// use forgeni::{Bundle, ComponentId};
///
/// let [mass, speed] = [ComponentId(0), ComponentId(1)];
/// let mut bundle = Bundle::of(&[(speed, 1), (mass, 7)])?;
/// bundle.put(speed, 2)?;
/// assert_eq!(bundle.items(), [(mass, 7), (speed, 2)]);
/// # Ok::<(), forgeni::OutOfMemory>(())
/// ```
pub struct InlineBundle<const INLINE: usize> {
    items: SmallVec<(ComponentId, i64), INLINE>,
}

impl<const INLINE: usize> InlineBundle<INLINE> {
    /// Creates a bundle without components. It doesn't allocate.
    ///
    /// ```
    /// use forgeni::{Bundle, ComponentId};
    ///
    /// let mut spark = Bundle::new();
    /// spark.put(ComponentId(0), 900)?;
    /// assert_eq!(spark.items(), [(ComponentId(0), 900)]);
    /// # Ok::<(), forgeni::OutOfMemory>(())
    /// ```
    ///
    /// <details><summary>Contract</summary>
    ///
    /// <code style="display: block; tab-size: 4; white-space: pre-wrap">// In the words of [contracts](crate::contracts):
    /// ensures { result ≡ \[\] }
    /// </code>
    ///
    /// </details>
    #[must_use]
    #[inline]
    pub fn new() -> Self {
        InlineBundle {
            items: SmallVec::new(),
        }
    }

    /// Creates a bundle without components, with room for that many.
    ///
    /// ```
    /// use forgeni::{Bundle, ComponentId};
    ///
    /// let mut all = Bundle::with_capacity(10)?;
    /// for number in 0..10 {
    ///     // There is room, so this doesn't allocate.
    ///     all.put(ComponentId(number), 0)?;
    /// }
    /// assert_eq!(all.items().len(), 10);
    /// # Ok::<(), forgeni::OutOfMemory>(())
    /// ```
    ///
    /// # Errors
    ///
    /// Out of memory, only for a count of more than `INLINE`.
    ///
    /// <details><summary>Contract</summary>
    ///
    /// <code style="display: block; tab-size: 4; white-space: pre-wrap">// In the words of [contracts](crate::contracts):
    /// ensures ok { [IfOk](crate::contracts::logic#IfOk) result (λ bundle. bundle ≡ \[\]) }
    /// ensures memory { [OnErr](crate::contracts::logic#OnErr) result (INLINE \< count) }
    /// </code>
    ///
    /// </details>
    #[inline]
    pub fn with_capacity(count: usize) -> Result<Self, OutOfMemory> {
        Ok(InlineBundle {
            items: SmallVec::with_capacity(count)?,
        })
    }

    /// Creates a bundle of these components. The list may be in any order. If a component is listed
    /// twice, its last value counts.
    ///
    /// ```
    /// use forgeni::{Bundle, ComponentId};
    ///
    /// let [mass, speed] = [ComponentId(0), ComponentId(1)];
    /// let ball = Bundle::of(&[(speed, 1), (mass, 3), (speed, 2)])?;
    /// assert_eq!(ball.items(), [(mass, 3), (speed, 2)]);
    /// # Ok::<(), forgeni::OutOfMemory>(())
    /// ```
    ///
    /// # Errors
    ///
    /// Out of memory, only for more than `INLINE` different components.
    ///
    /// <details><summary>Contract</summary>
    ///
    /// <code style="display: block; tab-size: 4; white-space: pre-wrap">// In the words of [contracts](crate::contracts):
    /// ensures ok { [IfOk](crate::contracts::logic#IfOk) result (λ bundle. bundle ≡ [bundle_of](crate::contracts::ent_storage::bundle#bundle_of) items.now) }
    /// ensures last { [IfOk](crate::contracts::logic#IfOk) result (λ bundle. (id : Id) →
    /// &#9;[find](crate::contracts::logic#FinMap.find) [component_cmp](crate::contracts::ent_handle::component#component_cmp) id bundle ≡ [find](crate::contracts::logic#FinMap.find) [component_cmp](crate::contracts::ent_handle::component#component_cmp) id ([reverse](crate::contracts::logic#reverse) items.now)) }
    /// ensures memory { [OnErr](crate::contracts::logic#OnErr) result (INLINE \< [length](crate::contracts::logic#length) ([bundle_of](crate::contracts::ent_storage::bundle#bundle_of) items.now)) }
    /// </code>
    ///
    /// </details>
    #[inline(always)]
    pub fn of(items: &[(ComponentId, i64)]) -> Result<Self, OutOfMemory> {
        let mut bundle = InlineBundle::new();
        for (id, value) in items {
            bundle.put(*id, *value)?;
        }
        Ok(bundle)
    }

    /// Sets the component's value. If the component is there already, this value replaces its own.
    ///
    /// ```
    /// use forgeni::{Bundle, ComponentId};
    ///
    /// let mass = ComponentId(0);
    /// let mut ball = Bundle::of(&[(mass, 3)])?;
    /// ball.put(mass, 4)?;
    /// assert_eq!(ball.items(), [(mass, 4)]);
    /// # Ok::<(), forgeni::OutOfMemory>(())
    /// ```
    ///
    /// # Errors
    ///
    /// Out of memory, only if the component isn't there and at least `INLINE` others are. Nothing
    /// has changed.
    ///
    /// <details><summary>Contract</summary>
    ///
    /// <code style="display: block; tab-size: 4; white-space: pre-wrap">// In the words of [contracts](crate::contracts):
    /// ensures ok { [OnOk](crate::contracts::logic#OnOk) result (self.new ≡ [put](crate::contracts::logic#FinMap.put) [component_cmp](crate::contracts::ent_handle::component#component_cmp) id value self.old) }
    /// ensures memory { [OnErr](crate::contracts::logic#OnErr) result
    /// &#9;((INLINE ≤ [length](crate::contracts::logic#length) self.old) × ([find](crate::contracts::logic#FinMap.find) [component_cmp](crate::contracts::ent_handle::component#component_cmp) id self.old ≡ [None](crate::contracts::logic#None))) }
    /// ensures err { [OnErr](crate::contracts::logic#OnErr) result (self.new ≡ self.old) }
    /// </code>
    ///
    /// </details>
    #[inline(always)]
    pub fn put(&mut self, id: ComponentId, value: i64) -> Result<(), OutOfMemory> {
        match search(self.items.as_slice(), id) {
            Ok(index) => self.items[index].1 = value,
            Err(index) => self.items.insert(index, (id, value))?,
        }
        Ok(())
    }

    /// Returns the components and their values, in strictly ascending order of number.
    ///
    /// ```
    /// use forgeni::{Bundle, ComponentId};
    ///
    /// let ball = Bundle::of(&[(ComponentId(7), 2), (ComponentId(3), 1)])?;
    /// assert!(ball.items().iter().map(|(id, _)| id.0).eq([3, 7]));
    /// # Ok::<(), forgeni::OutOfMemory>(())
    /// ```
    ///
    /// <details><summary>Contract</summary>
    ///
    /// <code style="display: block; tab-size: 4; white-space: pre-wrap">// In the words of [contracts](crate::contracts):
    /// ensures items { result.now ≡ self.now }
    /// ensures is { [IsBundle](crate::contracts::ent_storage::bundle#IsBundle) self.now }
    /// </code>
    ///
    /// </details>
    #[must_use]
    #[inline]
    pub fn items(&self) -> &[(ComponentId, i64)] {
        self.items.as_slice()
    }
}
