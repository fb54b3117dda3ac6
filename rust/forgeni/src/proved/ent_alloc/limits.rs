// Made of crates/ent_alloc/src/limits.rt by rust/erase. It isn't edited by hand.

/// How many handles one caller may request between two flushes. It is this project's own limit:
/// with it 1,024 callers together stay within the 2^50 that an allocator can count.
pub const QUOTA: u64 = 1 << 40;

/// The number of slots that an allocator may make, and the last generation of a slot.
///
/// Limits are this project's own: Bevy always has the greatest ones, which are the default.
///
/// ```
/// use forgeni::Limits;
///
/// let limits = Limits::new(1000, 4).unwrap();
/// assert_eq!((limits.slots(), limits.generations()), (1000, 4));
/// assert_eq!(Limits::new(0, 1), None);
/// assert_eq!(Limits::default(), Limits::GREATEST);
/// ```
#[derive(Clone, Copy, Debug, PartialEq, Eq, Hash)]
pub struct Limits {
    slots: u32,
    generations: u32,
}

/// # Making them
impl Limits {
    /// The greatest limits, which are Bevy's: 4,294,967,295 slots of 2,147,483,647 generations.
    pub const GREATEST: Limits = Limits {
        slots: u32::MAX,
        generations: (1 << 31) - 1,
    };

    /// Returns the limits with these numbers: slots from 1 to 4,294,967,295, generations from 1 to
    /// 2,147,483,647. `None` if one of them is out of range.
    ///
    /// ```
    /// use forgeni::{Entities, Limits};
    ///
    /// // At most 65,536 slots, so that an index fits into two bytes.
    /// const SMALL: Limits = Limits::new(1 << 16, 1_000).unwrap();
    ///
    /// assert_eq!(Entities::with_limits(SMALL).left(), 65_536);
    /// assert_eq!(Limits::new(10, 0), None);
    /// ```
    ///
    /// <details><summary>Contract</summary>
    ///
    /// <code style="display: block; tab-size: 4; white-space: pre-wrap">// In the words of [contracts](crate::contracts):
    /// ensures in_range { [IsSome](crate::contracts::logic#IsSome) result
    /// &#9;↔ [AreLimits](crate::contracts::ent_alloc::limits#AreLimits) (record { slots = slots; generations = generations }) }
    /// ensures value { [IfSome](crate::contracts::logic#IfSome) result (λ limits.
    /// &#9;limits ≡ record { slots = slots; generations = generations }) }
    /// </code>
    ///
    /// </details>
    #[must_use]
    #[inline]
    pub const fn new(slots: u32, generations: u32) -> Option<Self> {
        if 1 <= slots && 1 <= generations && generations < 1 << 31 {
            Some(Limits { slots, generations })
        } else {
            None
        }
    }

    /// Returns the greatest limits, which are Bevy's.
    ///
    /// ```
    /// use forgeni::Limits;
    ///
    /// const LIMITS: Limits = Limits::default_limits();
    ///
    /// assert_eq!((LIMITS, LIMITS.slots()), (Limits::GREATEST, u32::MAX));
    /// ```
    ///
    /// <details><summary>Contract</summary>
    ///
    /// <code style="display: block; tab-size: 4; white-space: pre-wrap">// In the words of [contracts](crate::contracts):
    /// ensures { result ≡ record { slots = 2 ^ 32 - 1; generations = 2 ^ 31 - 1 } }
    /// </code>
    ///
    /// </details>
    #[must_use]
    #[inline]
    pub const fn default_limits() -> Self {
        Limits::GREATEST
    }

    /// Returns the limits of an allocator that never gives the greatest handle,
    /// 4294967294v2147483647: one generation less if both limits are the greatest, and otherwise
    /// the same limits.
    ///
    /// The greatest handle is the last one of the last possible slot.
    ///
    /// ```
    /// use forgeni::{trace, Entities, Limits};
    ///
    /// let limits = Limits::GREATEST.keeping_placeholder();
    /// assert_eq!(limits.generations(), Limits::GREATEST.generations() - 1);
    /// // Those of `Entities::new`, so a checker of one has them too.
    /// let mut checker = trace::Checker::new(limits);
    /// checker.alloc(Entities::new().alloc()?)?;
    /// # Ok::<(), Box<dyn std::error::Error>>(())
    /// ```
    ///
    /// <details><summary>Contract</summary>
    ///
    /// <code style="display: block; tab-size: 4; white-space: pre-wrap">// In the words of [contracts](crate::contracts):
    /// ensures value { result ≡ [without_placeholder](crate::contracts::ent_alloc::limits#without_placeholder) self }
    /// ensures both { self ≡ [greatest_limits](crate::contracts::ent_alloc::limits#greatest_limits) → result ≡ record [greatest_limits](crate::contracts::ent_alloc::limits#greatest_limits) {
    /// &#32;&#32;generations = 2 ^ 31 - 2;
    /// } }
    /// ensures others { self ≢ [greatest_limits](crate::contracts::ent_alloc::limits#greatest_limits) → result ≡ self }
    /// &#32;
    /// // An allocator gives handles within its limits alone.
    /// ensures kept_back { ¬ ([IsWithin](crate::contracts::ent_alloc::sound#IsWithin) result [placeholder](crate::contracts::ent_handle::handle#placeholder)) }
    /// </code>
    ///
    /// </details>
    #[must_use]
    #[inline]
    pub const fn keeping_placeholder(self) -> Self {
        if self.slots == u32::MAX && self.generations == (1 << 31) - 1 {
            Limits {
                slots: self.slots,
                generations: self.generations - 1,
            }
        } else {
            self
        }
    }
}

/// # Both numbers
impl Limits {
    /// Returns the number of slots that may be made. Every index is below it.
    ///
    /// ```
    /// use forgeni::{Entities, Limits};
    ///
    /// let limits = Limits::new(1_000, 4).unwrap();
    /// // A vector by slot that never grows.
    /// let mut healths = vec![0; limits.slots() as usize];
    /// healths[Entities::with_limits(limits).alloc()?.index() as usize] = 100;
    /// # Ok::<(), Box<dyn std::error::Error>>(())
    /// ```
    ///
    /// <details><summary>Contract</summary>
    ///
    /// <code style="display: block; tab-size: 4; white-space: pre-wrap">// In the words of [contracts](crate::contracts):
    /// ensures { result ≡ self.slots }
    /// </code>
    ///
    /// </details>
    #[must_use]
    #[inline]
    pub const fn slots(self) -> u32 {
        self.slots
    }

    /// Returns the last generation of a slot.
    ///
    /// ```
    /// use forgeni::{Entities, Limits};
    ///
    /// let limits = Limits::new(1, 2).unwrap();
    /// let mut entities = Entities::with_limits(limits);
    /// let mut last = entities.alloc()?;
    /// while let Some(next) = entities.free(last)?.next {
    ///     last = entities.alloc()?;
    ///     assert_eq!(last, next);
    /// }
    /// assert_eq!(last.generation(), limits.generations());
    /// # Ok::<(), Box<dyn std::error::Error>>(())
    /// ```
    ///
    /// <details><summary>Contract</summary>
    ///
    /// <code style="display: block; tab-size: 4; white-space: pre-wrap">// In the words of [contracts](crate::contracts):
    /// ensures { result ≡ self.generations }
    /// </code>
    ///
    /// </details>
    #[must_use]
    #[inline]
    pub const fn generations(self) -> u32 {
        self.generations
    }
}

impl Default for Limits {
    #[inline]
    fn default() -> Self {
        Limits::default_limits()
    }
}
