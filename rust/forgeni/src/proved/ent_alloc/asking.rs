// Made of crates/ent_alloc/src/asking.rt by rust/erase. It isn't edited by hand.

//! Requests that are one call each: the call tests what the request needs, and lists what the
//! request is given.

use alloc::vec::Vec;
use crate::kit::vec::FallibleVec;
use crate::allocator::entities::Entities;
use crate::allocator::refused::Refused;
use crate::allocator::reserve_error::ReserveError;
use crate::handles::Handle;

/// How many handles may be requested between two flushes.
pub(super) const MOST: u64 = 1 << 50;

/// # Requests
impl Entities {
    /// Requests a handle, which the next [`flush`](Self::flush) brings to life. Until then `alloc`
    /// and `free` return `NeedsFlush`. It takes constant time and doesn't allocate.
    ///
    /// ```
    /// use forgeni::{Entities, State};
    ///
    /// let mut entities = Entities::new();
    /// let soon = entities.request()?;
    /// assert_eq!(entities.state(soon), State::Reserved);
    /// let mut born = Vec::new();
    /// entities.flush(&mut born)?;
    /// assert_eq!(born, [soon]);
    /// # Ok::<(), Box<dyn std::error::Error>>(())
    /// ```
    ///
    /// # Errors
    ///
    /// - [`Refused::Space`] if no handle is left. The request counts all the same, and every later
    ///   one is refused until the next flush.
    /// - [`Refused::Quota`] if 2^50 handles were requested since the last flush. Nothing has
    ///   changed.
    // Not inlined, its result goes through memory.
    #[inline(always)]
    pub fn request(&mut self) -> Result<Handle, Refused>
        // ensures front { IfOk result (λ h. slice_get self.old.allocator.pool 0 ≡ Some h) }
        // ensures reply { IfOk result (λ h. reply_to self.old.allocator 1 ≡ Ok (h ∷ [])) }
        // ensures within { IfOk result (IsWithin self.old.allocator.limits) }
        // ensures space { IsErrOf result (refused.Space 1 0)
        //     ↔ ((self.old.allocator.asked < 2 ^ 50) × (self.old.allocator.pool ≡ [])) }
        // ensures quota { IsErrOf result (refused.Quota 0) ↔ (2 ^ 50 ≤ self.old.allocator.asked) }
        // ensures refused { IfErr result (λ why.
        //     (why ≡ refused.Space 1 0) ⊎ (why ≡ refused.Quota 0)) }
        // ensures step { self.old.allocator.asked < 2 ^ 50
        //     → self.new.allocator ≡ after_take self.old.allocator 1 }
        // ensures unchanged { 2 ^ 50 ≤ self.old.allocator.asked → self.new ≡ self.old }
        // ensures rows { self.new.rows ≡ self.old.rows }
        // ensures rows_of_living { HasRowsOfLiving self.new }
    {
        match self.request_old() {
            Some(handle) => Ok(handle),
            None => self.request_any(),
        }
    }

    /// Requests `n` handles at once, all of them or none, and lists them: first those of old slots,
    /// beginning with the one that has waited longest, then those of new slots. The next
    /// [`flush`](Self::flush) brings them to life.
    ///
    /// ```
    /// use forgeni::{Entities, Limits, ReserveError};
    ///
    /// let mut entities = Entities::with_limits(Limits::new(3, 1).unwrap());
    /// assert_eq!(entities.request_many(2)?.len(), 2);
    /// let refused = ReserveError::Space { wanted: 2, left: 1 };
    /// assert_eq!(entities.request_many(2), Err(refused));
    ///
    /// // What is left can be given again after a flush.
    /// entities.flush(&mut Vec::new())?;
    /// assert_eq!((entities.len(), entities.left()), (2, 1));
    /// # Ok::<(), Box<dyn std::error::Error>>(())
    /// ```
    ///
    /// # Errors
    ///
    /// - [`ReserveError::Quota`] if more than 2^50 handles were requested since the last flush,
    ///   including these. Nothing has changed.
    /// - [`ReserveError::Memory`] if there isn't enough memory for the list. Nothing has changed,
    ///   and no handle was requested.
    /// - [`ReserveError::Space`] if fewer than `n` handles are left. The request counts all the
    ///   same, and every later one is refused until the next flush. To go on with fewer handles,
    ///   look at [`left`](Self::left) first.
    ///
    /// <details><summary>Contract</summary>
    ///
    /// <code style="display: block; tab-size: 4; white-space: pre-wrap">// In the words of [contracts](crate::contracts):
    /// ensures listed { [IfOk](crate::contracts::logic#IfOk) result (λ handles.
    /// &#9;handles.items ≡ [listed](crate::contracts::ent_alloc::sequential#listed) self.old.allocator.made ([take](crate::contracts::logic#take) n self.old.allocator.pool)) }
    /// ensures within { [IfOk](crate::contracts::logic#IfOk) result (λ handles.
    /// &#9;[All](crate::contracts::logic#All) ([IsWithin](crate::contracts::ent_alloc::sound#IsWithin) self.old.allocator.limits) handles.items) }
    /// ensures enough { [OnOk](crate::contracts::logic#OnOk) result (n ≤ [length](crate::contracts::logic#length) self.old.allocator.pool) }
    /// ensures quota { [IsErrOf](crate::contracts::logic#IsErrOf) result (failed.Quota (2 ^ 50 - self.old.allocator.asked))
    /// &#9;↔ (2 ^ 50 \< self.old.allocator.asked + n) }
    /// ensures space { [IsErrOf](crate::contracts::logic#IsErrOf) result (failed.Space n ([length](crate::contracts::logic#length) self.old.allocator.pool))
    /// &#9;→ [length](crate::contracts::logic#length) self.old.allocator.pool \< n }
    /// ensures memory { [IsErrOf](crate::contracts::logic#IsErrOf) result failed.Memory → 0 \< n }
    /// ensures space_first { [IsErrOf](crate::contracts::logic#IsErrOf) result failed.Memory
    /// &#9;→ n ≤ [length](crate::contracts::logic#length) self.old.allocator.pool }
    /// ensures refused { [IfErr](crate::contracts::logic#IfErr) result (λ why. (why ≡ failed.Memory)
    /// &#9;⊎ ((why ≡ failed.Space n ([length](crate::contracts::logic#length) self.old.allocator.pool))
    /// &#9;⊎ (why ≡ failed.Quota (2 ^ 50 - self.old.allocator.asked)))) }
    /// ensures step { ¬ ([IsErrOf](crate::contracts::logic#IsErrOf) result failed.Memory) → self.old.allocator.asked + n ≤ 2 ^ 50
    /// &#9;→ self.new.allocator ≡ [after_take](crate::contracts::ent_alloc::sequential#after_take) self.old.allocator n }
    /// ensures unchanged { [IsErrOf](crate::contracts::logic#IsErrOf) result failed.Memory → self.new ≡ self.old }
    /// ensures over { 2 ^ 50 \< self.old.allocator.asked + n → self.new ≡ self.old }
    /// ensures rows { self.new.rows ≡ self.old.rows }
    /// ensures rows_of_living { [HasRowsOfLiving](crate::contracts::ent_alloc::entities#HasRowsOfLiving) self.new }
    /// </code>
    ///
    /// </details>
    #[inline]
    pub fn request_many(&mut self, n: u32) -> Result<Vec<Handle>, ReserveError> {
        let mut handles = Vec::new();
        self.request_into(&mut handles, n)?;
        Ok(handles)
    }

    /// Requests `n` handles at once, all of them or none, and appends them to a list: first those
    /// of old slots, beginning with the one that has waited longest, then those of new slots. The
    /// next [`flush`](Self::flush) brings them to life.
    ///
    /// ```
    /// use forgeni::Entities;
    ///
    /// let mut entities = Entities::new();
    /// let mut bullets = Vec::with_capacity(100);
    /// for _ in 0..10 {
    ///     // There is room in the list, so this doesn't allocate.
    ///     entities.request_into(&mut bullets, 10)?;
    /// }
    /// assert_eq!((bullets.len(), entities.reserved()), (100, 100));
    /// # Ok::<(), Box<dyn std::error::Error>>(())
    /// ```
    ///
    /// # Errors
    ///
    /// In each case the list is unchanged.
    ///
    /// - [`ReserveError::Quota`] if more than 2^50 handles were requested since the last flush,
    ///   including these. Nothing has changed.
    /// - [`ReserveError::Memory`] if the list has too little room, and there isn't enough memory
    ///   for more. Nothing has changed, and no handle was requested.
    /// - [`ReserveError::Space`] if fewer than `n` handles are left. The request counts all the
    ///   same, and every later one is refused until the next flush. To go on with fewer handles,
    ///   look at [`left`](Self::left) first.
    ///
    /// <details><summary>Contract</summary>
    ///
    /// <code style="display: block; tab-size: 4; white-space: pre-wrap">// In the words of [contracts](crate::contracts):
    /// ensures listed { [OnOk](crate::contracts::logic#OnOk) result (handles.new.items ≡ handles.old.items
    /// &#9;++ [listed](crate::contracts::ent_alloc::sequential#listed) self.old.allocator.made ([take](crate::contracts::logic#take) n self.old.allocator.pool)) }
    /// ensures within { [OnOk](crate::contracts::logic#OnOk) result ([All](crate::contracts::logic#All) ([IsWithin](crate::contracts::ent_alloc::sound#IsWithin) self.old.allocator.limits)
    /// &#9;([listed](crate::contracts::ent_alloc::sequential#listed) self.old.allocator.made ([take](crate::contracts::logic#take) n self.old.allocator.pool))) }
    /// ensures enough { [OnOk](crate::contracts::logic#OnOk) result (n ≤ [length](crate::contracts::logic#length) self.old.allocator.pool) }
    /// ensures quota { [IsErrOf](crate::contracts::logic#IsErrOf) result (failed.Quota (2 ^ 50 - self.old.allocator.asked))
    /// &#9;↔ (2 ^ 50 \< self.old.allocator.asked + n) }
    /// ensures space { [IsErrOf](crate::contracts::logic#IsErrOf) result (failed.Space n ([length](crate::contracts::logic#length) self.old.allocator.pool))
    /// &#9;→ [length](crate::contracts::logic#length) self.old.allocator.pool \< n }
    /// ensures memory { [IsErrOf](crate::contracts::logic#IsErrOf) result failed.Memory
    /// &#9;→ [vec_capacity](crate::contracts::logic#vec_capacity) handles.old \< [vec_len](crate::contracts::logic#vec_len) handles.old + n }
    /// ensures space_first { [IsErrOf](crate::contracts::logic#IsErrOf) result failed.Memory
    /// &#9;→ n ≤ [length](crate::contracts::logic#length) self.old.allocator.pool }
    /// ensures refused { [IfErr](crate::contracts::logic#IfErr) result (λ why. (why ≡ failed.Memory)
    /// &#9;⊎ ((why ≡ failed.Space n ([length](crate::contracts::logic#length) self.old.allocator.pool))
    /// &#9;⊎ (why ≡ failed.Quota (2 ^ 50 - self.old.allocator.asked)))) }
    /// ensures step { ¬ ([IsErrOf](crate::contracts::logic#IsErrOf) result failed.Memory) → self.old.allocator.asked + n ≤ 2 ^ 50
    /// &#9;→ self.new.allocator ≡ [after_take](crate::contracts::ent_alloc::sequential#after_take) self.old.allocator n }
    /// ensures unchanged { [IsErrOf](crate::contracts::logic#IsErrOf) result failed.Memory → self.new ≡ self.old }
    /// ensures over { 2 ^ 50 \< self.old.allocator.asked + n → self.new ≡ self.old }
    /// ensures kept { [OnErr](crate::contracts::logic#OnErr) result (handles.new.items ≡ handles.old.items) }
    /// ensures rows { self.new.rows ≡ self.old.rows }
    /// ensures rows_of_living { [HasRowsOfLiving](crate::contracts::ent_alloc::entities#HasRowsOfLiving) self.new }
    /// </code>
    ///
    /// </details>
    #[inline]
    pub fn request_into(&mut self, handles: &mut Vec<Handle>, n: u32) -> Result<(), ReserveError> {
        let left = MOST - self.requests.asked;
        if u64::from(n) > left {
            return Err(ReserveError::Quota { left });
        }
        let available = self.left();
        if n > available {
            let _span = self.lower(n);
            return Err(ReserveError::Space {
                wanted: n,
                left: available,
            });
        }
        handles.reserve_fallibly(n as usize)?;
        let span = self.lower(n);
        self.reply(span)?.append_to(handles);
        Ok(())
    }
}

impl Entities {
    /// Requests a handle if an old slot waits for it, by a single comparison. `None` if none waits,
    /// and nothing has changed then.
    #[inline]
    fn request_old(&mut self) -> Option<Handle>
        // ensures reply { IfSome result (λ h. reply_to self.old.allocator 1 ≡ Ok (h ∷ [])) }
        // ensures step { OnSome result (self.new.allocator ≡ after_take self.old.allocator 1) }
        // ensures few { OnSome result (self.old.allocator.asked < 2 ^ 50) }
        // ensures none { IfNone result (self.new ≡ self.old) }
        // ensures sound { IsSound self.old.allocator }
        // ensures rows { self.new.rows ≡ self.old.rows }
        // ensures rows_of_living { HasRowsOfLiving self.new }
    {
        let handle = self.slots.pending_before(self.requests.asked)?;
        self.requests = self.requests.and_one();
        Some(handle)
    }

    /// Requests a handle, of an old slot or a new one.
    #[inline]
    fn request_any(&mut self) -> Result<Handle, Refused>
        // ensures front { IfOk result (λ h. slice_get self.old.allocator.pool 0 ≡ Some h) }
        // ensures reply { IfOk result (λ h. reply_to self.old.allocator 1 ≡ Ok (h ∷ [])) }
        // ensures within { IfOk result (IsWithin self.old.allocator.limits) }
        // ensures space { IsErrOf result (refused.Space 1 0)
        //     ↔ ((self.old.allocator.asked < 2 ^ 50) × (self.old.allocator.pool ≡ [])) }
        // ensures quota { IsErrOf result (refused.Quota 0) ↔ (2 ^ 50 ≤ self.old.allocator.asked) }
        // ensures refused { IfErr result (λ why.
        //     (why ≡ refused.Space 1 0) ⊎ (why ≡ refused.Quota 0)) }
        // ensures step { self.old.allocator.asked < 2 ^ 50
        //     → self.new.allocator ≡ after_take self.old.allocator 1 }
        // ensures unchanged { 2 ^ 50 ≤ self.old.allocator.asked → self.new ≡ self.old }
        // ensures rows { self.new.rows ≡ self.old.rows }
        // ensures rows_of_living { HasRowsOfLiving self.new }
    {
        let high = self.cursor();
        let left = MOST - self.asked();
        if left == 0 {
            return Err(Refused::Quota { left });
        }
        let _span = self.lower(1);
        Ok(self.reply_one(high)?)
    }
}
