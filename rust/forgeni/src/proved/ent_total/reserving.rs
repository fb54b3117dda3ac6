// Made of crates/ent_total/src/reserving.rt by rust/erase. It isn't edited by hand.

//! What a reserver reserves: one handle, or many at once.
use alloc::vec::Vec;
use crate::kit::vec::FallibleVec;
use crate::phases::reserver::Reserver;
use crate::allocator::{Phased, Refused, ReserveError};
use crate::handles::Handle;

/// # Reserving
impl<S: Phased> Reserver<S> {
    /// Reserves one handle, in a shared allocator by one atomic step. It neither allocates nor
    /// waits. In a phase of a world its entity has no components.
    ///
    /// ```
    /// use forgeni::Entities;
    ///
    /// let (shared, mut reservers) = Entities::new().share(2)?;
    /// let one = reservers[0].reserve()?;
    /// let other = reservers[1].reserve()?;
    /// assert_ne!(one, other);
    /// # Ok::<(), Box<dyn std::error::Error + Send + Sync>>(())
    /// ```
    ///
    /// # Errors
    ///
    /// [`Refused::Space`] if the pool is empty; the request is taken from the quota too.
    /// [`Refused::Quota`] if nothing is left of the quota, and then nothing has changed.
    ///
    /// <details><summary>Contract</summary>
    ///
    /// <code style="display: block; tab-size: 4; white-space: pre-wrap">// In the words of [contracts](crate::contracts):
    /// ensures replies { [Replies](crate::contracts::ent_total::reserving#Replies) S.may_reply self.old self.new 1 ([listed_alone](crate::contracts::ent_alloc::sequential#listed_alone) result) }
    /// </code>
    ///
    /// </details>
    #[inline]
    pub fn reserve(&mut self) -> Result<Handle, Refused> {
        self.source.serve_one(&mut self.reserver)
    }

    /// Reserves `n` handles at once, in a shared allocator by one atomic step: all of them or none.
    /// They are in the order in which the allocator would have given them to one caller. A request of
    /// 0 makes no step, and is always served.
    ///
    /// ```
    /// use forgeni::{Entities, Limits, ReserveError};
    ///
    /// let entities = Entities::with_limits(Limits::new(10, 1).unwrap());
    /// let (shared, mut reservers) = entities.share(1)?;
    /// let seven = reservers[0].reserve_many(7)?;
    /// assert_eq!(seven.len(), 7);
    /// let refused = reservers[0].reserve_many(4);
    /// assert_eq!(refused, Err(ReserveError::Space { wanted: 4, left: 3 }));
    /// # Ok::<(), Box<dyn std::error::Error + Send + Sync>>(())
    /// ```
    ///
    /// # Errors
    ///
    /// - [`ReserveError::Quota`] if `n` is above what is left of the quota. Nothing has changed.
    /// - [`ReserveError::Space`] if the pool has fewer than `n` handles. `n` is taken from the
    ///   quota all the same, and the pool gives no more until the next flush.
    /// - [`ReserveError::Memory`] if there isn't enough memory for the list. Nothing has changed.
    ///
    /// The list is allocated before the atomic step, and only that step shows what the pool has. So
    /// if others have left too few handles, the error may be `Memory`. A request for more than the
    /// pool had when the phase was opened doesn't allocate, and returns `Space`.
    ///
    /// <details><summary>Contract</summary>
    ///
    /// <code style="display: block; tab-size: 4; white-space: pre-wrap">// In the words of [contracts](crate::contracts):
    /// ensures served { [IfOk](crate::contracts::logic#IfOk) result (λ handles.
    /// &#9;[Replies](crate::contracts::ent_total::reserving#Replies) S.may_reply self.old self.new n ([Ok](crate::contracts::logic#Ok) handles.items)) }
    /// ensures length { [IfOk](crate::contracts::logic#IfOk) result (λ handles. [length](crate::contracts::logic#length) handles.items ≡ n) }
    /// ensures memory { [IsErrOf](crate::contracts::logic#IsErrOf) result failed.Memory
    /// &#9;→ S.may_give self.old.source self.old.reserver n
    /// &#9;× (self.new ≡ self.old) × (0 \< n) }
    /// ensures refused { [IfErr](crate::contracts::logic#IfErr) result (λ error. (error ≡ failed.Memory)
    /// &#9;⊎ [IfRefusal](crate::contracts::ent_total::reserving#IfRefusal) error (λ why. [Replies](crate::contracts::ent_total::reserving#Replies) S.may_reply self.old self.new n ([Err](crate::contracts::logic#Err) why))) }
    /// </code>
    ///
    /// </details>
    #[inline]
    pub fn reserve_many(&mut self, n: u32) -> Result<Vec<Handle>, ReserveError> {
        let mut handles = Vec::new();
        self.reserve_into(&mut handles, n)?;
        Ok(handles)
    }

    /// [`reserve_many`](Self::reserve_many), which appends the handles to a list. It doesn't
    /// allocate if the list has room for them.
    ///
    /// ```
    /// use forgeni::Entities;
    ///
    /// let (shared, mut reservers) = Entities::new().share(1)?;
    /// let mut handles = Vec::with_capacity(100);
    /// for _ in 0..10 {
    ///     reservers[0].reserve_into(&mut handles, 10)?;
    /// }
    /// assert_eq!(handles.len(), 100);
    /// # Ok::<(), Box<dyn std::error::Error + Send + Sync>>(())
    /// ```
    ///
    /// # Errors
    ///
    /// The same as for [`reserve_many`](Self::reserve_many). The list is unchanged.
    ///
    /// <details><summary>Contract</summary>
    ///
    /// <code style="display: block; tab-size: 4; white-space: pre-wrap">// In the words of [contracts](crate::contracts):
    /// ensures served { [OnOk](crate::contracts::logic#OnOk) result
    /// &#9;([Lists](crate::contracts::ent_total::reserving#Lists) S.may_reply self.old self.new n handles.old.items handles.new.items) }
    /// ensures kept { [OnErr](crate::contracts::logic#OnErr) result (handles.new.items ≡ handles.old.items) }
    /// ensures refused { [IfErr](crate::contracts::logic#IfErr) result (λ error. (error ≡ failed.Memory)
    /// &#9;⊎ [IfRefusal](crate::contracts::ent_total::reserving#IfRefusal) error (λ why. [Replies](crate::contracts::ent_total::reserving#Replies) S.may_reply self.old self.new n ([Err](crate::contracts::logic#Err) why))) }
    /// ensures memory { [IsErrOf](crate::contracts::logic#IsErrOf) result failed.Memory
    /// &#9;→ S.may_give self.old.source self.old.reserver n
    /// &#9;× (self.new ≡ self.old) × ([vec_capacity](crate::contracts::logic#vec_capacity) handles.old \< [vec_len](crate::contracts::logic#vec_len) handles.old + n) }
    /// ensures room { ([vec_len](crate::contracts::logic#vec_len) handles.old + n ≤ [vec_capacity](crate::contracts::logic#vec_capacity) handles.old)
    /// &#9;⊎ ¬ (S.may_give self.old.source self.old.reserver n)
    /// &#9;→ [vec_capacity](crate::contracts::logic#vec_capacity) handles.new ≡ [vec_capacity](crate::contracts::logic#vec_capacity) handles.old }
    /// </code>
    ///
    /// </details>
    #[inline]
    pub fn reserve_into(&mut self, handles: &mut Vec<Handle>, n: u32) -> Result<(), ReserveError> {
        if handles.sized_capacity() - handles.len() < n as usize && self.may_be_served(n) {
            handles.reserve_fallibly(n as usize)?;
        }
        let given = self.source.serve_many(&mut self.reserver, n)?;
        given.append_to(handles);
        Ok(())
    }
}

impl<S: Phased> Reserver<S> {
    /// Whether a request for `n` may be served. If not, no memory is taken for it.
    #[inline]
    fn may_be_served(&self, n: u32) -> bool
        // ensures { IsTrue result ↔ S.may_give self.now.source self.now.reserver n }
    {
        self.source.may_serve(&self.reserver, n)
    }
}
