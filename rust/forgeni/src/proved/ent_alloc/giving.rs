// Made of crates/ent_alloc/src/giving.rt by rust/erase. It isn't edited by hand.

//! Many handles that are alive at once.

use alloc::vec::Vec;
use crate::allocator::entities::Entities;
use crate::allocator::fault::AllocError;
use crate::allocator::requests::Requests;
use crate::handles::Handle;

/// # Several at once
impl Entities {
    /// Allocates `n` handles, all of them or none: those of `n` calls of [`alloc`](Self::alloc), in
    /// their order. They are alive at once. It is faster than these calls.
    ///
    /// ```
    /// use forgeni::Entities;
    ///
    /// let mut entities = Entities::new();
    /// let wave = entities.alloc_many(1000)?;
    /// assert_eq!((wave.len(), entities.len()), (1000, 1000));
    /// # Ok::<(), forgeni::AllocError>(())
    /// ```
    ///
    /// # Errors
    ///
    /// In each case nothing has changed, and no handle was given.
    ///
    /// - [`AllocError::NeedsFlush`] if handles were requested since the
    ///   last flush, even if the request was refused.
    /// - [`AllocError::Space`] if fewer than `n` handles can be given.
    /// - [`AllocError::Memory`] if there isn't enough memory for the list or
    ///   for new slots.
    ///
    /// <details><summary>Contract</summary>
    ///
    /// <code style="display: block; tab-size: 4; white-space: pre-wrap">// In the words of [contracts](crate::contracts):
    /// ensures handles { [IfOk](crate::contracts::logic#IfOk) result (λ handles. handles.items ≡ [take](crate::contracts::logic#take) n self.old.allocator.pool) }
    /// ensures within { [IfOk](crate::contracts::logic#IfOk) result (λ handles.
    /// &#9;[All](crate::contracts::logic#All) ([IsWithin](crate::contracts::ent_alloc::sound#IsWithin) self.old.allocator.limits) handles.items) }
    /// ensures enough { [OnOk](crate::contracts::logic#OnOk) result (n ≤ [length](crate::contracts::logic#length) self.old.allocator.pool) }
    /// &#32;
    /// // The state is that after as many single calls, and also that after a request for \`n\`
    /// // handles and a flush.
    /// ensures calls { [OnOk](crate::contracts::logic#OnOk) result (self.new.allocator
    /// &#9;≡ [after_allocs](crate::contracts::ent_alloc::sequential#after_allocs) self.old.allocator ([take](crate::contracts::logic#take) n self.old.allocator.pool)) }
    /// ensures ok { [OnOk](crate::contracts::logic#OnOk) result
    /// &#9;(self.new.allocator ≡ [after_flush](crate::contracts::ent_alloc::sequential#after_flush) ([after_take](crate::contracts::ent_alloc::sequential#after_take) self.old.allocator n)) }
    /// ensures rows { self.new.rows ≡ self.old.rows }
    /// ensures no_rows { [OnOk](crate::contracts::logic#OnOk) result
    /// &#9;([All](crate::contracts::logic#All) (λ h. [map.get](crate::contracts::logic#FinMap.get) self.new.rows h ≡ [None](crate::contracts::logic#None)) ([take](crate::contracts::logic#take) n self.old.allocator.pool)) }
    /// ensures rows_of_living { [HasRowsOfLiving](crate::contracts::ent_alloc::entities#HasRowsOfLiving) self.new }
    /// ensures needs_flush { [IsErrOf](crate::contracts::logic#IsErrOf) result AllocError.NeedsFlush
    /// &#9;↔ (0 \< self.old.allocator.asked) }
    /// ensures space { [IsErrOf](crate::contracts::logic#IsErrOf) result AllocError.Space
    /// &#9;↔ ((self.old.allocator.asked ≡ 0) × ([length](crate::contracts::logic#length) self.old.allocator.pool \< n)) }
    /// ensures memory { [IsErrOf](crate::contracts::logic#IsErrOf) result AllocError.Memory → 0 \< n }
    /// ensures err { [OnErr](crate::contracts::logic#OnErr) result (self.new ≡ self.old) }
    /// </code>
    ///
    /// </details>
    #[inline]
    pub fn alloc_many(&mut self, n: u32) -> Result<Vec<Handle>, AllocError> {
        if self.needs_flush() {
            return Err(AllocError::NeedsFlush);
        }
        if n > self.left() {
            return Err(AllocError::Space);
        }
        let wanted = Requests {
            asked: u64::from(n),
            served: n,
        };
        let waiting = self.slots.waiting();
        let kept = wanted.kept(waiting);
        let fresh = wanted.fresh(waiting);
        let mut handles = Vec::new();
        self.slots.bring_to_life(kept, fresh, &mut handles)?;
        in_order(&mut handles, fresh as usize);
        Ok(handles)
    }
}

/// Of a list that has the fresh handles first and then the old ones as they wait, the order in
/// which single calls give them: the old one that was freed last, .., then the fresh ones.
#[inline]
fn in_order(handles: &mut [Handle], fresh: usize)
    // requires { fresh ≤ length handles.old }
    // ensures { handles.new ≡ reverse (drop fresh handles.old) ++ take fresh handles.old }
{
    let old = handles.len() - fresh;
    handles.reverse();
    handles[old..].reverse();
}
