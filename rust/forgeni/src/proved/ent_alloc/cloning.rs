// Made of crates/ent_alloc/src/cloning.rt by rust/erase. It isn't edited by hand.

//! Clones of an allocator, as snapshots that a program goes back to.

use alloc::vec::Vec;
use crate::kit::vec::FallibleVec;
use crate::allocator::entities::Entities;
use crate::handles::OutOfMemory;

/// # Snapshots
impl Entities {
    /// Returns another allocator in the same state: the same entities are alive, with the same
    /// rows, the same handles are reserved, and the limits are the same. So the same calls return
    /// the same results on both. From then on they are independent.
    ///
    /// It copies the slots as bytes: 8 for each slot that was made, and 4 for each that waits. It
    /// doesn't allocate if no slot was made.
    ///
    /// ```
    /// use forgeni::Entities;
    ///
    /// let mut entities = Entities::new();
    /// let one = entities.alloc()?;
    /// let mut clone = entities.try_clone()?;
    /// clone.free(one)?;
    /// assert!(entities.is_alive(one) && !clone.is_alive(one));
    /// # Ok::<(), Box<dyn std::error::Error>>(())
    /// ```
    ///
    /// # Errors
    ///
    /// [`OutOfMemory`] if there isn't enough memory for the slots.
    ///
    /// <details><summary>Contract</summary>
    ///
    /// <code style="display: block; tab-size: 4; white-space: pre-wrap">// In the words of [contracts](crate::contracts):
    /// ensures ok { [IfOk](crate::contracts::logic#IfOk) result (λ clone. clone ≡ self.now) }
    /// ensures rows_of_living { [IfOk](crate::contracts::logic#IfOk) result [HasRowsOfLiving](crate::contracts::ent_alloc::entities#HasRowsOfLiving) }
    /// ensures memory { [OnErr](crate::contracts::logic#OnErr) result (0 \< self.now.allocator.made) }
    /// </code>
    ///
    /// </details>
    #[inline]
    pub fn try_clone(&self) -> Result<Entities, OutOfMemory> {
        Ok(Entities {
            slots: self.slots.try_clone()?,
            requests: self.requests,
        })
    }

    /// Copies the state of another allocator into this one, like [`try_clone`](Self::try_clone).
    /// What this one had before is gone.
    ///
    /// It uses the room that this one has, and doesn't allocate if this one had as many slots
    /// before. This is how a game that predicts goes back to a frame that the server has confirmed:
    ///
    /// ```
    /// use forgeni::Entities;
    ///
    /// let mut entities = Entities::new();
    /// let one = entities.alloc()?;
    /// let mut confirmed = Entities::new();
    /// confirmed.try_clone_from(&entities)?;
    /// entities.free(one)?;
    /// entities.try_clone_from(&confirmed)?;
    /// assert!(entities.is_alive(one));
    /// # Ok::<(), Box<dyn std::error::Error>>(())
    /// ```
    ///
    /// Handles that were given since the clone was made will be given again. Keep none of them.
    ///
    /// # Errors
    ///
    /// [`OutOfMemory`] if there isn't enough memory for slots that the source has beyond
    /// those of this allocator. Nothing has changed then: all memory is allocated first.
    ///
    /// <details><summary>Contract</summary>
    ///
    /// <code style="display: block; tab-size: 4; white-space: pre-wrap">// In the words of [contracts](crate::contracts):
    /// ensures ok { [OnOk](crate::contracts::logic#OnOk) result (self.new ≡ source.now) }
    /// ensures rows_of_living { [HasRowsOfLiving](crate::contracts::ent_alloc::entities#HasRowsOfLiving) self.new }
    /// ensures err { [OnErr](crate::contracts::logic#OnErr) result (self.new ≡ self.old) }
    /// &#32;
    /// // It succeeds if the source has made no more slots, and no more of them wait.
    /// ensures memory { [OnErr](crate::contracts::logic#OnErr) result ((self.old.allocator.made \< source.now.allocator.made)
    /// &#9;⊎ ([top](crate::contracts::ent_alloc::sequential#top) self.old.allocator \< [top](crate::contracts::ent_alloc::sequential#top) source.now.allocator)) }
    /// </code>
    ///
    /// </details>
    #[inline]
    pub fn try_clone_from(&mut self, source: &Entities) -> Result<(), OutOfMemory> {
        self.slots.try_clone_from(&source.slots)?;
        self.requests = source.requests;
        Ok(())
    }
}

/// Makes room for so many items in all.
#[inline]
pub(super) fn reserve_for<T>(list: &mut Vec<T>, count: usize) -> Result<(), OutOfMemory>
    // ensures ok { OnOk result (count ≤ vec_capacity list.new) }
    // ensures items { list.new.items ≡ list.old.items }
    // ensures memory { OnErr result (vec_len list.old < count) }
{
    list.reserve_fallibly(count.saturating_sub(list.len()))?;
    Ok(())
}

/// Makes a list one of these items. There is room for them.
#[inline]
pub(super) fn overwrite<T: Copy>(list: &mut Vec<T>, items: &[T])
    // requires { length items.now ≤ vec_capacity list.old }
    // ensures { list.new.items ≡ items.now }
{
    list.clear();
    list.extend_from_slice_fallibly(items).unwrap();
}
