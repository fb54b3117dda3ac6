// Made of crates/ent_total/src/closing.rt by rust/erase. It isn't edited by hand.

//! A phase ends.

use alloc::vec::Vec;
use crate::phases::close_error::CloseError;
use crate::phases::phase::Phase;
use crate::phases::reserver::Reserver;
use crate::phases::returning::are_of;
use crate::allocator::Phased;
use crate::handles::HandedBack;

/// # Closing
impl<S: Phased> Phase<S> {
    /// Ends the phase with all its reservers: those that are returned, and these. It doesn't
    /// allocate.
    ///
    /// A shared allocator is then as if their reservations had been made one by one, in the order of
    /// their atomic steps, and [`flush`](crate::Entities::flush) brings to life what they were
    /// given.
    ///
    /// ```
    /// use forgeni::Entities;
    ///
    /// let (shared, mut reservers) = Entities::new().share(2)?;
    /// let handle = reservers[1].reserve()?;
    /// let mut entities = shared.close(reservers)?;
    /// assert!(!entities.is_alive(handle));
    /// entities.flush(&mut Vec::new())?;
    /// assert!(entities.is_alive(handle));
    /// # Ok::<(), Box<dyn std::error::Error + Send + Sync>>(())
    /// ```
    ///
    /// ```compile_fail
    /// let (shared, mut reservers) = forgeni::Entities::new().share(1).unwrap();
    /// let entities = shared.close(reservers).unwrap();
    /// reservers[0].reserve(); // they were moved
    /// ```
    ///
    /// # Errors
    ///
    /// [`HandedBack`] has the phase, which goes on, the reservers that are handed back, and the
    /// first of these errors that applies. With [`CloseError::OtherPhase`] and
    /// [`CloseError::Missing`] all reservers are handed back. With [`CloseError::Order`], which only
    /// a phase in blocks returns, and [`CloseError::InUse`] the phase keeps those that came.
    ///
    /// <details><summary>Contract</summary>
    ///
    /// <code style="display: block; tab-size: 4; white-space: pre-wrap">// In the words of [contracts](crate::contracts):
    /// ensures ended { [IfOk](crate::contracts::logic#IfOk) result (λ closed.
    /// &#9;S.closes self.source ([all_returned](crate::contracts::ent_total::phases#all_returned) self reservers.items) closed) }
    /// &#32;
    /// // When it succeeds, when it is refused, and what holds then.
    /// ensures all { [OnOk](crate::contracts::logic#OnOk) result ([MayReturn](crate::contracts::ent_total::phases#MayReturn) (S.count self.source) self reservers.items
    /// &#9;× ([length](crate::contracts::logic#length) ([all_returned](crate::contracts::ent_total::phases#all_returned) self reservers.items) ≡ S.count self.source)) }
    /// ensures other_phase { [IsErrAnd](crate::contracts::logic#IsErrAnd) result (λ h. h.error ≡ OtherPhase)
    /// &#9;↔ ¬ ([MayReturn](crate::contracts::ent_total::phases#MayReturn) (S.count self.source) self reservers.items) }
    /// ensures missing { [IsErrAnd](crate::contracts::logic#IsErrAnd) result (λ h. [IsMissing](crate::contracts::ent_total::closing#IsMissing) h.error)
    /// &#9;↔ ([MayReturn](crate::contracts::ent_total::phases#MayReturn) (S.count self.source) self reservers.items
    /// &#9;× ([length](crate::contracts::logic#length) ([all_returned](crate::contracts::ent_total::phases#all_returned) self reservers.items) \< S.count self.source)) }
    /// ensures order { [IsErrAnd](crate::contracts::logic#IsErrAnd) result (λ h. h.error ≡ Order)
    /// &#9;↔ ([MayReturn](crate::contracts::ent_total::phases#MayReturn) (S.count self.source) self reservers.items
    /// &#9;× ([length](crate::contracts::logic#length) ([all_returned](crate::contracts::ent_total::phases#all_returned) self reservers.items) ≡ S.count self.source)
    /// &#9;× ¬ (S.takes self.source ([all_returned](crate::contracts::ent_total::phases#all_returned) self reservers.items))) }
    /// ensures how_many { [IfErr](crate::contracts::logic#IfErr) result (λ h. [IsMissing](crate::contracts::ent_total::closing#IsMissing) h.error
    /// &#9;→ [length](crate::contracts::logic#length) ([all_returned](crate::contracts::ent_total::phases#all_returned) self reservers.items) + [count_missing](crate::contracts::ent_total::closing#count_missing) h.error
    /// &#9;≡ S.count self.source) }
    /// ensures handed_back { [IfErr](crate::contracts::logic#IfErr) result (λ h. h.error ≢ InUse → h.error ≢ Order
    /// &#9;→ (h.value.0 ≡ self) × (h.value.1.items ≡ reservers.items)) }
    /// ensures returned { [IfErr](crate::contracts::logic#IfErr) result (λ h. (h.error ≡ InUse) ⊎ (h.error ≡ Order)
    /// &#9;→ (h.value.0 ≡ record self { returned = [all_returned](crate::contracts::ent_total::phases#all_returned) self reservers.items })
    /// &#9;× (h.value.1.items ≡ \[\])) }
    /// </code>
    ///
    /// </details>
    #[inline]
    pub fn close(
        mut self,
        reservers: Vec<Reserver<S>>,
    ) -> Result<S::Closed, HandedBack<(Self, Vec<Reserver<S>>), CloseError>> {
        let Some(missing) = self.missing(&reservers) else {
            return Err(HandedBack::new((self, reservers), CloseError::OtherPhase));
        };
        if missing > 0 {
            let error = CloseError::Missing { count: missing };
            return Err(HandedBack::new((self, reservers), error));
        }
        self.take_back(reservers);
        if !self.may_end() {
            return Err(self.with_none(CloseError::Order));
        }
        match self.end() {
            Ok((source, returned)) => Ok(source.end_with_all(returned)),
            Err(phase) => Err(phase.with_none(CloseError::InUse)),
        }
    }

    /// Ends the phase although some reservers are lost: they were dropped, as by a thread that
    /// panicked. It doesn't allocate.
    ///
    /// Which of their requests were refused is lost too. So the front of a shared allocator's pool
    /// counts as reserved, as far as requests went, and [`flush`](crate::Entities::flush) also
    /// brings to life those handles that no caller got.
    ///
    /// ```
    /// use forgeni::{CloseError, Entities};
    ///
    /// let (shared, mut reservers) = Entities::new().share(2)?;
    /// let lost = reservers.pop();
    /// drop(lost);
    /// let ((shared, reservers), error) = shared.close(reservers).unwrap_err().into_parts();
    /// assert_eq!(error, CloseError::Missing { count: 1 });
    /// let entities = shared.close_lost(reservers)?;
    /// # Ok::<(), Box<dyn std::error::Error + Send + Sync>>(())
    /// ```
    ///
    /// # Errors
    ///
    /// [`HandedBack`] has the phase, which goes on, the reservers that are handed back, and the
    /// first of these errors that applies. With [`CloseError::OtherPhase`] all reservers are handed
    /// back. With [`CloseError::Order`], which only a phase in blocks returns, and
    /// [`CloseError::InUse`] the phase keeps those that came. As long as a reserver that wasn't
    /// handed in exists, the error is `InUse`. One that was passed to [`core::mem::forget`] exists
    /// forever.
    ///
    /// <details><summary>Contract</summary>
    ///
    /// <code style="display: block; tab-size: 4; white-space: pre-wrap">// In the words of [contracts](crate::contracts):
    /// ensures ended { [IfOk](crate::contracts::logic#IfOk) result (λ closed.
    /// &#9;S.closes_lost self.source ([all_returned](crate::contracts::ent_total::phases#all_returned) self reservers.items) closed) }
    /// &#32;
    /// // When it succeeds, when it is refused, and what holds then.
    /// ensures may_return { [OnOk](crate::contracts::logic#OnOk) result ([MayReturn](crate::contracts::ent_total::phases#MayReturn) (S.count self.source) self reservers.items) }
    /// ensures other_phase { [IsErrAnd](crate::contracts::logic#IsErrAnd) result (λ h. h.error ≡ OtherPhase)
    /// &#9;↔ ¬ ([MayReturn](crate::contracts::ent_total::phases#MayReturn) (S.count self.source) self reservers.items) }
    /// ensures no_missing { [IfErr](crate::contracts::logic#IfErr) result (λ h. ¬ ([IsMissing](crate::contracts::ent_total::closing#IsMissing) h.error)) }
    /// ensures order { [IsErrAnd](crate::contracts::logic#IsErrAnd) result (λ h. h.error ≡ Order)
    /// &#9;↔ ([MayReturn](crate::contracts::ent_total::phases#MayReturn) (S.count self.source) self reservers.items
    /// &#9;× ¬ (S.takes self.source ([all_returned](crate::contracts::ent_total::phases#all_returned) self reservers.items))) }
    /// ensures handed_back { [IfErr](crate::contracts::logic#IfErr) result (λ h. h.error ≢ InUse → h.error ≢ Order
    /// &#9;→ (h.value.0 ≡ self) × (h.value.1.items ≡ reservers.items)) }
    /// ensures returned { [IfErr](crate::contracts::logic#IfErr) result (λ h. (h.error ≡ InUse) ⊎ (h.error ≡ Order)
    /// &#9;→ (h.value.0 ≡ record self { returned = [all_returned](crate::contracts::ent_total::phases#all_returned) self reservers.items })
    /// &#9;× (h.value.1.items ≡ \[\])) }
    /// </code>
    ///
    /// </details>
    #[inline]
    pub fn close_lost(
        mut self,
        reservers: Vec<Reserver<S>>,
    ) -> Result<S::Closed, HandedBack<(Self, Vec<Reserver<S>>), CloseError>> {
        if self.missing(&reservers).is_none() {
            return Err(HandedBack::new((self, reservers), CloseError::OtherPhase));
        }
        self.take_back(reservers);
        if !self.may_end() {
            return Err(self.with_none(CloseError::Order));
        }
        match self.end() {
            Ok((source, returned)) => Ok(source.end_with_some(returned)),
            Err(phase) => Err(phase.with_none(CloseError::InUse)),
        }
    }
}

impl<S: Phased> Phase<S> {
    /// How many reservers are missing beside those returned and these, if these may come back.
    #[inline]
    fn missing(&self, reservers: &[Reserver<S>]) -> Option<usize>
        // ensures may_return { IsSome result ↔ MayReturn (S.count self.now.source) self.now reservers.now }
        // ensures count { IfSome result (λ missing.
        //     length (all_returned self.now reservers.now) + missing ≡ S.count self.now.source) }
    {
        if !are_of(self.number(), reservers) {
            return None;
        }
        let most = self.count();
        let returned = self.returned();
        if returned > most || reservers.len() > most - returned {
            return None;
        }
        Some(most - returned - reservers.len())
    }

    /// It goes on, and no reserver is handed back.
    #[inline]
    fn with_none(self, error: CloseError) -> HandedBack<(Self, Vec<Reserver<S>>), CloseError>
        // ensures phase { result.value.0 ≡ self }
        // ensures reservers { result.value.1.items ≡ [] }
        // ensures error { result.error ≡ error }
    {
        let none = self.no_reservers();
        HandedBack::new((self, none), error)
    }
}
