// Made of crates/ent_total/src/opening.rt by rust/erase. It isn't edited by hand.

//! A phase is opened.
use alloc::vec::Vec;
use crate::phases::phase::Phase;
use crate::phases::reserver::Reserver;
use crate::allocator::Phased;
use crate::kit::sync::Arc;

/// A phase that has no number yet, with all its reservers.
pub struct Opening<S: Phased> {
    source: Arc<S>,
    returned: Vec<S::Reserver>,
    reservers: Vec<Reserver<S>>,
}

/// A phase of a source, whose reservers are these. The lists have room for all of them.
///
/// # Errors
///
/// Both as they were, if an allocation fails.
#[inline]
pub(crate) fn begin<S: Phased>(
    source: S,
    returned: Vec<S::Reserver>,
    reservers: Vec<Reserver<S>>,
) -> Result<Opening<S>, (S, Vec<S::Reserver>)>
    // requires own { All (S.serves source) returned.items }
    // requires count { S.count source ≤ vec_capacity returned }
    // requires none { reservers.items ≡ [] }
    // requires room { length returned.items ≤ vec_capacity reservers }
    // ensures opening { IfOk result (λ o. o ≡ record { source = source; returned = returned.items }) }
    // ensures err { IfErr result (λ back. (back.0 ≡ source) × (back.1 ≡ returned)) }
{
    match Arc::new(source) {
        Ok(source) => Ok(Opening {
            source,
            returned,
            reservers,
        }),
        Err(refused) => Err((refused.value, returned)),
    }
}

impl<S: Phased> Opening<S> {
    /// The phase under this number, which no other phase has, and all its reservers, in the order
    /// in which they were made. It doesn't allocate.
    ///
    /// # Errors
    ///
    /// The same, with some reservers returned to the phase: each owns a part of the allocator, and
    /// no more owners could be counted. That takes 2^62 of them.
    #[inline]
    pub(crate) fn numbered(
        self,
        number: u64,
    ) -> Result<(Phase<S>, Vec<Reserver<S>>), (Phase<S>, Vec<Reserver<S>>)>
        // requires stands_for { J.phase_of S number ≡ Some self.source }
        // ensures phase { IfOk result (λ made.
        //     made.0 ≡ record { number = number; source = self.source; returned = [] }) }
        // ensures reservers { IfOk result (λ made. reservers_of made.1.items ≡ self.returned) }
        // ensures of { IfOk result (λ made. AreOf number made.1.items) }
        // ensures same { IfOk result (λ made. All (λ r. r.source ≡ self.source) made.1.items) }

        // What holds if not all could be given out.
        // ensures err_phase { IfErr result (λ made.
        //     made.0 ≡ record { number = number; source = self.source; returned = made.0.returned }) }
        // ensures err_some_returned { IfErr result (λ made. made.0.returned ≢ []) }
        // ensures err_reservers { IfErr result (λ made.
        //     reservers_of made.1.items ++ reverse made.0.returned ≡ self.returned) }
        // ensures err_of { IfErr result (λ made. AreOf number made.1.items) }
    {
        let Opening {
            source,
            mut returned,
            mut reservers,
        } = self;
        returned.reverse();
        let mut phase = Phase::new(source, returned, number);
        phase.give_out(&mut reservers);
        if phase.returned() > 0 {
            return Err((phase, reservers));
        }
        Ok((phase, reservers))
    }
}
