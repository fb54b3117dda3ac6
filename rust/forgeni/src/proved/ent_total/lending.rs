// Made of crates/ent_total/src/lending.rt by rust/erase. It isn't edited by hand.

//! What reservers of blocks reserve with is lent to a run of systems, and comes back.
use alloc::vec::Vec;
use crate::kit::vec::FallibleVec;
use crate::phases::of_blocks::OfBlocks;
use crate::phases::phase::Phase;
use crate::phases::reserver::Reserver;
use crate::in_blocks::BlockReserver;
use crate::handles::OutOfMemory;

impl<S: OfBlocks> Reserver<S> {
    /// Takes out what it reserves with. What it has then is used up.
    #[inline]
    fn lend(&mut self) -> BlockReserver
        // ensures lent { result ≡ self.old.reserver }
        // ensures left { self.new ≡ lent_out self.old }
        // ensures of { IsOfPhase (S.of self.old.source) result }
    {
        self.reserver.take()
    }

    /// Gives it back what it reserves with.
    #[inline]
    fn put_back(&mut self, mine: BlockReserver)
        // requires { IsOfPhase (S.of self.old.source) mine }
        // ensures { self.new ≡ record self.old { reserver = mine } }
    {
        self.reserver = mine;
    }
}

/// Whether these are all of the phase.
#[inline]
pub(super) fn are_of<S: OfBlocks>(
    phase: &Phase<S>,
    reservers: &[Reserver<S>],
) -> bool
    // ensures number { IsTrue result ↔ AreOf phase.now.number reservers.now }
    // ensures source { IsTrue result → AreFrom phase.now.source reservers.now }
{
    for reserver in reservers {
        if !reserver.is_of(phase) {
            return false;
        }
    }
    true
}

/// Takes out what these reserve with. What they have then is used up.
///
/// # Errors
///
/// [`OutOfMemory`], and they are as they were.
#[inline]
pub(super) fn lend_all<S: OfBlocks>(
    reservers: &mut [Reserver<S>],
) -> Result<Vec<BlockReserver>, OutOfMemory>
    // ensures lent { IfOk result (λ lent. lent.items ≡ reservers_of reservers.old) }
    // ensures left { OnOk result (reservers.new ≡ map lent_out reservers.old) }
    // ensures own { (source : S) → AreFrom source reservers.old
    //     → IfOk result (λ lent. All (IsOfPhase (S.of source)) lent.items) }
    // ensures memory { OnErr result (0 < length reservers.old) }
    // ensures err { OnErr result (reservers.new ≡ reservers.old) }
{
    let mut lent = Vec::with_capacity_fallibly(reservers.len())?;
    for reserver in reservers.iter_mut() {
        lent.push_reserved(reserver.lend());
    }
    Ok(lent)
}

/// Gives the first ones of these back what they reserve with, in their order.
#[inline]
pub(super) fn put_back<S: OfBlocks>(
    reservers: &mut [Reserver<S>],
    source: &S,
    lent: Vec<BlockReserver>,
)
    // requires from { AreFrom source.now reservers.old }
    // requires own { All (IsOfPhase (S.of source.now)) lent.items }
    // requires few { length lent.items ≤ length reservers.old }
    // ensures { reservers.new ≡ returned reservers.old lent.items }
{
    let mut at = 0;
    for mine in lent {
        reservers[at].put_back(mine);
        at += 1;
    }
}
