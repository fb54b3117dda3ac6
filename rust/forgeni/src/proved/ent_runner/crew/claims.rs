// Made of crates/ent_runner/src/crew/claims.rt by rust/erase. It isn't edited by hand.

use alloc::vec::Vec;
use crate::kit::vec::FallibleVec;
use crate::running::crew::claimer::Claimer;
use crate::running::crew::rule::Opening;
use crate::running::crew::word;
use crate::running::crew::word::Word;
use crate::handles::OutOfMemory;
use crate::reserving::holders::{merge, new_holder, split_first};

/// The numbers below a count, which workers claim side by side, each with a [`Claimer`] of its own.
pub struct Claims {
    word: Word,
    numbers: usize,
}

impl Claims {
    /// Makes the numbers below `numbers` ready to be claimed, and one claimer for each worker. No
    /// number is claimed yet. `numbers` is at most 65,536, and `workers` is 1 to 64: both limits
    /// are this project's own.
    ///
    /// # Errors
    ///
    /// [`OutOfMemory`] if there isn't enough memory for them. Nothing is left of them then.
    #[inline]
    pub(crate) fn open(
        numbers: usize,
        workers: usize,
    ) -> Result<(Claims, Vec<Claimer>), OutOfMemory>
        // requires numbers { numbers ≤ 2 ^ 16 }
        // requires some { 0 < workers }
        // requires few { workers ≤ 64 }
        // ensures numbers { IfOk result (λ made. made.0.numbers ≡ numbers) }
        // ensures workers { IfOk result (λ made. made.0.workers ≡ workers) }
        // ensures count { IfOk result (λ made. length made.1.items ≡ workers) }
        // ensures own { IfOk result (λ made. All (IsClaimerOf made.0) made.1.items) }
        // ensures unused { IfOk result (λ made. All (λ c.
        //     (c.own.claims ≡ []) × (c.own.ended ≡ false)) made.1.items) }
    {
        let mut claimers = Vec::with_capacity_fallibly(workers)?;
        let opening = Opening { numbers, workers };
        let (word, mut all) = word::open(&opening)?;
        for _ in 0..workers {
            claimers.push_reserved(Claimer::new(split_first(&word, &mut all)));
        }
        Ok((Claims { word, numbers }, claimers))
    }

    /// Claims the next number that isn't claimed yet, by one atomic step. `None` means that no
    /// number is left, and the claimer has ended: from then on it returns `None` without a step. It
    /// neither allocates nor waits.
    #[inline]
    pub(crate) fn next(&self, claimer: &mut Claimer) -> Option<usize>
        // requires { IsClaimerOf self.now claimer.old }
        // ensures stays { IsClaimerOf self.now claimer.new }

        // A number is below the count, and above all that this claimer had claimed before.
        // ensures below { IfSome result (λ n. n < self.now.numbers) }
        // ensures rises { IfSome result (λ n. All (λ earlier. earlier < n) claimer.old.own.claims) }
        // ensures claims { IfSome result (λ n. claimer.new.own
        //     ≡ record claimer.old.own { claims = claimer.old.own.claims ++ n ∷ [] }) }

        // Without a number the claimer has ended, and one that has ended gets none.
        // ensures ends { IfNone result
        //     (claimer.new.own ≡ record claimer.old.own { ended = true }) }
        // ensures ended { claimer.old.own.ended ≡ true → result ≡ None }
    {
        if claimer.ended {
            return None;
        }
        let found = word::claim(&self.word, &mut claimer.token) as usize;
        if found < self.numbers {
            Some(found)
        } else {
            claimer.ended = true;
            None
        }
    }

    /// Ends the claiming, with all its claimers. It doesn't allocate.
    #[inline]
    pub(crate) fn close(self, claimers: Vec<Claimer>)
        // requires all { length claimers.items ≡ self.workers }
        // requires own { All (IsClaimerOf self) claimers.items }

        // No number is claimed by two claimers.
        // ensures apart { (n j k : ℕ) → IsClaimedBy claimers.items n j
        //     → IsClaimedBy claimers.items n k → j ≡ k }

        // All claims together are the first numbers, each once.
        // ensures first { AreFirst self.numbers claimers.items }

        // If all claimers have ended, each number is claimed, and all claims together are the
        // numbers, each once.
        // ensures claimed { HaveEnded claimers.items → (n : ℕ) → n < self.numbers
        //     → (k : ℕ) × IsClaimedBy claimers.items n k }
        // ensures once { HaveEnded claimers.items
        //     → IsPermutation (flat_map (λ c. c.own.claims) claimers.items)
        //     (range_with_len 0 self.numbers) }
    {
        let Claims { word, .. } = self;
        let mut all = new_holder(&word);
        for claimer in claimers {
            merge(&word, &mut all, claimer.token);
        }
        word::close(word, all);
    }
}
