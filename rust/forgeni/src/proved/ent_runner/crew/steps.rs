// Made of crates/ent_runner/src/crew/steps.rt by rust/erase. It isn't edited by hand.

//! Jobs as a worker does them: what one made has its error beside it.

use crate::running::crew::jobs::Jobs;

/// [`Jobs`] each of which keeps what it made, and says whether it stopped.
pub(super) trait Steps<O, L> {
    /// Does the job of this number once. Returns what it made, and whether it stopped.
    fn do_job(&self, number: usize, lent: &mut L) -> (O, bool);
        // requires number { number < count self.now }
        // requires lent { may_have self.now lent.old }
        // ensures stays { may_have self.now lent.new }
        // ensures does { result.1 ≡ false → may_do self.now number lent.old result.0 lent.new }
        // ensures leaves { result.1 ≡ true
        //     → may_leave self.now number lent.old result.0 lent.new }
}

/// What they made is their output and their error, if they stopped.
pub(super) struct Kept<'a, J> {
    pub(super) jobs: &'a J,
}

impl<O, E, L, J: Jobs<O, L, E>> Steps<(O, Option<E>), L> for Kept<'_, J> {
    #[inline]
    fn do_job(&self, number: usize, lent: &mut L) -> ((O, Option<E>), bool) {
        let (output, ran) = self.jobs.run(number, lent);
        match ran {
            Ok(()) => ((output, None), false),
            Err(error) => ((output, Some(error)), true),
        }
    }
}
