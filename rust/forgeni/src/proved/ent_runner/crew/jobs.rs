// Made of crates/ent_runner/src/crew/jobs.rt by rust/erase. It isn't edited by hand.

/// Jobs with numbers from 0, which the workers of a [`Crew`](crate::running::Crew) do. A worker lends each
/// of its jobs what it has itself, an `L`, such as a reserver. A job has one output, and may stop
/// with an error, an `E`.
///
/// One value has all jobs, and each of them may run on any worker.
pub trait Jobs<O, L, E> {
    /// Does the job of this number once.
    ///
    /// # Errors
    ///
    /// The error of the job, if it stopped. Its output is what it had made until then, and what it
    /// did to what was lent stays done.
    ///
    /// <details><summary>Contract</summary>
    ///
    /// <code style="display: block; tab-size: 4; white-space: pre-wrap">// In the words of [contracts](crate::contracts):
    /// requires number { number \< count self.now }
    /// requires lent { may_have self.now lent.old }
    /// ensures stays { may_have self.now lent.new }
    /// ensures does { [OnOk](crate::contracts::logic#OnOk) result.1 (may_do self.now number lent.old result.0 lent.new) }
    /// ensures leaves { [IfErr](crate::contracts::logic#IfErr) result.1 (λ error.
    /// &#9;may_leave self.now number lent.old result.0 error lent.new) }
    /// </code>
    ///
    /// </details>
    fn run(&self, number: usize, lent: &mut L) -> (O, Result<(), E>);
}
