// Made of crates/ent_runner/src/crew/worker.rt by rust/erase. It isn't edited by hand.

//! Workers: each claims jobs, one after the other, does them, and keeps their outputs.

use alloc::vec::Vec;
use crate::kit::vec::FallibleVec;
use crate::running::crew::claimer::Claimer;
use crate::running::crew::claims::Claims;
use crate::running::crew::steps::Steps;
use crate::kit::thread::{Join, join_mut};

/// What the workers of a crew have in common.
pub(super) struct Site<'a, J> {
    pub(super) claims: &'a Claims,
    pub(super) jobs: &'a J,
}

/// The output of the job of this number.
pub(super) struct Done<O> {
    pub(super) number: usize,
    pub(super) output: O,
}

/// What a worker has claimed and done.
pub(super) struct Worker<O> {
    pub(super) claimer: Claimer,
    /// The outputs of the jobs that it did, in the order of the claims. If a job stopped, its
    /// output is the last one.
    pub(super) done: Vec<Done<O>>,
    /// Its last job stopped, so it has claimed no more.
    pub(super) stopped: bool,
}

impl<O> Worker<O> {
    /// Does the jobs that it claims, until none is left or one stops. It claims one only if there is
    /// room for its output, as there is for the first one. If not, other workers do what is left.
    /// Returns whether its last job stopped.
    #[inline]
    fn work<L, J: Steps<O, L>>(&mut self, site: &Site<'_, J>, lent: &mut L) -> bool
        // requires jobs { site.now.claims.now.numbers ≡ J.count site.now.jobs.now }
        // requires lent { J.may_have site.now.jobs.now lent.old }
        // requires claimer { IsClaimerOf site.now.claims.now self.old.claimer }
        // requires fresh { IsNewWorker self.old }
        // ensures lent { J.may_have site.now.jobs.now lent.new }
        // ensures claimer { IsClaimerOf site.now.claims.now self.new.claimer }
        // ensures claimed { numbers_of self.new.done.items ≡ self.new.claimer.own.claims }
        // ensures ended { result ≡ false → HaveEnded (J.may_do site.now.jobs.now) lent.old
        //     self.new.done.items lent.new }
        // ensures through { result ≡ false → IsThrough self.new }
        // ensures stopped { result ≡ true → HasStoppedAt (J.may_do site.now.jobs.now)
        //     (J.may_leave site.now.jobs.now) lent.old self.new.done.items lent.new }
        // ensures flag { self.new.stopped ≡ self.old.stopped }
    {
        while let Some(number) = site.claims.next(&mut self.claimer) {
            let (output, stopped) = site.jobs.do_job(number, lent);
            self.done.push_reserved(Done { number, output });
            if stopped {
                return true;
            }
            if self.done.reserve_fallibly(1).is_err() {
                return false;
            }
        }
        false
    }

    /// Works, and remembers if its last job stopped.
    #[inline]
    fn run<L, J: Steps<O, L>>(&mut self, site: &Site<'_, J>, lent: &mut L)
        // requires jobs { site.now.claims.now.numbers ≡ J.count site.now.jobs.now }
        // requires lent { J.may_have site.now.jobs.now lent.old }
        // requires claimer { IsClaimerOf site.now.claims.now self.old.claimer }
        // requires fresh { IsNewWorker self.old }
        // ensures { HasWorked (J.may_do site.now.jobs.now) (J.may_leave site.now.jobs.now)
        //     (J.may_have site.now.jobs.now) site.now.claims.now lent.old lent.new self.new }
    {
        self.stopped = self.work(site, lent);
    }
}

/// The threads of up to so many workers are started by one thread, one after the other. Until a new
/// thread runs, as much time passes as three more take to start, so halves are sooner if there are
/// more.
const FEW: usize = 8;

/// How many of the workers go to a new thread: one of a few, and one half of many.
#[inline]
fn handed_on(workers: usize) -> usize
    // requires { 2 ≤ workers }
    // ensures some { 0 < result }
    // ensures rest { result < workers }
{
    if workers <= FEW { 1 } else { workers / 2 }
}

/// All workers work side by side, each with what is lent at its position, in so many threads if
/// there are as many workers and each thread can be started. Some of the workers go to a new
/// thread, again and again. Those that share a thread work one after the other.
#[inline]
pub(super) fn run_all<R, O, L, J>(
    rt: &R,
    site: &Site<'_, J>,
    workers: &mut [Worker<O>],
    lent: &mut [L],
    threads: usize,
)
where
    R: Join + Sync,
    O: Send,
    L: Send,
    J: Steps<O, L> + Sync,
    // requires jobs { site.now.claims.now.numbers ≡ J.count site.now.jobs.now }
    // requires ready { AreReady (J.may_have site.now.jobs.now) site.now.claims.now lent.old workers.old }
    // ensures { HaveAllWorked (J.may_do site.now.jobs.now) (J.may_leave site.now.jobs.now)
    //     (J.may_have site.now.jobs.now) site.now.claims.now lent.old lent.new workers.new }
{
    if workers.len() == 1 {
        workers[0].run(site, &mut lent[0]);
        return;
    }
    let middle = handed_on(workers.len());
    let (front, back) = workers.split_at_mut(middle);
    let (first, second) = lent.split_at_mut(middle);
    if threads < 2 {
        run_all(rt, site, front, first, threads);
        run_all(rt, site, back, second, threads);
        return;
    }
    run_both(rt, site, front, first, back, second, threads);
}

/// Both parts of the workers work side by side, the first one in no more threads than it has
/// workers.
#[inline]
fn run_both<R, O, L, J>(
    rt: &R,
    site: &Site<'_, J>,
    front: &mut [Worker<O>],
    first: &mut [L],
    back: &mut [Worker<O>],
    second: &mut [L],
    threads: usize,
)
where
    R: Join + Sync,
    O: Send,
    L: Send,
    J: Steps<O, L> + Sync,
    // requires jobs { site.now.claims.now.numbers ≡ J.count site.now.jobs.now }
    // requires front { AreReady (J.may_have site.now.jobs.now) site.now.claims.now first.old front.old }
    // requires back { AreReady (J.may_have site.now.jobs.now) site.now.claims.now second.old back.old }
    // ensures front { HaveAllWorked (J.may_do site.now.jobs.now) (J.may_leave site.now.jobs.now)
    //     (J.may_have site.now.jobs.now) site.now.claims.now first.old first.new front.new }
    // ensures back { HaveAllWorked (J.may_do site.now.jobs.now) (J.may_leave site.now.jobs.now)
    //     (J.may_have site.now.jobs.now) site.now.claims.now second.old second.new back.new }
{
    let fewer = front.len().min(threads / 2);
    let more = threads - fewer;
    let mut one = ||
        // requires { IsSync R.row × IsSync J.row × IsSend O.row × IsSend L.row
        //     × (site.now.claims.now.numbers ≡ J.count site.now.jobs.now)
        //     × AreReady (J.may_have site.now.jobs.now) site.now.claims.now first.now front.now }
        // ensures { HaveAllWorked (J.may_do site.entry.now.jobs.now)
        //     (J.may_leave site.entry.now.jobs.now) (J.may_have site.entry.now.jobs.now)
        //     site.entry.now.claims.now first.entry.now first.exit.now front.exit.now }
    { run_all(rt, site, front, first, fewer) };
    let mut other = ||
        // requires { IsSync R.row × IsSync J.row × IsSend O.row × IsSend L.row
        //     × (site.now.claims.now.numbers ≡ J.count site.now.jobs.now)
        //     × AreReady (J.may_have site.now.jobs.now) site.now.claims.now second.now back.now }
        // ensures { HaveAllWorked (J.may_do site.entry.now.jobs.now)
        //     (J.may_leave site.entry.now.jobs.now) (J.may_have site.entry.now.jobs.now)
        //     site.entry.now.claims.now second.entry.now second.exit.now back.exit.now }
    { run_all(rt, site, back, second, more) };
    join_mut(rt, &mut one, &mut other);
}
