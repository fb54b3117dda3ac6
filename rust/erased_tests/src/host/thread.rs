//! Work side by side.

pub use crate::kit::thread::{join_mut, Join as Threads};
pub use std::thread::yield_now;

use crate::kit::alloc::AllocError;
use std::thread::scope;

/// Calls `work` with each job, all of them side by side.
pub fn map_vec<R: Threads + Sync, J: Send, X: Send>(
    _rt: &R,
    jobs: Vec<J>,
    work: &(impl Fn(J) -> X + Sync),
) -> Result<Vec<X>, AllocError> {
    let done: Vec<X> = scope(|scope| {
        let start = |job| scope.spawn(|| work(job));
        let running: Vec<_> = jobs.into_iter().map(start).collect();
        let joined = running.into_iter().map(|it| it.join());
        joined.map(|it| it.expect("no panic beside")).collect()
    });
    Ok(done)
}
