//! Without the standard library, nothing catches a panic, so systems run as they are.

use crate::{FrameError, RunError};
use core::convert::Infallible;

/// The error of a frame, as it is.
pub(crate) fn of_frame<E>(error: FrameError<E>) -> FrameError<E> {
    error
}

/// The error of a run of logs, as it is.
pub(crate) fn of_logs<E>(error: RunError<E>) -> RunError<E> {
    error
}

/// Calls `run` with the `Join` and the systems.
pub(crate) fn guarded<J, S, T, E>(
    join: &J,
    systems: &[S],
    _memory: E,
    run: impl FnOnce(&J, &[S]) -> Result<Result<T, E>, Infallible>,
) -> Result<T, E> {
    let Ok(ran) = run(join, systems);
    ran
}

/// What the closure returns.
pub(crate) fn caught<T>(run: impl FnOnce() -> T) -> Result<T, Infallible> {
    Ok(run())
}
