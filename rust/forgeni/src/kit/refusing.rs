//! Allocations that fail in tests.

use super::alloc::AllocError;
use core::cell::Cell;

std::thread_local! {
    static REFUSED: Cell<bool> = const { Cell::new(false) };
}

/// Does the work. Meanwhile no list of the kit can grow.
pub fn refuse<R>(work: impl FnOnce() -> R) -> R {
    REFUSED.set(true);
    let result = work();
    REFUSED.set(false);
    result
}

/// An `Err` if growth is refused now.
pub(super) fn ask() -> Result<(), AllocError> {
    if REFUSED.get() {
        return Err(AllocError);
    }
    Ok(())
}
