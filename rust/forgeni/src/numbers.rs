//! The numbers that distinguish phases and worlds.
//!
//! That no number is given twice is trusted. What follows from it is proved.

use core::sync::atomic::{AtomicU64, Ordering};

/// The number that is given next. It would take centuries to wrap.
static NEXT: AtomicU64 = AtomicU64::new(0);

/// A number that is given only once.
pub(crate) fn next_number() -> u64 {
    NEXT.fetch_add(1, Ordering::Relaxed)
}
