//! The clock, by which a run tells how far it is.
//!
//! The contracts are those of the kit's `std::time`. Nothing of an output depends on them.

pub use core::time::Duration;
use std::io;

/// The right to read the clock.
pub trait Clock {}

/// A moment.
#[derive(Clone, Copy, Debug, PartialEq, Eq, PartialOrd, Ord)]
pub struct Instant(std::time::Instant);

impl Instant {
    /// The contract: a moment that is not before any that was read earlier. In Rust a clock can
    /// always be read.
    pub fn now(_clock: &impl Clock) -> io::Result<Self> {
        Ok(Instant(std::time::Instant::now()))
    }

    /// The contract: the time since the other moment, and none if that is later.
    pub fn duration_since(&self, earlier: Instant) -> Duration {
        self.0.saturating_duration_since(earlier.0)
    }
}

#[cfg(test)]
mod tests {
    use super::{Clock, Duration, Instant};

    struct Reads;

    impl Clock for Reads {}

    #[test]
    fn time_goes_on_and_never_back() {
        let first = Instant::now(&Reads).expect("a clock");
        let second = Instant::now(&Reads).expect("a clock");
        assert!(first <= second);
        assert_eq!(first.duration_since(second), Duration::ZERO);
        assert_eq!(second.duration_since(first), second.0 - first.0);
    }
}
