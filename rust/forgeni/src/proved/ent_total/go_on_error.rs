// Made of crates/ent_total/src/go_on_error.rt by rust/erase. It isn't edited by hand.

/// Why a sync point that was continued wasn't completed.
///
/// ```
/// use forgeni::{GoOnError, HandedBack, Report, Stopped, World};
///
/// /// Goes on, after a flush if something was spawned meanwhile.
/// fn go_on(
///     stopped: Stopped,
///     world: &mut World,
/// ) -> Result<Report, HandedBack<Stopped, GoOnError>> {
///     match stopped.go_on(world).map_err(HandedBack::into_parts) {
///         Ok(report) => Ok(report),
///         Err((stopped, GoOnError::NeedsFlush)) if world.flush().is_ok() => stopped.go_on(world),
///         Err((stopped, error)) => Err(HandedBack::new(stopped, error)),
///     }
/// }
/// ```
#[derive(Clone, Copy, Debug, PartialEq, Eq, Hash)]
#[non_exhaustive]
pub enum GoOnError {
    /// It stopped in another world. Nothing has changed.
    OtherWorld,
    /// Handles were requested in the world since it stopped, so the world needs a flush first.
    /// Nothing has changed.
    NeedsFlush,
    /// Memory ran out at a command, there or later. What is handed back stopped at that command, and
    /// its report says what was done since it was continued.
    Memory,
}

impl core::fmt::Display for GoOnError {
    fn fmt(&self, f: &mut core::fmt::Formatter<'_>) -> core::fmt::Result {
        match self {
            GoOnError::OtherWorld => write!(f, "the queues are of another world"),
            GoOnError::NeedsFlush => write!(f, "a flush is needed first"),
            GoOnError::Memory => write!(f, "out of memory"),
        }
    }
}

impl core::error::Error for GoOnError {}
