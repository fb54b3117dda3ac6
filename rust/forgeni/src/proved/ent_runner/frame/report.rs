// Made of crates/ent_runner/src/frame/report.rt by rust/erase. It isn't edited by hand.

use alloc::vec::Vec;
use crate::handles::OutOfMemory;
use crate::commands::IssuedCommands;
use crate::worlds::{SyncFault, Report};
use core::error::Error;
use core::fmt;

/// What a frame has done.
#[derive(Debug)]
pub struct FrameReport {
    /// The queue of each system, in the order of the systems.
    pub queues: Vec<IssuedCommands>,
    /// What the sync point has done.
    pub sync: Report,
}

/// Why a frame stopped.
#[derive(Debug)]
pub enum FrameFault<E = OutOfMemory> {
    /// Memory ran out before any system ran. The world is as it was.
    Memory,
    /// A system returned an error, and this is the first one in the order of the systems. Without
    /// one, some systems didn't run, since no worker has memory for the queue of another one. No
    /// command was applied. The handles that the systems reserved stay reserved, and no others:
    /// the next flush brings them to life, without components.
    Lost(Option<E>),
    /// All systems ran, and the sync point stopped.
    Sync {
        /// What came of the sync point.
        fault: SyncFault,
        /// The queue of each system, in the order of the systems.
        queues: Vec<IssuedCommands>,
    },
}

impl<E: fmt::Display> fmt::Display for FrameFault<E> {
    #[inline]
    fn fmt(&self, f: &mut fmt::Formatter<'_>) -> fmt::Result {
        match self {
            FrameFault::Memory => f.write_str("out of memory before any system ran"),
            FrameFault::Lost(None) => f.write_str("out of memory while the systems ran"),
            FrameFault::Lost(Some(error)) => write!(f, "a system stopped: {error}"),
            FrameFault::Sync { fault, .. } => write!(f, "the sync point stopped: {fault}"),
        }
    }
}

impl<E: fmt::Debug + fmt::Display> Error for FrameFault<E> {}
