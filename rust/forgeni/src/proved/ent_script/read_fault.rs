// Made of crates/ent_script/src/read_fault.rt by rust/erase. It isn't edited by hand.

use crate::scripts::cause::{Cause, ScriptCause};
use crate::handles::OutOfMemory;
use crate::kit::programs::json::Invalid;
use crate::kit::alloc::{AllocError, AllocFailed};

/// Why a text isn't a script, or could not be read. Frames, systems and operations are numbered
/// from 0.
#[derive(Clone, Copy, Debug, PartialEq, Eq, Hash)]
pub enum ReadFault {
    /// The bytes aren't a JSON text.
    Json,
    /// A test of the script outside its frames fails.
    Script(ScriptCause),
    /// A frame isn't a list of at most 256 systems.
    Frame {
        /// Its number.
        frame: usize,
    },
    /// A system isn't a list of at most 10,000 operations.
    System {
        /// The number of its frame.
        frame: usize,
        /// Its number in the frame.
        system: usize,
    },
    /// An element of a system isn't an operation.
    Operation {
        /// The number of its frame.
        frame: usize,
        /// The number of its system in the frame.
        system: usize,
        /// Its number in the system.
        operation: usize,
        /// What is wrong with it.
        cause: Cause,
    },
    /// Memory ran out.
    Memory,
}

impl core::fmt::Display for ReadFault {
    fn fmt(&self, f: &mut core::fmt::Formatter<'_>) -> core::fmt::Result {
        match self {
            ReadFault::Json => write!(f, "no JSON text"),
            ReadFault::Script(..) => write!(f, "no script"),
            ReadFault::Frame { frame } => write!(f, "no frame at {frame}"),
            ReadFault::System { frame, system } => write!(f, "no system at {frame} {system}"),
            ReadFault::Operation { frame, system, operation, .. } => write!(f, "no operation at {frame} {system} {operation}"),
            ReadFault::Memory => write!(f, "out of memory"),
        }
    }
}

impl core::error::Error for ReadFault {}

impl From<ScriptCause> for ReadFault {
    #[inline]
    fn from(cause: ScriptCause) -> Self {
        ReadFault::Script(cause)
    }
}

impl From<OutOfMemory> for ReadFault {
    #[inline]
    fn from(_refused: OutOfMemory) -> Self {
        ReadFault::Memory
    }
}

impl From<AllocError> for ReadFault {
    #[inline]
    fn from(_refused: AllocError) -> Self {
        ReadFault::Memory
    }
}

impl<T> From<AllocFailed<T>> for ReadFault {
    #[inline]
    fn from(_refused: AllocFailed<T>) -> Self {
        ReadFault::Memory
    }
}

impl From<Invalid> for ReadFault {
    #[inline]
    fn from(_refused: Invalid) -> Self {
        ReadFault::Json
    }
}
