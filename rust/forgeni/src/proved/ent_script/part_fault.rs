// Made of crates/ent_script/src/part_fault.rt by rust/erase. It isn't edited by hand.

use crate::scripts::cause::Cause;
use crate::handles::OutOfMemory;

/// Why an operation could not be read.
#[derive(Clone, Copy)]
pub(super) enum PartFault {
    /// A test fails.
    Refused(Cause),
    /// Memory ran out.
    Memory,
}

impl From<Cause> for PartFault {
    #[inline]
    fn from(cause: Cause) -> Self {
        PartFault::Refused(cause)
    }
}

impl From<OutOfMemory> for PartFault {
    #[inline]
    fn from(_refused: OutOfMemory) -> Self {
        PartFault::Memory
    }
}
