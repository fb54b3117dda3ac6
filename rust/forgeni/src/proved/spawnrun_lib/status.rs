// Made of crates/spawnrun_lib/src/status.rt by rust/erase. It isn't edited by hand.

//! How a run of the program ended.

use crate::handles::OutOfMemory;

/// How a run of the program ended.
///
/// Its number is the program's exit status. The number 2 is for arguments that are no command line.
#[derive(Clone, Copy, Debug, PartialEq, Eq)]
pub enum Status {
    /// The input was accepted, and all of the output was written.
    Done,
    /// The input was refused. One line of output says why.
    Refused,
    /// Memory ran out. Nothing was written.
    Memory,
    /// A call of a device failed. Any part of the output may have gone out.
    Device,
}

impl From<OutOfMemory> for Status {
    #[inline]
    fn from(_refused: OutOfMemory) -> Self {
        Status::Memory
    }
}

impl Status {
    /// The exit status: 0, 1, 3 or 4.
    ///
    /// <details><summary>Contract</summary>
    ///
    /// <code style="display: block; tab-size: 4; white-space: pre-wrap">// In the words of [contracts](crate::contracts):
    /// ensures { result ≡ exit_number self }
    /// </code>
    ///
    /// </details>
    #[inline]
    pub fn number(self) -> u8 {
        match self {
            Status::Done => 0,
            Status::Refused => 1,
            Status::Memory => 3,
            Status::Device => 4,
        }
    }
}
