// Made of crates/tracecheck/src/status.rt by rust/erase. It isn't edited by hand.

//! How a run of the program ended.

/// How a run of the program ended. Its number is the program's exit status.
#[derive(Clone, Copy)]
pub enum Status {
    /// The trace agrees, and that was written.
    Agrees,
    /// The trace differs, and that was written.
    Differs,
    /// The text is no trace, or the image is none, and that was written. Words that are no command
    /// line end so too.
    Refused,
    /// Memory ran out. Nothing was written.
    Memory,
    /// A call of a device failed. Any part of the output may have gone out.
    Device,
}

impl Status {
    /// The exit status: 0 to 4.
    ///
    /// <details><summary>Contract</summary>
    ///
    /// <code style="display: block; tab-size: 4; white-space: pre-wrap">// In the words of [contracts](crate::contracts):
    /// ensures { result ≡ exit_number self }
    /// </code>
    ///
    /// </details>
    #[inline]
    pub fn number(self) -> u8 {
        match self {
            Status::Agrees => 0,
            Status::Differs => 1,
            Status::Refused => 2,
            Status::Memory => 3,
            Status::Device => 4,
        }
    }
}
