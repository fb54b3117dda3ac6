// Made of crates/cli/src/devices/device.rt by rust/erase. It isn't edited by hand.

//! What a program reads from and writes to: a file, a terminal, or memory.

/// A call of a device failed.
#[derive(Clone, Copy, Debug, PartialEq, Eq)]
pub struct Failed;

/// A device that bytes come from.
pub trait Source {
    /// Puts the next bytes at the start of the buffer, and returns how many. It returns 0 only at
    /// the end of the input or for an empty buffer. As with `io::Read`, the rest of the buffer may
    /// change too.
    ///
    /// # Errors
    ///
    /// `Failed` if the device failed. No byte is lost then.
    ///
    /// <details><summary>Contract</summary>
    ///
    /// <code style="display: block; tab-size: 4; white-space: pre-wrap">// In the words of [contracts](crate::contracts):
    /// ensures within { IfOk result (λ count. count ≤ length buffer.new) }
    /// ensures bytes { IfOk result (λ count.
    /// &#9;Consumes (remaining self.old) (remaining self.new) (take count buffer.new)) }
    /// ensures end { IfOk result (λ count.
    /// &#9;count ≡ 0 → 0 \< length buffer.new → IsAtEnd (remaining self.new)) }
    /// ensures taken { OnOk result (failures self.new ≡ failures self.old) }
    /// ensures kept { OnErr result (KeepsIfTold (remaining self.old) (remaining self.new)) }
    /// ensures failed { OnErr result (failures self.new ≡ failures self.old + 1) }
    /// </code>
    ///
    /// </details>
    fn take(&mut self, buffer: &mut [u8]) -> Result<usize, Failed>;
}

/// A device that bytes go to.
pub trait Sink {
    /// Writes the whole piece.
    ///
    /// # Errors
    ///
    /// `Failed` if the device failed. Any part of the piece may have gone out.
    ///
    /// <details><summary>Contract</summary>
    ///
    /// <code style="display: block; tab-size: 4; white-space: pre-wrap">// In the words of [contracts](crate::contracts):
    /// ensures bytes { OnOk result (Appends (written self.old) (written self.new) piece.now) }
    /// ensures put { OnOk result (failures self.new ≡ failures self.old) }
    /// ensures failed { OnErr result (failures self.new ≡ failures self.old + 1) }
    /// </code>
    ///
    /// </details>
    fn put(&mut self, piece: &[u8]) -> Result<(), Failed>;
}
