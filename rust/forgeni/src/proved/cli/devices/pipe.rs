// Made of crates/cli/src/devices/pipe.rt by rust/erase. It isn't edited by hand.

//! An output whose reader may leave, as `head` does, and an error stream that stays silent then.

use core::cell::Cell;
use std::io;
use std::io::{ErrorKind, Write};

/// A writer that takes note if a write fails because the reader has left.
pub struct Noting<'a, W> {
    writer: W,
    has_left: &'a Cell<bool>,
}

impl<'a, W> Noting<'a, W> {
    /// Makes one that sets `has_left`.
    ///
    /// <details><summary>Contract</summary>
    ///
    /// <code style="display: block; tab-size: 4; white-space: pre-wrap">// In the words of [contracts](crate::contracts):
    /// ensures writer { result.writer ≡ writer }
    /// ensures has_left { result.has_left ≡ has_left.entry }
    /// </code>
    ///
    /// </details>
    #[inline]
    pub fn new(writer: W, has_left: &'a Cell<bool>) -> Self {
        Noting { writer, has_left }
    }
}

impl<W: Write> Write for Noting<'_, W> {
    #[inline]
    fn write(&mut self, piece: &[u8]) -> io::Result<usize> {
        let result = self.writer.write(piece);
        if let Err(error) = &result {
            if error.kind() == ErrorKind::BrokenPipe {
                self.has_left.set(true);
            }
        }
        result
    }

    #[inline]
    fn flush(&mut self) -> io::Result<()> {
        self.writer.flush()
    }
}

/// A writer that drops what it gets once the reader of another one has left.
pub struct Muted<'a, W> {
    writer: W,
    has_left: &'a Cell<bool>,
}

impl<'a, W> Muted<'a, W> {
    /// Makes one that looks at `has_left`, which a `Noting` sets.
    ///
    /// <details><summary>Contract</summary>
    ///
    /// <code style="display: block; tab-size: 4; white-space: pre-wrap">// In the words of [contracts](crate::contracts):
    /// ensures writer { result.writer ≡ writer }
    /// ensures has_left { result.has_left ≡ has_left.entry }
    /// </code>
    ///
    /// </details>
    #[inline]
    pub fn new(writer: W, has_left: &'a Cell<bool>) -> Self {
        Muted { writer, has_left }
    }
}

impl<W: Write> Write for Muted<'_, W> {
    #[inline]
    fn write(&mut self, piece: &[u8]) -> io::Result<usize> {
        if self.has_left.get() {
            Ok(piece.len())
        } else {
            self.writer.write(piece)
        }
    }

    #[inline]
    fn flush(&mut self) -> io::Result<()> {
        self.writer.flush()
    }
}
