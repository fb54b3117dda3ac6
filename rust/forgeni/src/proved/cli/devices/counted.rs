// Made of crates/cli/src/devices/counted.rt by rust/erase. It isn't edited by hand.

use crate::cli::devices::device::{Failed, Sink, Source};
use std::io;
use std::io::{ErrorKind, Read, Write};

/// An `io::Read` or an `io::Write` as a device that counts its failures.
///
/// A call that a signal interrupts is made again, and is no failure. The count is exact, so a
/// device that has failed 2^64 - 1 times is no longer called: the source is at its end, the sink
/// drops what it gets, and neither reports its bytes. No program runs long enough to see this.
pub struct Counted<T> {
    device: T,
    failures: u64,
}

impl<T> Counted<T> {
    /// Makes a device that hasn't failed yet. It doesn't allocate.
    ///
    /// <details><summary>Contract</summary>
    ///
    /// <code style="display: block; tab-size: 4; white-space: pre-wrap">// In the words of [contracts](crate::contracts):
    /// ensures device { device_of result ≡ device }
    /// ensures failures { failures_of result ≡ 0 }
    /// </code>
    ///
    /// </details>
    #[inline]
    pub fn new(device: T) -> Self {
        Counted {
            device,
            failures: 0,
        }
    }

    // Counts a failed call of a device that is still called.
    #[inline]
    fn fail(&mut self) -> Failed
        // requires { failures_of self.old < most_failures }
        // ensures device { device_of self.new ≡ device_of self.old }
        // ensures counted { failures_of self.new ≡ failures_of self.old + 1 }
    {
        self.failures += 1;
        Failed
    }
}

impl<R: Read> Source for Counted<R> {
    #[inline]
    fn take(&mut self, buffer: &mut [u8]) -> Result<usize, Failed> {
        if self.failures == u64::MAX {
            return Ok(0);
        }
        match read_on(&mut self.device, buffer) {
            Ok(count) => Ok(count),
            Err(_) => Err(self.fail()),
        }
    }
}

impl<W: Write> Sink for Counted<W> {
    #[inline]
    fn put(&mut self, piece: &[u8]) -> Result<(), Failed> {
        if self.failures == u64::MAX {
            return Ok(());
        }
        match write_through(&mut self.device, piece) {
            Ok(()) => Ok(()),
            Err(_) => Err(self.fail()),
        }
    }
}

// Reads once, and again as long as a signal interrupts the call.
#[inline]
fn read_on<R: Read>(reader: &mut R, buffer: &mut [u8]) -> io::Result<usize>
    // ensures within { IfOk result (λ count. count ≤ length buffer.new) }
    // ensures bytes { IfOk result (λ count.
    //     Consumes (R.remaining reader.old) (R.remaining reader.new) (take count buffer.new)) }
    // ensures end { IfOk result (λ count.
    //     count ≡ 0 → 0 < length buffer.new → IsAtEnd (R.remaining reader.new)) }
    // ensures kept { OnErr result (Keeps (R.remaining reader.old) (R.remaining reader.new)) }
    // ensures retried { IfErr result (λ error. error_kind error ≢ ErrorKind.Interrupted) }
{
    for _ in 0..u64::MAX {
        match reader.read(buffer) {
            Err(error) if error.kind() == ErrorKind::Interrupted => {}
            result => return result,
        }
    }
    Err(io::Error::from(ErrorKind::TimedOut))
}

// Writes the whole piece, and flushes the writer's own buffer.
#[inline]
fn write_through<W: Write>(writer: &mut W, piece: &[u8]) -> io::Result<()>
    // ensures { OnOk result (Appends (W.contents writer.old) (W.contents writer.new) piece.now) }
{
    writer.write_all(piece)?;
    writer.flush()
}
