//! Devices over readers and writers that are interrupted, fail, would block, or can't be flushed.

use crate::made::cli::{Counted, Failed, Sink, Source};
use std::io::{self, ErrorKind, Read, Write};

/// For a device that never fails.
const NEVER: u64 = u64::MAX;

/// A reader and writer of single bytes. A signal interrupts this many calls before each that goes
/// on, and it fails after `calls` calls that went on.
struct Choppy {
    bytes: Vec<u8>,
    interruptions: u32,
    left: u32,
    calls: u64,
}

impl Choppy {
    fn next_call(&mut self) -> io::Result<()> {
        if self.left > 0 {
            self.left -= 1;
            return Err(ErrorKind::Interrupted.into());
        }
        self.left = self.interruptions;
        if self.calls == 0 {
            return Err(ErrorKind::BrokenPipe.into());
        }
        self.calls -= 1;
        Ok(())
    }
}

impl Read for Choppy {
    fn read(&mut self, buffer: &mut [u8]) -> io::Result<usize> {
        self.next_call()?;
        if self.bytes.is_empty() || buffer.is_empty() {
            return Ok(0);
        }
        buffer[0] = self.bytes.remove(0);
        Ok(1)
    }
}

impl Write for Choppy {
    fn write(&mut self, piece: &[u8]) -> io::Result<usize> {
        self.next_call()?;
        self.bytes.extend(piece.first());
        Ok(piece.len().min(1))
    }

    fn flush(&mut self) -> io::Result<()> {
        Ok(())
    }
}

/// A device of these bytes, that is interrupted so often before each call, and fails after `calls`
/// calls.
fn device_of(bytes: &[u8], interruptions: u32, calls: u64) -> Counted<Choppy> {
    Counted::new(Choppy {
        bytes: bytes.to_vec(),
        interruptions,
        left: interruptions,
        calls,
    })
}

/// What the next call of the device brings: how many bytes, and the first one.
fn taken(counted: &mut Counted<Choppy>) -> Result<(usize, u8), Failed> {
    let mut buffer = [0; 8];
    let count = counted.take(&mut buffer)?;
    Ok((count, buffer[0]))
}

#[test]
fn interruptions_are_no_failures() {
    for interruptions in [0, 1, 100] {
        let mut counted = device_of(b"", interruptions, NEVER);
        assert_eq!(counted.put(b"ab"), Ok(()), "at {interruptions}");
        for wanted in [(1, b'a'), (1, b'b'), (0, 0)] {
            assert_eq!(taken(&mut counted), Ok(wanted), "at {interruptions}");
        }
    }
}

#[test]
fn a_failure_comes_once() {
    let mut counted = device_of(b"ab", 1, 1);
    assert_eq!(taken(&mut counted), Ok((1, b'a')));
    assert_eq!(taken(&mut counted), Err(Failed));
    assert_eq!(counted.put(b"c"), Err(Failed));
}

/// A reader and writer that would block at its first call. From then on it is at its end, and takes
/// all.
#[derive(Default)]
struct Blocked {
    is_called: bool,
}

impl Blocked {
    fn next_call(&mut self) -> io::Result<()> {
        if std::mem::replace(&mut self.is_called, true) {
            return Ok(());
        }
        Err(ErrorKind::WouldBlock.into())
    }
}

impl Read for Blocked {
    fn read(&mut self, _buffer: &mut [u8]) -> io::Result<usize> {
        self.next_call()?;
        Ok(0)
    }
}

impl Write for Blocked {
    fn write(&mut self, piece: &[u8]) -> io::Result<usize> {
        self.next_call()?;
        Ok(piece.len())
    }

    fn flush(&mut self) -> io::Result<()> {
        Ok(())
    }
}

#[test]
fn a_call_that_would_block_is_a_failure() {
    let mut buffer = [0; 8];
    let mut source = Counted::new(Blocked::default());
    assert_eq!(source.take(&mut buffer), Err(Failed));
    let mut sink = Counted::new(Blocked::default());
    assert_eq!(sink.put(b"born\n"), Err(Failed));
}

/// A writer that takes all that it is given and can't flush it.
struct Clogged;

impl Write for Clogged {
    fn write(&mut self, piece: &[u8]) -> io::Result<usize> {
        Ok(piece.len())
    }

    fn flush(&mut self) -> io::Result<()> {
        Err(ErrorKind::StorageFull.into())
    }
}

#[test]
fn a_flush_that_fails_is_a_failure() {
    assert_eq!(Counted::new(Clogged).put(b"born\n"), Err(Failed));
}
