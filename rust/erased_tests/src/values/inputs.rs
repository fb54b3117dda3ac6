//! Whole inputs, from sources that give them in pieces, fail, or never end.

use crate::made::cli::{read_all, Failed, InputFault, Source};

/// The longest input that `spawnrun` reads, in bytes.
const INPUT_LIMIT: usize = 67_108_864;

/// For a source that never fails.
const NEVER: u64 = u64::MAX;

/// Gives the bytes in pieces, and fails once, after `calls` calls that succeed.
struct MemorySource<'a> {
    bytes: &'a [u8],
    piece: usize,
    calls: u64,
    has_failed: bool,
}

impl<'a> MemorySource<'a> {
    fn new(bytes: &'a [u8], piece: usize, calls: u64) -> Self {
        Self {
            bytes,
            piece,
            calls,
            has_failed: false,
        }
    }
}

impl Source for MemorySource<'_> {
    fn take(&mut self, buffer: &mut [u8]) -> Result<usize, Failed> {
        if self.calls == 0 && !self.has_failed {
            self.has_failed = true;
            return Err(Failed);
        }
        self.calls = self.calls.saturating_sub(1);
        let count = self.bytes.len().min(buffer.len()).min(self.piece);
        let (front, rest) = self.bytes.split_at(count);
        buffer[..count].copy_from_slice(front);
        self.bytes = rest;
        Ok(count)
    }
}

/// Gives line feeds without end.
struct EndlessSource;

impl Source for EndlessSource {
    fn take(&mut self, buffer: &mut [u8]) -> Result<usize, Failed> {
        buffer.fill(b'\n');
        Ok(buffer.len())
    }
}

fn read(source: &mut impl Source, limit: usize) -> Result<Vec<u8>, InputFault> {
    read_all(source, limit)
}

/// Why the source is not read, if it is not.
fn fault_of(source: &mut impl Source, limit: usize) -> Option<InputFault> {
    read(source, limit).err()
}

#[test]
fn reads_in_pieces() {
    let mut source = MemorySource::new(b"alloc\nflush\n", 5, NEVER);
    let bytes = read(&mut source, 12).expect("an input within the limit");
    assert_eq!(bytes.as_slice(), b"alloc\nflush\n");
}

#[test]
fn reads_byte_by_byte() {
    let text = [b'a'; 70_000];
    let mut source = MemorySource::new(&text, 1, NEVER);
    let bytes = read(&mut source, INPUT_LIMIT).expect("an input within the limit");
    assert_eq!(bytes.as_slice(), text);
}

#[test]
fn takes_one_byte_past_the_limit() {
    let mut source = MemorySource::new(b"alloc\nflush\n", 5, NEVER);
    assert_eq!(fault_of(&mut source, 8), Some(InputFault::TooLong));
    assert_eq!(source.bytes, b"sh\n");
}

#[test]
fn each_read_fails_in_turn() {
    for calls in 0..4 {
        let mut source = MemorySource::new(b"alloc\nflush\n", 5, calls);
        let fault = fault_of(&mut source, INPUT_LIMIT);
        assert_eq!(fault, Some(InputFault::Device), "after {calls} calls");
    }
}

#[test]
fn ends_without_an_end() {
    let fault = fault_of(&mut EndlessSource, 100_000);
    assert_eq!(fault, Some(InputFault::TooLong));
}
