//! The standard streams of a program, without buffers of their own.
//!
//! The contracts are those of the kit's `std::io`: a read or a write of a stream that fails is an
//! `Err`. Rust's own `Stdin` and `Stdout` call it a success if a stream isn't open for reading or
//! for writing. So the streams here are files that are copies of them. Rust's std takes memory for
//! its own buffers all the same, as a stream is asked for, and ends the program if that is refused.
//!
//! Rust's runtime opens a standard stream that the program was started without, as one that is
//! empty. What was closed can't be told from what is empty, so the kit's programs fail there, and
//! these don't.

use std::fs::File;
use std::io::{self, IsTerminal, Read, Write};

/// A standard stream, or why it isn't there.
pub struct Stream(Result<File, io::ErrorKind>);

impl Stream {
    /// The stream that a program reads.
    pub fn input() -> Self {
        Stream(file(io::stdin()))
    }

    /// The stream that a program writes to.
    pub fn output() -> Self {
        Stream(file(io::stdout()))
    }

    /// The stream for what the output doesn't show.
    pub fn errors() -> Self {
        Stream(file(io::stderr()))
    }

    /// Whether it is a terminal.
    pub fn is_terminal(&self) -> bool {
        self.0.as_ref().is_ok_and(IsTerminal::is_terminal)
    }

    fn opened(&mut self) -> io::Result<&mut File> {
        self.0.as_mut().map_err(|kind| io::Error::from(*kind))
    }
}

/// The stream as a file, which ends nothing when it is dropped.
#[cfg(unix)]
fn file(stream: impl std::os::fd::AsFd) -> Result<File, io::ErrorKind> {
    let number = stream.as_fd().try_clone_to_owned();
    number.map(File::from).map_err(|error| error.kind())
}

/// The stream as a file, which ends nothing when it is dropped.
#[cfg(windows)]
fn file(stream: impl std::os::windows::io::AsHandle) -> Result<File, io::ErrorKind> {
    let handle = stream.as_handle().try_clone_to_owned();
    handle.map(File::from).map_err(|error| error.kind())
}

impl Read for Stream {
    fn read(&mut self, buffer: &mut [u8]) -> io::Result<usize> {
        self.opened()?.read(buffer)
    }
}

impl Write for Stream {
    fn write(&mut self, piece: &[u8]) -> io::Result<usize> {
        self.opened()?.write(piece)
    }

    fn flush(&mut self) -> io::Result<()> {
        self.opened()?.flush()
    }
}

#[cfg(test)]
mod tests {
    use super::*;

    #[test]
    fn a_stream_that_is_not_there_fails_each_call() {
        let mut stream = Stream(Err(io::ErrorKind::BrokenPipe));
        let kind = |error: io::Error| error.kind();
        assert_eq!(
            stream.read(&mut [0]).map_err(kind),
            Err(io::ErrorKind::BrokenPipe)
        );
        assert_eq!(
            stream.write(b"a").map_err(kind),
            Err(io::ErrorKind::BrokenPipe)
        );
        assert_eq!(stream.flush().map_err(kind), Err(io::ErrorKind::BrokenPipe));
        assert!(!stream.is_terminal());
    }

    #[test]
    #[cfg(unix)]
    fn a_file_that_is_open_for_the_other_way_fails() {
        let null = File::options()
            .write(true)
            .open("/dev/null")
            .expect("a device");
        let mut stream = Stream(file(null));
        assert!(stream.read(&mut [0; 8]).is_err());
        stream.write_all(b"a").expect("a device");
        stream.flush().expect("a device");
        let null = File::open("/dev/null").expect("a device");
        let mut stream = Stream(file(null));
        assert_eq!(stream.read(&mut [0; 8]).expect("a device"), 0);
        assert!(stream.write_all(b"a").is_err());
        assert!(!stream.is_terminal());
    }
}
