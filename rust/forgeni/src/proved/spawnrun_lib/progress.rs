// Made of crates/spawnrun_lib/src/progress.rt by rust/erase. It isn't edited by hand.

//! How far a run is, and its line on a terminal.

use crate::cli::{Failed, Sink};
use crate::kit::itoa::Buffer;
use crate::kit::programs::time::{Clock, Duration, Instant};

/// Gets the progress of a run.
pub trait Progress {
    /// So many of all are done, and the next one begins.
    fn tell(&mut self, done: usize, of: usize);

    /// The run is over, or was given up.
    fn end(&mut self);
}

/// Ignores it.
impl Progress for () {
    #[inline]
    fn tell(&mut self, _done: usize, _of: usize) {}

    #[inline]
    fn end(&mut self) {}
}

// The time between two reports, in seconds.
const STEP: u64 = 1;

/// Writes to a terminal once a second how far a run is. Each line replaces the one before, and the
/// last is removed. A failure of the terminal changes nothing.
pub(super) struct Teller<'a, R, T> {
    clock: &'a R,
    terminal: T,
    // When it was told, or when it began. `None` if it is never told.
    last: Option<Instant>,
    is_shown: bool,
}

impl<'a, R: Clock, T: Sink> Teller<'a, R, T> {
    /// One that has written nothing. It never writes anything if that isn't asked for, or if the
    /// clock can't be read.
    ///
    /// <details><summary>Contract</summary>
    ///
    /// <code style="display: block; tab-size: 4; white-space: pre-wrap">// In the words of [contracts](crate::contracts):
    /// ensures terminal { result.terminal ≡ terminal }
    /// ensures unwanted { is_wanted ≡ false → result.last ≡ None }
    /// ensures shown { result.is_shown ≡ false }
    /// </code>
    ///
    /// </details>
    #[inline]
    pub fn new(clock: &'a R, terminal: T, is_wanted: bool) -> Self {
        let last = if is_wanted {
            Instant::now(clock).ok()
        } else {
            None
        };
        Teller {
            clock,
            terminal,
            last,
            is_shown: false,
        }
    }

    // Whether the last time is a second ago. The next time is a second from now then.
    #[inline]
    fn is_due(&mut self) -> bool
        // ensures never { self.old.last ≡ None → (result ≡ false) × (self.new ≡ self.old) }
        // ensures terminal { self.new.terminal ≡ self.old.terminal }
        // ensures shown { self.new.is_shown ≡ self.old.is_shown }
    {
        let Some(last) = self.last else {
            return false;
        };
        let Ok(now) = Instant::now(self.clock) else {
            return false;
        };
        let is_due = now.duration_since(last) >= Duration::from_secs(STEP);
        if is_due {
            self.last = Some(now);
        }
        is_due
    }

    // Writes how many are done over what the line has.
    #[inline]
    fn put_done(&mut self, done: usize, of: usize) -> Result<(), Failed>
        // ensures said { OnOk result (Appends (T.written self.old.terminal)
        //     (T.written self.new.terminal) (done_text done of)) }
        // ensures failed { OnErr result (T.failures self.new.terminal
        //     ≡ T.failures self.old.terminal + 1) }
        // ensures shown { self.new.is_shown ≡ self.old.is_shown }
    {
        self.terminal.put(b"\r")?;
        self.terminal.put(Buffer::new().format(done).as_bytes())?;
        self.terminal.put(b" of ")?;
        self.terminal.put(Buffer::new().format(of).as_bytes())?;
        self.terminal.put(b" done")
    }
}

impl<R: Clock, T: Sink> Progress for Teller<'_, R, T> {
    #[inline]
    fn tell(&mut self, done: usize, of: usize)
        // ensures never { self.old.last ≡ None → self.new ≡ self.old }
        // ensures told { T.failures self.new.terminal ≡ T.failures self.old.terminal
        //     → (self.new.terminal ≡ self.old.terminal) ⊎ Appends (T.written self.old.terminal)
        //     (T.written self.new.terminal) (done_text done of) }
        // ensures shown { self.new.is_shown ≡ false → self.new.terminal ≡ self.old.terminal }
    {
        if self.is_due() {
            self.is_shown = true;
            let _ = self.put_done(done, of);
        }
    }

    #[inline]
    fn end(&mut self)
        // ensures quiet { self.old.is_shown ≡ false → self.new ≡ self.old }
        // ensures emptied { self.old.is_shown ≡ true
        //     → T.failures self.new.terminal ≡ T.failures self.old.terminal
        //     → Appends (T.written self.old.terminal) (T.written self.new.terminal) empty_text }
        // ensures shown { self.new.is_shown ≡ false }
    {
        if self.is_shown {
            self.is_shown = false;
            let _ = self.terminal.put(b"\r\x1b[K");
        }
    }
}
