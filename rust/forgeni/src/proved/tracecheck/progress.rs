// Made of crates/tracecheck/src/progress.rt by rust/erase. It isn't edited by hand.

//! What is written to a terminal while a trace is read.

use crate::cli::{Failed, Sink};
use crate::kit::itoa::Buffer;

// The lines between two reports.
const STEP: u64 = 1_000_000;

/// After each million lines, writes to the terminal how many were read, if `is_wanted`. Returns how
/// many millions were written.
///
/// <details><summary>Contract</summary>
///
/// <code style="display: block; tab-size: 4; white-space: pre-wrap">// In the words of [contracts](crate::contracts):
/// ensures unwanted { is_wanted ≡ false → terminal.new ≡ terminal.old }
/// ensures early { lines / 1000000 ≤ told → terminal.new ≡ terminal.old }
/// ensures said { is_wanted ≡ true → told \< lines / 1000000
/// &#9;→ T.failures terminal.new ≡ T.failures terminal.old
/// &#9;→ Appends (T.written terminal.old) (T.written terminal.new)
/// &#9;(millions_text (lines / 1000000)) }
/// ensures once { is_wanted ≡ true → told \< lines / 1000000 → result ≡ lines / 1000000 }
/// ensures kept { lines / 1000000 ≤ told → result ≡ told }
/// </code>
///
/// </details>
#[inline]
pub fn tell<T: Sink>(terminal: &mut T, is_wanted: bool, told: u64, lines: u64) -> u64 {
    let millions = lines / STEP;
    if !is_wanted || millions <= told {
        return told;
    }
    // A failure of the terminal is ignored: there is nobody to tell.
    let _ = put_millions(terminal, millions);
    millions
}

#[inline]
fn put_millions<T: Sink>(terminal: &mut T, millions: u64) -> Result<(), Failed>
    // ensures said { OnOk result (Appends (T.written terminal.old) (T.written terminal.new)
    //     (millions_text millions)) }
    // ensures failed { OnErr result (T.failures terminal.new ≡ T.failures terminal.old + 1) }
{
    terminal.put(Buffer::new().format(millions).as_bytes())?;
    terminal.put(b" million lines\n")
}
