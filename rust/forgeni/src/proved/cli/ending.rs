// Made of crates/cli/src/ending.rt by rust/erase. It isn't edited by hand.

//! How a run of a program ends, and what the error stream gets then.

use crate::kit::programs::string::String;
use crate::cli::devices::{NameFault, Sink, put_refusal};
use crate::kit::alloc::AllocError;
use std::io;
use std::io::ErrorKind;

// The exit status for words that are no command line of the program, and for a request for help.
const LINE_FAULT: u8 = 2;

/// The exit status if memory ran out.
pub(super) const MEMORY: u8 = 3;

// The exit status if a device failed, or if a file that is named can't be read.
const DEVICE: u8 = 4;

/// Ends a run with an exit status, which it returns: 3 if memory ran out, 4 if a device failed. For
/// these two the error stream gets a word, and for all others it gets nothing.
///
/// <details><summary>Contract</summary>
///
/// <code style="display: block; tab-size: 4; white-space: pre-wrap">// In the words of [contracts](crate::contracts):
/// ensures status { result ≡ status }
/// ensures quiet { result ≤ 2 → errors.new ≡ errors.old }
/// ensures said { E.failures errors.new ≡ E.failures errors.old
/// &#9;→ Appends (E.written errors.old) (E.written errors.new) (said status) }
/// </code>
///
/// </details>
#[inline]
pub fn finish<E: Sink>(errors: &mut E, status: u8) -> u8 {
    // If the error stream fails, there is nobody left to tell.
    let _ = match status {
        MEMORY => errors.put(b"memory\n"),
        DEVICE => errors.put(b"device\n"),
        _ => Ok(()),
    };
    status
}

/// Ends a run whose arguments are no command line. The error stream gets clap's text, if there is
/// memory for it. The exit status is 2, or 3 if there is none.
///
/// <details><summary>Contract</summary>
///
/// <code style="display: block; tab-size: 4; white-space: pre-wrap">// In the words of [contracts](crate::contracts):
/// ensures status { OnOk text (result ≡ 2) }
/// ensures text_said { IfOk text (λ text. E.failures errors.new ≡ E.failures errors.old
/// &#9;→ Appends (E.written errors.old) (E.written errors.new) (string_bytes text)) }
/// ensures memory { OnErr text (result ≡ 3) }
/// ensures memory_said { OnErr text (E.failures errors.new ≡ E.failures errors.old
/// &#9;→ Appends (E.written errors.old) (E.written errors.new) (codes \"memory\\n\")) }
/// </code>
///
/// </details>
#[inline]
pub fn refuse_line<E: Sink>(text: Result<String, AllocError>, errors: &mut E) -> u8 {
    match text {
        Ok(text) => {
            let _ = errors.put(text.as_bytes());
            LINE_FAULT
        }
        Err(AllocError) => finish(errors, MEMORY),
    }
}

/// Ends a run whose arguments can't be read, and returns the exit status: 3 if memory ran out, 2 if
/// an argument isn't UTF-8, otherwise 4. The error stream gets what it gets for that status
/// elsewhere.
///
/// <details><summary>Contract</summary>
///
/// <code style="display: block; tab-size: 4; white-space: pre-wrap">// In the words of [contracts](crate::contracts):
/// ensures status { result ≡ words_status (error_kind error.now) }
/// ensures memory_said { result ≡ 3 → E.failures errors.new ≡ E.failures errors.old
/// &#9;→ Appends (E.written errors.old) (E.written errors.new) (codes \"memory\\n\") }
/// ensures text_said { result ≡ 2 → E.failures errors.new ≡ E.failures errors.old
/// &#9;→ Appends (E.written errors.old) (E.written errors.new)
/// &#9;(codes \"error: invalid UTF-8 was detected in one or more arguments\\n\") }
/// ensures device_said { result ≡ 4 → E.failures errors.new ≡ E.failures errors.old
/// &#9;→ Appends (E.written errors.old) (E.written errors.new) (codes \"device\\n\") }
/// </code>
///
/// </details>
#[inline]
pub fn refuse_words<E: Sink>(error: &io::Error, errors: &mut E) -> u8 {
    match error.kind() {
        ErrorKind::OutOfMemory => finish(errors, MEMORY),
        ErrorKind::InvalidData => {
            let _ = errors.put(b"error: invalid UTF-8 was detected in one or more arguments\n");
            LINE_FAULT
        }
        _ => finish(errors, DEVICE),
    }
}

/// Ends a run whose input file can't be read, and returns the exit status: 3 if memory ran out,
/// otherwise 4. The error stream gets a line that names the program, what is wrong, and the file.
///
/// <details><summary>Contract</summary>
///
/// <code style="display: block; tab-size: 4; white-space: pre-wrap">// In the words of [contracts](crate::contracts):
/// ensures status { result ≡ name_status fault }
/// ensures memory_said { result ≡ 3 → E.failures errors.new ≡ E.failures errors.old
/// &#9;→ Appends (E.written errors.old) (E.written errors.new) (codes \"memory\\n\") }
/// ensures text_said { result ≢ 3 → E.failures errors.new ≡ E.failures errors.old
/// &#9;→ Appends (E.written errors.old) (E.written errors.new)
/// &#9;(refusal program.now name.now fault) }
/// </code>
///
/// </details>
#[inline]
pub fn refuse_file<E: Sink>(program: &str, name: &str, fault: NameFault, errors: &mut E) -> u8 {
    if fault == NameFault::Memory {
        return finish(errors, MEMORY);
    }
    let _ = put_refusal(errors, program, name, fault);
    DEVICE
}
