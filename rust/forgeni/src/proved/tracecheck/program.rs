// Made of crates/tracecheck/src/program.rt by rust/erase. It isn't edited by hand.

//! The program: it does what its arguments ask for between two devices, and writes to the error
//! stream and to a terminal.

use crate::kit::programs::format;
use crate::kit::programs::rt::AllocGlobal;
use crate::kit::programs::string::String;
use crate::tracecheck::command_line::{ask_for_a_check, command_line, image_name};
use crate::tracecheck::running::check_as;
use crate::tracecheck::status::Status;
use crate::cli::{
    Counted, LineFault, Muted, Noting, Sink, Source, begin, finish, open_named, refuse_file,
    refuse_line,
};
use crate::kit::alloc::AllocError;
use core::cell::Cell;
use crate::kit::programs::string::AsStr;
use crate::kit::programs::env::Env;
use std::io;
use std::io::{Read, Write};
use crate::kit::programs::rt::Files;

/// Checks the trace that the input gives, and returns the exit status. As the arguments say, the
/// trace begins with an allocator of these limits that has given nothing, or with the one whose
/// image is in the file that they name. In that case `image` gives the bytes of this file;
/// otherwise it isn't used.
///
/// | Status | Meaning | On the error stream |
/// |---|---|---|
/// | 0 | The trace agrees, and one line of output says so. | nothing |
/// | 1 | The trace differs. Two lines of output say where, and show the state. | nothing |
/// | 2 | The text is no trace. One line of output names the line. | nothing |
/// | 2 | The image is none. One line of output names its fault, and the trace isn't read. | nothing |
/// | 2 | The words are no command line, or ask for help. No device is used. | clap's text |
/// | 3 | Memory ran out. Nothing was written. | `memory` |
/// | 4 | A call of the image, the input or the output failed. | `device` |
///
/// If `tells`, it writes to the terminal how many lines were read, after each million. A failure of
/// the error stream or of the terminal changes no status.
///
/// <details><summary>Contract</summary>
///
/// <code style="display: block; tab-size: 4; white-space: pre-wrap">// In the words of [contracts](crate::contracts):
/// ensures statuses { result ≤ 4 }
/// &#32;
/// // The trace was compared from the beginning on that the words ask for.
/// ensures agrees { result ≡ 0 → HasSaid (map S.text words.now) Status.Agrees
/// &#9;(input.new ≡ input.old) (M.remaining image.old) (I.remaining input.old)
/// &#9;(O.written output.old) (O.written output.new) }
/// ensures differs { result ≡ 1 → HasSaid (map S.text words.now) Status.Differs
/// &#9;(input.new ≡ input.old) (M.remaining image.old) (I.remaining input.old)
/// &#9;(O.written output.old) (O.written output.new) }
/// &#32;
/// // The two meanings of 2. Words that are a command line end so only for the text or the image.
/// ensures refused { result ≡ 2 → IsFaulty (map S.text words.now)
/// &#9;⊎ HasSaid (map S.text words.now) Status.Refused
/// &#9;(input.new ≡ input.old) (M.remaining image.old) (I.remaining input.old)
/// &#9;(O.written output.old) (O.written output.new) }
/// ensures taken { is_taken (map S.text words.now) ≡ true → result ≡ 2
/// &#9;→ HasSaid (map S.text words.now) Status.Refused
/// &#9;(input.new ≡ input.old) (M.remaining image.old) (I.remaining input.old)
/// &#9;(O.written output.old) (O.written output.new) }
/// &#32;
/// // Words that are no command line, or ask for help, have no other status, but 3 for lack of
/// // memory. No device is used for them.
/// ensures faulty { IsFaulty (map S.text words.now) → result ≢ 3 → result ≡ 2 }
/// ensures unused_image { IsFaulty (map S.text words.now) → image.new ≡ image.old }
/// ensures unused_input { IsFaulty (map S.text words.now) → input.new ≡ input.old }
/// ensures unused_output { IsFaulty (map S.text words.now) → output.new ≡ output.old }
/// &#32;
/// ensures memory { result ≡ 3 → output.new ≡ output.old }
/// &#32;
/// // One of the devices fails, and the image only if the words name one.
/// ensures device { result ≡ 4 → M.failures image.new ≡ M.failures image.old → OneFails
/// &#9;(I.failures input.old) (I.failures input.new)
/// &#9;(O.failures output.old) (O.failures output.new) }
/// ensures image_failed { M.failures image.new ≢ M.failures image.old
/// &#9;→ (M.failures image.new ≡ M.failures image.old + 1) × (input.new ≡ input.old)
/// &#9;× (output.new ≡ output.old) }
/// ensures no_image { image_in (map S.text words.now) ≡ None → image.new ≡ image.old }
/// ensures image_unfailed { result ≢ 4 → M.failures image.new ≡ M.failures image.old }
/// ensures input_unfailed { result ≢ 4 → I.failures input.new ≡ I.failures input.old }
/// ensures output_unfailed { result ≢ 4 → O.failures output.new ≡ O.failures output.old }
/// ensures unread { I.failures input.new ≢ I.failures input.old → output.new ≡ output.old }
/// &#32;
/// // What the error stream says.
/// ensures quiet { result ≤ 1 → errors.new ≡ errors.old }
/// ensures quiet_refused { is_taken (map S.text words.now) ≡ true → result ≡ 2
/// &#9;→ errors.new ≡ errors.old }
/// ensures memory_said { result ≡ 3 → E.failures errors.new ≡ E.failures errors.old
/// &#9;→ Appends (E.written errors.old) (E.written errors.new) (codes \"memory\\n\") }
/// ensures device_said { result ≡ 4 → E.failures errors.new ≡ E.failures errors.old
/// &#9;→ Appends (E.written errors.old) (E.written errors.new) (codes \"device\\n\") }
/// &#32;
/// ensures untold { tells ≡ false → terminal.new ≡ terminal.old }
/// </code>
///
/// </details>
#[inline]
pub fn execute<S: AsStr, M: Source, I: Source, O: Sink, E: Sink, T: Sink>(
    words: &[S],
    image: &mut M,
    input: &mut I,
    output: &mut O,
    errors: &mut E,
    terminal: &mut T,
    tells: bool,
) -> u8 {
    match command_line(words) {
        Ok(begin) => {
            let status = check_as(begin, image, input, output, terminal, tells);
            finish(errors, status.number())
        }
        Err(LineFault::Line(error)) => refuse_line(format!("{error}"), errors),
        Err(LineFault::Memory) => finish(errors, Status::Memory.number()),
    }
}

// As its messages begin.
const NAME: &str = "tracecheck";

// Opens the file of the image, if the words name one, and does what they ask for.
#[inline]
fn execute_on<R: Files + AllocGlobal, I: Source, O: Sink, E: Sink, T: Sink>(
    rt: &R,
    words: &[String],
    input: &mut I,
    output: &mut O,
    errors: &mut E,
    terminal: &mut T,
    tells: bool,
) -> u8
    // ensures { result ≤ 4 }
{
    let name = match image_name(words) {
        Ok(name) => name,
        Err(AllocError) => return finish(errors, Status::Memory.number()),
    };
    let Some(name) = name else {
        let mut none = Counted::new(io::empty());
        return execute(
            words,
            &mut none,
            input,
            output,
            errors,
            terminal,
            tells,
        );
    };
    match open_named(rt, name) {
        Ok(image) => execute(
            words,
            &mut Counted::new(image),
            input,
            output,
            errors,
            terminal,
            tells,
        ),
        Err(fault) => refuse_file(NAME, name, fault, errors),
    }
}

/// Runs the program on its arguments, and returns its exit status: that of `execute`, or of
/// [`cli::begin`], which also opens an input file that they name. If the file of an image can't be
/// read, the status is 4, and a line on the error stream says so.
///
/// If the output is a pipe whose reader has left, the status is 4, and nothing is written to the
/// error stream.
///
/// <details><summary>Contract</summary>
///
/// <code style="display: block; tab-size: 4; white-space: pre-wrap">// In the words of [contracts](crate::contracts):
/// ensures { result ≤ 4 }
/// </code>
///
/// </details>
#[inline]
pub fn start<R, I: Read, O: Write, E: Write, T: Write>(
    rt: &R,
    input: I,
    output: O,
    errors: E,
    terminal: T,
    tells: bool,
) -> u8
where
    R: Env + Files + AllocGlobal,
{
    let has_left = Cell::new(false);
    let mut output = Counted::new(Noting::new(output, &has_left));
    let mut errors = Counted::new(Muted::new(errors, &has_left));
    let mut terminal = Counted::new(terminal);
    let is_line = |words: &[String]| ask_for_a_check(words);
    let (words, file) = match begin(rt, NAME, is_line, &mut errors) {
        Ok(begun) => begun,
        Err(status) => return status,
    };
    let Some(file) = file else {
        return execute_on(
            rt,
            &words,
            &mut Counted::new(input),
            &mut output,
            &mut errors,
            &mut terminal,
            tells,
        );
    };
    execute_on(
        rt,
        &words,
        &mut Counted::new(file),
        &mut output,
        &mut errors,
        &mut terminal,
        tells,
    )
}
