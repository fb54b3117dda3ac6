// Made of crates/spawnrun_lib/src/program.rt by rust/erase. It isn't edited by hand.

//! The program: it does what its arguments ask for between two devices, and writes to the error
//! stream.

use crate::kit::programs::format;
use crate::spawnrun_lib::progress::Progress;
use crate::spawnrun_lib::status::Status;
use crate::spawnrun_lib::task::command_line;
use crate::spawnrun_lib::work::do_task;
use crate::cli::{LineFault, Sink, Source, finish, refuse_line};
use crate::kit::programs::string::AsStr;
use crate::kit::thread::Join;

/// Does what the program's arguments ask for, and returns the exit status.
///
/// | Status | Meaning | On the error stream |
/// |---|---|---|
/// | 0 | The task was done. | nothing |
/// | 1 | The input was refused. One line of output names the test. | what the test wants and finds |
/// | 2 | The words are no command line, or ask for help. No device is used. | clap's text |
/// | 3 | Memory ran out. Nothing was written. | `memory` |
/// | 4 | A call of the input or the output failed. | `device` |
///
/// A failure of the error stream changes no status. `progress` gets how far the task is.
///
/// <details><summary>Contract</summary>
///
/// <code style="display: block; tab-size: 4; white-space: pre-wrap">// In the words of [contracts](crate::contracts):
/// ensures statuses { result ≤ 4 }
/// &#32;
/// // A replay or a run was done, or its input refused.
/// ensures done { result ≡ 0 → AsksTo (map S.text words.now) (λ task. HasDone (Gives task)
/// &#9;(I.remaining input.old) (O.written output.old) (O.written output.new)) }
/// ensures refused { result ≡ 1 → AsksTo (map S.text words.now) (λ task. HasRefused (Fails task)
/// &#9;(I.remaining input.old) (O.written output.old) (O.written output.new)) }
/// &#32;
/// // The words are no command line, or ask for help. They have no other status, but 3 for lack of
/// // memory.
/// ensures faulty { result ≡ 2 → IsFaulty (map S.text words.now) }
/// ensures taken { takes program (map S.text words.now) ≡ true → result ≢ 2 }
/// ensures unfaulty { result ≢ 2 → result ≢ 3 → fault_of program (map S.text words.now) ≡ \[\] }
/// ensures unused_input { result ≡ 2 → input.new ≡ input.old }
/// ensures unused_output { result ≡ 2 → output.new ≡ output.old }
/// &#32;
/// ensures memory { result ≡ 3 → output.new ≡ output.old }
/// ensures device { result ≡ 4 → OneFails
/// &#9;(I.failures input.old) (I.failures input.new)
/// &#9;(O.failures output.old) (O.failures output.new) }
/// ensures input_unfailed { result ≢ 4 → I.failures input.new ≡ I.failures input.old }
/// ensures output_unfailed { result ≢ 4 → O.failures output.new ≡ O.failures output.old }
/// ensures unread { I.failures input.new ≢ I.failures input.old → output.new ≡ output.old }
/// &#32;
/// // How much of the input is taken.
/// ensures reads { I.failures input.new ≡ I.failures input.old → result ≢ 2 → result ≢ 3
/// &#9;→ IfSome (I.remaining input.old) (λ all.
/// &#9;Takes (I.remaining input.old) (I.remaining input.new)
/// &#9;(min (length all) (input_limit + 1))) }
/// ensures stops { I.failures input.new ≡ I.failures input.old
/// &#9;→ TakesAtMost (I.remaining input.old) (I.remaining input.new) (input_limit + 1) }
/// &#32;
/// // What the error stream tells.
/// ensures quiet { result ≡ 0 → errors.new ≡ errors.old }
/// ensures advised { result ≡ 1 → E.failures errors.new ≡ E.failures errors.old
/// &#9;→ AsksTo (map S.text words.now) (λ task. HasAdvised (Fails task)
/// &#9;(I.remaining input.old) (E.written errors.old) (E.written errors.new)) }
/// ensures memory_said { result ≡ 3 → E.failures errors.new ≡ E.failures errors.old
/// &#9;→ Appends (E.written errors.old) (E.written errors.new) (codes \"memory\\n\") }
/// ensures device_said { result ≡ 4 → E.failures errors.new ≡ E.failures errors.old
/// &#9;→ Appends (E.written errors.old) (E.written errors.new) (codes \"device\\n\") }
/// </code>
///
/// </details>
#[inline]
pub fn execute<R, S: AsStr, I: Source, O: Sink, E: Sink, P: Progress>(
    rt: &R,
    words: &[S],
    input: &mut I,
    output: &mut O,
    errors: &mut E,
    progress: &mut P,
) -> u8
where
    R: Join + Sync,
{
    match command_line(words) {
        Ok(task) => {
            let status = do_task(rt, task, input, output, errors, progress);
            finish(errors, status.number())
        }
        Err(LineFault::Line(error)) => refuse_line(format!("{error}"), errors),
        Err(LineFault::Memory) => finish(errors, Status::Memory.number()),
    }
}
