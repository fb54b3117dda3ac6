// Made of crates/cli/src/beginning.rt by rust/erase. It isn't edited by hand.

//! How a run of a program begins.

use alloc::vec::Vec;
use crate::kit::programs::rt::AllocGlobal;
use crate::kit::programs::string::String;
use crate::cli::devices::{Sink, open_named};
use crate::cli::ending::{MEMORY, finish, refuse_file, refuse_words};
use crate::cli::input::file_name;
use crate::cli::words::words_after_name;
use crate::kit::alloc::AllocError;
use crate::kit::programs::env;
use crate::kit::programs::env::Env;
use crate::kit::programs::rt::Files;

/// Reads the arguments of a program, without its name, and opens the input file if the last of them
/// names one: a surplus argument that is no option. That one is taken off the words. `is_line`
/// tells whether words are a command line.
///
/// # Errors
///
/// The exit status; the error stream says why. It is that of [`refuse_words`] if the arguments can't
/// be read, that of [`refuse_file`] if there is no such file, if it is a folder, or if it can't be
/// opened, and 3 if memory ran out.
///
/// <details><summary>Contract</summary>
///
/// <code style="display: block; tab-size: 4; white-space: pre-wrap">// In the words of [contracts](crate::contracts):
/// requires { F.IsAlwaysCallable is_line }
/// ensures file { IfOk result (λ begun. IfSome begun.1 (λ \_.
/// &#9;FnReturnsAt F.Fn is_line begun.0.items (Ok true))) }
/// ensures no_file { IfOk result (λ begun. IfNone begun.1
/// &#9;(NamesNone (FnReturnsAt F.Fn is_line) string_bytes begun.0.items)) }
/// ensures status { IfErr result (λ status. (2 ≤ status) × (status ≤ 4)) }
/// </code>
///
/// </details>
#[inline]
pub fn begin<R, E: Sink, F: Fn(&[String]) -> Result<bool, AllocError>>(
    rt: &R,
    program: &str,
    is_line: F,
    errors: &mut E,
) -> Result<(Vec<String>, Option<R::File>), u8>
where
    R: Env + Files + AllocGlobal,
{
    let words = match env::args(rt) {
        Ok(words) => words,
        Err(error) => return Err(refuse_words(&error, errors)),
    };
    let mut words = match words_after_name(words) {
        Ok(words) => words,
        Err(AllocError) => return Err(finish(errors, MEMORY)),
    };
    let is_named = match file_name(&words, is_line) {
        Ok(name) => name.is_some(),
        Err(AllocError) => return Err(finish(errors, MEMORY)),
    };
    if !is_named {
        return Ok((words, None));
    }
    let Some(name) = words.pop() else {
        unreachable!()
    };
    match open_named(rt, &name) {
        Ok(file) => Ok((words, Some(file))),
        Err(fault) => Err(refuse_file(program, &name, fault, errors)),
    }
}
