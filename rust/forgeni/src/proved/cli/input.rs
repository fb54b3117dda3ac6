// Made of crates/cli/src/input.rt by rust/erase. It isn't edited by hand.

//! The input file that the arguments name.

use crate::kit::programs::string::String;
use crate::kit::alloc::AllocError;

/// The name of an input file, if the last argument is one: a surplus argument that is no option.
/// `is_line` tells whether arguments are a command line. Those before the last one are, and all of
/// them aren't.
///
/// # Errors
///
/// Memory ran out in `is_line`.
///
/// <details><summary>Contract</summary>
///
/// <code style="display: block; tab-size: 4; white-space: pre-wrap">// In the words of [contracts](crate::contracts):
/// requires { F.IsAlwaysCallable is_line }
/// ensures named { IfOk result (λ name. IfSome name (λ name.
/// &#9;NamesFile (FnReturnsAt F.Fn is_line) string_bytes words.now name.now)) }
/// ensures none { result ≡ Ok None
/// &#9;→ NamesNone (FnReturnsAt F.Fn is_line) string_bytes words.now }
/// ensures memory { IfErr result (λ error.
/// &#9;IsUnknown (FnReturnsAt F.Fn is_line) words.now error) }
/// </code>
///
/// </details>
#[inline]
pub fn file_name<F: Fn(&[String]) -> Result<bool, AllocError>>(
    words: &[String],
    is_line: F,
) -> Result<Option<&str>, AllocError> {
    let Some((name, before)) = words.split_last() else {
        return Ok(None);
    };
    if name.starts_with('-') || is_line(words)? || !is_line(before)? {
        return Ok(None);
    }
    Ok(Some(name.as_str()))
}
