// Made of crates/cli/src/words.rt by rust/erase. It isn't edited by hand.

//! The arguments of a program.

use alloc::vec::Vec;
use crate::kit::programs::string::String;
use crate::kit::vec::CollectIn;
use crate::kit::alloc::AllocError;
use crate::kit::programs::env::Args;

/// The program's arguments, without its name.
///
/// # Errors
///
/// Memory ran out.
///
/// <details><summary>Contract</summary>
///
/// <code style="display: block; tab-size: 4; white-space: pre-wrap">// In the words of [contracts](crate::contracts):
/// ensures { IfOk result (λ others. others.items ≡ after_name (into_iter_items words)) }
/// </code>
///
/// </details>
#[inline]
pub fn words_after_name(words: Args) -> Result<Vec<String>, AllocError> {
    let mut words = words;
    let _name = words.next();
    words.collect_in()
}
