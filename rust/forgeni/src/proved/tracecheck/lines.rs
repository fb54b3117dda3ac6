// Made of crates/tracecheck/src/lines.rt by rust/erase. It isn't edited by hand.

//! Pieces of a text, cut into lines.

use alloc::vec::Vec;
use crate::kit::vec::FallibleVec;
use crate::tracecheck::checking::{Checking, End};
use crate::handles::split_once;

// A line without a carriage return at its end, which is part of the line's end.
#[inline]
fn without_return(line: &[u8]) -> &[u8]
    // ensures { result.now ≡ without_return line.now }
{
    let Some((last, front)) = line.split_last() else {
        return line;
    };
    if *last == b'\r' { front } else { line }
}

// Takes the line that is pending and ends with these bytes.
#[inline]
fn end_line(checking: Checking, pending: &mut Vec<u8>, bytes: &[u8]) -> Result<Checking, End>
    // requires { All (λ byte. byte ≢ 10) bytes.now }
    // ensures taken { IfOk result (λ next. (begin : Allocator) (text : List ℕ)
    //     → HasRead begin text checking pending.old.items
    //     → HasRead begin (text ++ bytes.now ++ 10 ∷ []) next pending.new.items) }
    // ensures ends { IfErr result (λ end. (begin : Allocator) (text more : List ℕ)
    //     → HasRead begin text checking pending.old.items
    //     → MayEnd begin (lines_of (text ++ bytes.now ++ 10 ∷ more)) end) }
{
    pending.extend_from_slice_fallibly(bytes)?;
    let checking = checking.take(without_return(pending))?;
    pending.clear();
    Ok(checking)
}

/// Takes all lines that end in a piece of the text. What follows the last line's end is pending,
/// before and afterwards.
///
/// <details><summary>Contract</summary>
///
/// <code style="display: block; tab-size: 4; white-space: pre-wrap">// In the words of [contracts](crate::contracts):
/// ensures taken { IfOk result (λ next. (begin : Allocator) (text : List ℕ)
/// &#9;→ HasRead begin text checking pending.old.items
/// &#9;→ HasRead begin (text ++ piece.now) next pending.new.items) }
/// ensures ends { IfErr result (λ end. (begin : Allocator) (text more : List ℕ)
/// &#9;→ HasRead begin text checking pending.old.items
/// &#9;→ MayEnd begin (lines_of (text ++ piece.now ++ more)) end) }
/// </code>
///
/// </details>
#[inline]
pub fn feed(checking: Checking, pending: &mut Vec<u8>, piece: &[u8]) -> Result<Checking, End> {
    let mut checking = checking;
    let mut rest = piece;
    while let Some((line, others)) = split_once(rest, b'\n') {
        checking = end_line(checking, pending, line)?;
        rest = others;
    }
    pending.extend_from_slice_fallibly(rest)?;
    Ok(checking)
}

/// Takes the last line if there is one without an end, and says what is to be said of the trace.
///
/// <details><summary>Contract</summary>
///
/// <code style="display: block; tab-size: 4; white-space: pre-wrap">// In the words of [contracts](crate::contracts):
/// ensures { (begin : Allocator) (text : List ℕ) → HasRead begin text checking pending.now
/// &#9;→ MayEnd begin (lines_of text) result }
/// </code>
///
/// </details>
#[inline]
pub fn finish(checking: Checking, pending: &[u8]) -> End {
    if pending.is_empty() {
        return checking.finish();
    }
    match checking.take(pending) {
        Ok(checking) => checking.finish(),
        Err(end) => end,
    }
}
