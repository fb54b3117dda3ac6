// Made of crates/tracecheck/src/verdict.rt by rust/erase. It isn't edited by hand.

//! What is said of a trace.

use alloc::vec::Vec;
use crate::kit::programs::format;
use crate::kit::vec::FallibleVec;
use crate::handles::{Handle, OutOfMemory};
use crate::traces::trace::{Cause, Difference, append_handles, write_difference};

// A difference shows at most this many handles of a pool.
const SHOWN: usize = 8;

/// Why a text is no trace.
#[derive(Clone, Copy)]
pub enum Refusal {
    /// The line is no call with its answer.
    Line(Cause),
    /// With the line, more than 2^50 handles were requested since the last flush.
    Requests,
}

/// What is said of a trace.
pub enum Verdict {
    /// It agrees.
    Agrees {
        /// How many lines it has.
        lines: u64,
        /// How many handles it says were given out.
        given: u64,
    },
    /// It differs in this line, as the difference shows.
    Differs(Difference),
    /// The text is no trace.
    Refused {
        /// The number of its first line that is none.
        line: u64,
        /// What is wrong with the line.
        refusal: Refusal,
    },
}

impl Refusal {
    /// The word that names it.
    ///
    /// <details><summary>Contract</summary>
    ///
    /// <code style="display: block; tab-size: 4; white-space: pre-wrap">// In the words of [contracts](crate::contracts):
    /// ensures { result.now ≡ refusal_text self }
    /// </code>
    ///
    /// </details>
    #[inline]
    pub fn text(self) -> &'static str {
        match self {
            Refusal::Line(cause) => cause.text(),
            Refusal::Requests => "requests",
        }
    }
}

impl Verdict {
    /// The text that says it, with its line feeds: two lines for a difference, or else one.
    ///
    /// # Errors
    ///
    /// `Memory`: there isn't enough memory for the text.
    ///
    /// <details><summary>Contract</summary>
    ///
    /// <code style="display: block; tab-size: 4; white-space: pre-wrap">// In the words of [contracts](crate::contracts):
    /// ensures { IfOk result (λ text. text.items ≡ verdict_text self.now) }
    /// </code>
    ///
    /// </details>
    #[inline]
    pub fn text(&self) -> Result<Vec<u8>, OutOfMemory> {
        match self {
            Verdict::Agrees { lines, given } => agrees_text(*lines, *given),
            Verdict::Differs(difference) => difference_lines(difference),
            Verdict::Refused { line, refusal } => refused_text(*line, *refusal),
        }
    }
}

#[inline]
fn agrees_text(lines: u64, given: u64) -> Result<Vec<u8>, OutOfMemory>
    // ensures { IfOk result (λ text. text.items ≡ verdict_text (Verdict.Agrees lines given)) }
{
    let text = format!("agrees: {lines} lines, {given} handles given\n")?;
    Ok(text.into_bytes())
}

#[inline]
fn refused_text(line: u64, refusal: Refusal) -> Result<Vec<u8>, OutOfMemory>
    // ensures { IfOk result (λ text. text.items ≡ verdict_text (Verdict.Refused line refusal)) }
{
    let word = refusal.text();
    let text = format!("refused line {line} {word}\n")?;
    Ok(text.into_bytes())
}

#[inline]
fn difference_lines(difference: &Difference) -> Result<Vec<u8>, OutOfMemory>
    // ensures { IfOk result (λ text. text.items ≡ difference_lines difference.now) }
{
    let mut text = Vec::new();
    write_difference(&mut text, difference)?;
    text.push_fallibly(b'\n')?;
    append_state(
        &mut text,
        difference.front.as_slice(),
        difference.cursor,
    )?;
    Ok(text)
}

// Appends the line that shows the state in which a line of the trace differs.
#[inline]
fn append_state(
    out: &mut Vec<u8>,
    front: &[Handle],
    cursor: i64,
) -> Result<(), OutOfMemory>
    // ensures { OnOk result (out.new.items ≡ out.old.items ++ state_text front.now cursor) }
{
    append_pool(out, front)?;
    let cursor = format!(", cursor {cursor}\n")?;
    Ok(out.extend_from_slice_fallibly(cursor.as_bytes())?)
}

#[inline]
fn append_pool(out: &mut Vec<u8>, front: &[Handle]) -> Result<(), OutOfMemory>
    // ensures { OnOk result (out.new.items
    //     ≡ out.old.items ++ codes "pool" ++ spaced (pool_words front.now)) }
{
    if front.is_empty() {
        return Ok(out.extend_from_slice_fallibly(b"pool empty")?);
    }
    out.extend_from_slice_fallibly(b"pool")?;
    append_handles(out, front)?;
    if front.len() == SHOWN {
        out.extend_from_slice_fallibly(b" ..")?;
    }
    Ok(())
}
