// Made of crates/tracecheck/src/checking.rt by rust/erase. It isn't edited by hand.

//! Lines of a trace, read and compared one after the other.

use crate::tracecheck::verdict::{Refusal, Verdict};
use crate::allocator::Entities;
use crate::traces::trace::{
    AllocReply, Call, CheckError, Comparer, ReadFault, ReserveReply, read_line,
};
use crate::kit::alloc::AllocError;

/// Why the lines of a trace are not taken any further.
pub enum End {
    /// The verdict on the trace.
    Verdict(Verdict),
    /// Memory ran out, or no number was left for a line or for the handles given.
    Memory,
}

impl From<AllocError> for End {
    #[inline]
    fn from(_refused: AllocError) -> Self {
        End::Memory
    }
}

/// Takes the lines of a trace as texts, one after the other. It keeps the comparer, and nothing of
/// the lines.
pub struct Checking {
    comparer: Comparer,
    lines: u64,
    given: u64,
}

impl Checking {
    /// One that has taken no line. The trace begins in the state of this allocator, with its
    /// requests. It doesn't allocate.
    ///
    /// <details><summary>Contract</summary>
    ///
    /// <code style="display: block; tab-size: 4; white-space: pre-wrap">// In the words of [contracts](crate::contracts):
    /// ensures { HasTaken entities.allocator \[\] result }
    /// </code>
    ///
    /// </details>
    #[inline]
    pub fn new(entities: Entities) -> Self {
        Checking {
            comparer: Comparer::from_entities(entities),
            lines: 0,
            given: 0,
        }
    }

    /// How many lines were taken.
    ///
    /// <details><summary>Contract</summary>
    ///
    /// <code style="display: block; tab-size: 4; white-space: pre-wrap">// In the words of [contracts](crate::contracts):
    /// ensures { result ≡ self.now.lines }
    /// </code>
    ///
    /// </details>
    #[inline]
    pub fn lines(&self) -> u64 {
        self.lines
    }

    /// Takes the next line, which is given without the bytes that end it.
    ///
    /// # Errors
    ///
    /// `Verdict` if the line is none, or if an answer isn't the allocator's. `Memory` if memory ran
    /// out.
    ///
    /// <details><summary>Contract</summary>
    ///
    /// <code style="display: block; tab-size: 4; white-space: pre-wrap">// In the words of [contracts](crate::contracts):
    /// ensures taken { IfOk result (λ next. (begin : Allocator) (texts : List (List ℕ))
    /// &#9;→ HasTaken begin texts self → HasTaken begin (texts ++ text.now ∷ \[\]) next) }
    /// ensures ends { IfErr result (λ end. (begin : Allocator)
    /// &#9;(texts after : List (List ℕ)) → HasTaken begin texts self
    /// &#9;→ MayEnd begin (texts ++ text.now ∷ after) end) }
    /// </code>
    ///
    /// </details>
    #[inline]
    pub fn take(self, text: &[u8]) -> Result<Self, End> {
        let Some(number) = self.lines.checked_add(1) else {
            return Err(End::Memory);
        };
        match read_line(number, text) {
            Ok(Some(line)) => self.take_call(number, line),
            Ok(None) => Ok(self.take_none(number)),
            Err(ReadFault::Cause(cause)) => Err(End::Verdict(Verdict::Refused {
                line: number,
                refusal: Refusal::Line(cause),
            })),
            Err(ReadFault::Memory) => Err(End::Memory),
        }
    }

    // Takes a line without words.
    #[inline]
    fn take_none(self, number: u64) -> Self
        // ensures { result ≡ record self { lines = number } }
    {
        let Checking {
            comparer,
            lines: _,
            given,
        } = self;
        Checking {
            comparer,
            lines: number,
            given,
        }
    }

    // Takes the call of the line that has this number.
    #[inline]
    fn take_call(self, number: u64, line: Call) -> Result<Self, End>
        // requires { number ≡ self.lines + 1 }
        // ensures taken { IfOk result (λ next. (begin : Allocator) (texts : List (List ℕ))
        //     (text : List ℕ) → line_of number (words_of text) ≡ Ok (Some line)
        //     → HasTaken begin texts self → HasTaken begin (texts ++ text ∷ []) next) }
        // ensures ends { IfErr result (λ end. (begin : Allocator)
        //     (texts after : List (List ℕ)) (text : List ℕ)
        //     → line_of number (words_of text) ≡ Ok (Some line) → HasTaken begin texts self
        //     → MayEnd begin (texts ++ text ∷ after) end) }
    {
        let Checking {
            comparer,
            lines: _,
            given,
        } = self;
        let Some(given) = given.checked_add(given_in(&line)) else {
            return Err(End::Memory);
        };
        match comparer.take(number, line) {
            Ok(comparer) => Ok(Checking {
                comparer,
                lines: number,
                given,
            }),
            Err(error) => Err(end_of(number, error)),
        }
    }

    /// The verdict on a trace that ends here.
    ///
    /// <details><summary>Contract</summary>
    ///
    /// <code style="display: block; tab-size: 4; white-space: pre-wrap">// In the words of [contracts](crate::contracts):
    /// ensures { (begin : Allocator) (texts : List (List ℕ)) → HasTaken begin texts self
    /// &#9;→ MayEnd begin texts result }
    /// </code>
    ///
    /// </details>
    #[inline]
    pub fn finish(self) -> End {
        let Checking {
            comparer,
            lines,
            given,
        } = self;
        match comparer.finish() {
            Ok(_) => End::Verdict(Verdict::Agrees { lines, given }),
            Err(CheckError::Differs(difference)) => End::Verdict(Verdict::Differs(difference)),
            Err(_) => End::Memory,
        }
    }
}

// What an error at the line of this number says of the trace.
#[inline]
fn end_of(number: u64, error: CheckError) -> End
    // ensures { result ≡ end_of number error }
{
    match error {
        CheckError::Differs(difference) => End::Verdict(Verdict::Differs(difference)),
        CheckError::TooMany => End::Verdict(Verdict::Refused {
            line: number,
            refusal: Refusal::Requests,
        }),
        _ => End::Memory,
    }
}

// How many handles a call says were given out.
#[inline]
fn given_in(line: &Call) -> u64
    // ensures { result ≡ given_in line.now }
{
    match line {
        Call::Alloc(Some(AllocReply::Handle(_))) => 1,
        Call::Reserve(reservation) => listed_in(&reservation.reply),
        _ => 0,
    }
}

#[inline]
fn listed_in(reply: &ReserveReply) -> u64
    // ensures { result ≡ listed_in reply.now }
{
    match reply {
        ReserveReply::Handles(handles) => handles.len() as u64,
        _ => 0,
    }
}
