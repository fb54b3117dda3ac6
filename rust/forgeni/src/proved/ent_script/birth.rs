// Made of crates/ent_script/src/birth.rt by rust/erase. It isn't edited by hand.

use crate::scripts::cause::Cause;
use crate::scripts::sizes::SYSTEMS;
use crate::handles::{Birth, read_decimal, split_once};

#[inline]
fn number(decimal: &[u8]) -> Result<u32, Cause>
    // ensures { result ≡ birth_number decimal.now }
{
    read_decimal(decimal).map_err(|_| Cause::Birth)
}

#[inline]
fn birth_of_numbers(before: usize, frame: u32, system: u32, ordinal: u32) -> Result<Birth, Cause>
    // ensures { result ≡ birth_of_numbers before frame system ordinal }
{
    if (frame as usize) < before && (system as usize) < SYSTEMS {
        Ok(Birth {
            frame: frame as u64,
            system,
            ordinal,
        })
    } else {
        Err(Cause::Birth)
    }
}

/// The parts of a text round its first two dots.
#[inline]
fn parts(text: &[u8]) -> Option<(&[u8], &[u8], &[u8])>
    // ensures some { IfSome result (λ parts. (before : ℕ) → birth_of before text.now
    //     ≡ birth_of_parts before (parts.0.now ∷ parts.1.now ∷ parts.2.now ∷ [])) }
    // ensures none { IfNone result ((before : ℕ) → birth_of before text.now ≡ Err Cause.Birth) }
{
    let (frame, others) = split_once(text, b'.')?;
    let (system, ordinal) = split_once(others, b'.')?;
    Some((frame, system, ordinal))
}

/// The birth that a text writes, in a frame before this one: three decimals with dots between them.
#[inline]
pub(super) fn birth(before: usize, text: &str) -> Result<Birth, Cause>
    // ensures { result ≡ birth_of before text.now }
{
    let (frame, system, ordinal) = parts(text.as_bytes()).ok_or(Cause::Birth)?;
    birth_of_numbers(before, number(frame)?, number(system)?, number(ordinal)?)
}
