// Made of crates/ent_replay/src/trace/reading.rt by rust/erase. It isn't edited by hand.

//! A line of a trace, read from its text.

use crate::traces::trace::answers::{
    read_alloc, read_flush, read_free, read_len, read_reserved, read_state,
};
use crate::traces::trace::call::Call;
use crate::traces::trace::read_fault::{Cause, ReadFault};
use crate::traces::trace::reservation::Reservation;
use crate::traces::trace::words::{before_comment, first_word, no_argument, one_argument, two_arguments};
use crate::handles::{Handle, read_decimal};

#[inline]
fn read_number(word: &[u8]) -> Result<u32, Cause>
    // ensures { result ≡ number_word word.now }
{
    read_decimal(word).map_err(|_| Cause::Number)
}

#[inline]
fn read_handle(word: &[u8]) -> Result<Handle, Cause>
    // ensures { result ≡ handle_word word.now }
{
    Handle::read_text(word).map_err(|_| Cause::Handle)
}

#[inline]
fn alloc_line(text: &[u8]) -> Result<Call, Cause>
    // ensures { result ≡ alloc_line (words_in text.now) }
{
    match no_argument(text)? {
        None => Ok(Call::Alloc(None)),
        Some(told) => Ok(Call::Alloc(Some(read_alloc(told)?))),
    }
}

#[inline]
fn free_line(text: &[u8]) -> Result<Call, Cause>
    // ensures { result ≡ free_line (words_in text.now) }
{
    let (word, told) = one_argument(text)?;
    let handle = read_handle(word)?;
    match told {
        None => Ok(Call::Free(handle, None)),
        Some(told) => Ok(Call::Free(handle, Some(read_free(told)?))),
    }
}

#[inline]
fn flush_line(text: &[u8]) -> Result<Call, ReadFault>
    // ensures { ReadsAs result (flush_line (words_in text.now)) }
{
    match no_argument(text)? {
        None => Ok(Call::Flush(None)),
        Some(told) => Ok(Call::Flush(Some(read_flush(told)?))),
    }
}

#[inline]
fn reserve_line(number: u64, text: &[u8]) -> Result<Call, ReadFault>
    // ensures { ReadsAs result (reserve_line number (words_in text.now)) }
{
    let (caller, requested, told) = two_arguments(text)?;
    let caller = read_number(caller)?;
    let requested = read_number(requested)?;
    let told = told.ok_or(Cause::Reply)?;
    let reply = read_reserved(told)?;
    Ok(Call::Reserve(Reservation {
        number,
        caller,
        requested,
        reply,
    }))
}

#[inline]
fn state_line(text: &[u8]) -> Result<Call, Cause>
    // ensures { result ≡ state_line (words_in text.now) }
{
    let (word, told) = one_argument(text)?;
    let handle = read_handle(word)?;
    match told {
        None => Ok(Call::State(handle, None)),
        Some(told) => Ok(Call::State(handle, Some(read_state(told)?))),
    }
}

#[inline]
fn len_line(text: &[u8]) -> Result<Call, Cause>
    // ensures { result ≡ len_line (words_in text.now) }
{
    match no_argument(text)? {
        None => Ok(Call::Len(None)),
        Some(told) => Ok(Call::Len(Some(read_len(told)?))),
    }
}

#[inline]
fn read_call(number: u64, word: &[u8], text: &[u8]) -> Result<Call, ReadFault>
    // ensures { ReadsAs result (call_of number word.now (words_in text.now)) }
{
    if word == b"reserve".as_slice() {
        reserve_line(number, text)
    } else if word == b"alloc".as_slice() {
        Ok(alloc_line(text)?)
    } else if word == b"free".as_slice() {
        Ok(free_line(text)?)
    } else if word == b"flush".as_slice() {
        flush_line(text)
    } else if word == b"state".as_slice() {
        Ok(state_line(text)?)
    } else if word == b"len".as_slice() {
        Ok(len_line(text)?)
    } else {
        Err(ReadFault::Cause(Cause::Word))
    }
}

/// The call of a line of a trace, and what the line says was answered. `None` if the line has no
/// words.
///
/// The line is given without the bytes that end it. It has this number, which a reservation keeps.
/// `docs/FORMATS.md` says what is a line. It takes time linear in the line, and memory for the
/// handles that the line names.
///
/// # Errors
///
/// `Cause` if the line is no call with its answer, with the first of the causes that it has;
/// `Memory` if memory ran out.
///
/// <details><summary>Contract</summary>
///
/// <code style="display: block; tab-size: 4; white-space: pre-wrap">// In the words of [contracts](crate::contracts):
/// // All of it, as a function of the words.
/// ensures exact { [ReadsAs](crate::contracts::ent_replay::text#ReadsAs) result ([line_of](crate::contracts::ent_replay::text#line_of) number ([words_of](crate::contracts::ent_replay::text#words_of) line.now)) }
/// </code>
///
/// </details>
#[inline]
pub fn read_line(number: u64, line: &[u8]) -> Result<Option<Call>, ReadFault> {
    match first_word(before_comment(line)) {
        None => Ok(None),
        Some((word, others)) => Ok(Some(read_call(number, word, others)?)),
    }
}
