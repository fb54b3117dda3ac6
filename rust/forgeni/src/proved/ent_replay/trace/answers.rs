// Made of crates/ent_replay/src/trace/answers.rt by rust/erase. It isn't edited by hand.

//! What a line says was answered, read from its words.

use alloc::vec::Vec;
use crate::kit::vec::FallibleVec;
use crate::traces::handle_list::HandleList;
use crate::traces::trace::read_fault::{Cause, ReadFault};
use crate::traces::trace::reply::{AllocReply, FlushReply, FreeReply, ReserveReply};
use crate::traces::trace::words::{Few, few_words, first_word};
use crate::allocator::State;
use crate::handles::{Handle, read_decimal, split_once};

#[inline]
fn read_number(word: &[u8]) -> Result<u32, Cause>
    // ensures { result ≡ number_told word.now }
{
    read_decimal(word).map_err(|_| Cause::Reply)
}

#[inline]
fn read_handle(word: &[u8]) -> Result<Handle, Cause>
    // ensures { result ≡ handle_told word.now }
{
    Handle::read_text(word).map_err(|_| Cause::Reply)
}

#[inline]
pub(super) fn read_alloc(told: &[u8]) -> Result<AllocReply, Cause>
    // ensures { result ≡ alloc_told (words_in told.now) }
{
    match few_words(told) {
        Few::One(word) if word == b"space".as_slice() => Ok(AllocReply::Space),
        Few::One(word) => Ok(AllocReply::Handle(read_handle(word)?)),
        Few::Two(first, second) if is_needs_flush(first, second) => Ok(AllocReply::NeedsFlush),
        _ => Err(Cause::Reply),
    }
}

#[inline]
fn is_needs_flush(first: &[u8], second: &[u8]) -> bool
    // ensures { result ≡ (bytes_eq first.now (codes "needs") && bytes_eq second.now (codes "flush")) }
{
    first == b"needs".as_slice() && second == b"flush".as_slice()
}

#[inline]
pub(super) fn read_free(told: &[u8]) -> Result<FreeReply, Cause>
    // ensures { result ≡ free_told (words_in told.now) }
{
    match few_words(told) {
        Few::One(word) if word == b"freed".as_slice() => Ok(FreeReply::Freed),
        Few::Two(first, second) => read_short_free(first, second),
        Few::Three(first, second, word)
            if first == b"freed".as_slice() && second == b"next".as_slice() => {
            Ok(FreeReply::Next(read_handle(word)?))
        }
        _ => Err(Cause::Reply),
    }
}

#[inline]
fn read_short_free(first: &[u8], second: &[u8]) -> Result<FreeReply, Cause>
    // ensures { result ≡ free_told (first.now ∷ second.now ∷ []) }
{
    if first == b"freed".as_slice() {
        if second == b"retired".as_slice() {
            return Ok(FreeReply::Retired);
        }
        return Err(Cause::Reply);
    }
    if first == b"not".as_slice() && second == b"alive".as_slice() {
        return Ok(FreeReply::NotAlive);
    }
    if is_needs_flush(first, second) {
        return Ok(FreeReply::NeedsFlush);
    }
    Err(Cause::Reply)
}

#[inline]
pub(super) fn read_state(told: &[u8]) -> Result<State, Cause>
    // ensures { result ≡ state_told (words_in told.now) }
{
    match few_words(told) {
        Few::One(word) => read_state_word(word),
        _ => Err(Cause::Reply),
    }
}

#[inline]
fn read_state_word(word: &[u8]) -> Result<State, Cause>
    // ensures { result ≡ state_told (word.now ∷ []) }
{
    if word == b"alive".as_slice() {
        Ok(State::Alive)
    } else if word == b"reserved".as_slice() {
        Ok(State::Reserved)
    } else if word == b"gone".as_slice() {
        Ok(State::Gone)
    } else {
        Err(Cause::Reply)
    }
}

#[inline]
pub(super) fn read_len(told: &[u8]) -> Result<u32, Cause>
    // ensures { result ≡ len_told (words_in told.now) }
{
    match few_words(told) {
        Few::One(word) => read_number(word),
        _ => Err(Cause::Reply),
    }
}

/// All words as handles.
#[inline]
fn read_handles(told: &[u8]) -> Result<HandleList, ReadFault>
    // ensures { ReadsAs result (handles_told (words_in told.now)) }
{
    let mut handles = Vec::new();
    let mut rest = told;
    while let Some((word, others)) = first_word(rest) {
        handles.push_fallibly(read_handle(word)?)?;
        rest = others;
    }
    Ok(HandleList::new(handles))
}

/// A decimal in brackets.
#[inline]
fn read_count(word: &[u8]) -> Result<u32, Cause>
    // ensures { result ≡ count_told word.now }
{
    let [first, others @ ..] = word else {
        return Err(Cause::Reply);
    };
    if *first != b'(' {
        return Err(Cause::Reply);
    }
    read_closed(others)
}

/// A decimal before a closing bracket.
#[inline]
fn read_closed(text: &[u8]) -> Result<u32, Cause>
    // ensures { result ≡ count_in (slice_split (λ byte. byte == 41) text.now) }
{
    let Some((count, others)) = split_once(text, b')') else {
        return Err(Cause::Reply);
    };
    if !others.is_empty() {
        return Err(Cause::Reply);
    }
    read_number(count)
}

#[inline]
pub(super) fn read_flush(told: &[u8]) -> Result<FlushReply, ReadFault>
    // ensures { ReadsAs result (flush_told (words_in told.now)) }
{
    match first_word(told) {
        Some((word, others)) if word == b"born".as_slice() => read_born(others),
        _ => Err(ReadFault::Cause(Cause::Reply)),
    }
}

#[inline]
fn read_born(told: &[u8]) -> Result<FlushReply, ReadFault>
    // ensures { ReadsAs result (born_told (words_in told.now)) }
{
    if let Few::One(word) = few_words(told) {
        if let Ok(count) = read_count(word) {
            return Ok(FlushReply::Count(count));
        }
    }
    Ok(FlushReply::Born(read_handles(told)?))
}

#[inline]
pub(super) fn read_reserved(told: &[u8]) -> Result<ReserveReply, ReadFault>
    // ensures { ReadsAs result (reserve_told (words_in told.now)) }
{
    match first_word(told) {
        Some((word, others)) if word == b"space".as_slice() => Ok(read_space(others)?),
        _ => Ok(ReserveReply::Handles(read_handles(told)?)),
    }
}

#[inline]
fn read_space(told: &[u8]) -> Result<ReserveReply, Cause>
    // ensures { result ≡ space_told (words_in told.now) }
{
    match few_words(told) {
        Few::None => Ok(ReserveReply::Space),
        Few::Two(word, left) if word == b"left".as_slice() => {
            Ok(ReserveReply::SpaceLeft(read_number(left)?))
        }
        _ => Err(Cause::Reply),
    }
}
