// Made of crates/ent_replay/src/trace/words.rt by rust/erase. It isn't edited by hand.

//! The words of a line.

use crate::traces::trace::read_fault::Cause;
use crate::handles::split_once;

/// What comes before a comment.
#[inline]
pub(super) fn before_comment(line: &[u8]) -> &[u8]
    // ensures { result.now ≡ before_comment line.now }
{
    match split_once(line, b'#') {
        Some((text, _)) => text,
        None => line,
    }
}

#[inline]
fn is_blank(byte: u8) -> bool
    // ensures { result ≡ is_blank_byte byte }
{
    byte == b' ' || byte == b'\t'
}

/// The bytes at the front of a text that are blanks, or that are none, and the rest.
#[inline]
fn front(text: &[u8], blanks: bool) -> (&[u8], &[u8])
    // ensures whole { text.now ≡ result.0.now ++ result.1.now }
    // ensures front { All (λ byte. is_blank_byte byte ≡ blanks) result.0.now }
    // ensures next { All (λ byte. is_blank_byte byte ≡ not blanks) (take 1 result.1.now) }
{
    match text.iter().position(|byte| is_blank(*byte) != blanks) {
        Some(end) => (&text[..end], &text[end..]),
        None => (text, &[]),
    }
}

/// The first word of a text, and what follows it.
#[inline]
pub(super) fn first_word(text: &[u8]) -> Option<(&[u8], &[u8])>
    // ensures found { IfSome result (λ parts.
    //     words_in text.now ≡ parts.0.now ∷ words_in parts.1.now) }
    // ensures shorter { IfSome result (λ parts. length parts.1.now < length text.now) }
    // ensures none { IfNone result (words_in text.now ≡ []) }
{
    let (_, text) = front(text, true);
    if text.is_empty() {
        return None;
    }
    Some(front(text, false))
}

/// The words of a short text.
#[derive(Clone, Copy)]
pub(super) enum Few<'a> {
    None,
    One(&'a [u8]),
    Two(&'a [u8], &'a [u8]),
    Three(&'a [u8], &'a [u8], &'a [u8]),
    More,
}

/// The words of a text, if there are no more than three.
#[inline]
pub(super) fn few_words(text: &[u8]) -> Few<'_>
    // ensures { AreFew result (words_in text.now) }
{
    let Some((first, text)) = first_word(text) else {
        return Few::None;
    };
    let Some((second, text)) = first_word(text) else {
        return Few::One(first);
    };
    let Some((third, text)) = first_word(text) else {
        return Few::Two(first, second);
    };
    match first_word(text) {
        None => Few::Three(first, second, third),
        Some(_) => Few::More,
    }
}

/// One more word before `=>`, and what follows the word.
#[inline]
fn argument(text: &[u8]) -> Result<(&[u8], &[u8]), Cause>
    // ensures found { IfOk result (λ parts.
    //     words_in text.now ≡ parts.0.now ∷ words_in parts.1.now) }
    // ensures no_arrow { IfOk result (λ parts. is_arrow parts.0.now ≡ false) }
    // ensures count { IfErr result (λ cause. cause ≡ Cause.Count) }
    // ensures none { OnErr result (before_arrow (words_in text.now) ≡ []) }
{
    match first_word(text) {
        Some((word, others)) if word != b"=>".as_slice() => Ok((word, others)),
        _ => Err(Cause::Count),
    }
}

/// A call has no more words: what follows `=>`, if it is there.
#[inline]
pub(super) fn no_argument(text: &[u8]) -> Result<Option<&[u8]>, Cause>
    // ensures { ReadsAsView words_told result (no_argument (words_in text.now)) }
{
    match first_word(text) {
        None => Ok(None),
        Some((word, told)) if word == b"=>".as_slice() => Ok(Some(told)),
        Some(_) => Err(Cause::Count),
    }
}

/// A call has one more word: the word, and what follows `=>`, if it is there.
#[inline]
pub(super) fn one_argument(text: &[u8]) -> Result<(&[u8], Option<&[u8]>), Cause>
    // ensures { ReadsAsView (λ call. (call.0.now, words_told call.1)) result
    //     (one_argument (words_in text.now)) }
{
    let (word, others) = argument(text)?;
    Ok((word, no_argument(others)?))
}

/// A call has two more words: both, and what follows `=>`, if it is there.
#[inline]
pub(super) fn two_arguments(text: &[u8]) -> Result<(&[u8], &[u8], Option<&[u8]>), Cause>
    // ensures { ReadsAsView (λ call. (call.0.now, call.1.now, words_told call.2)) result
    //     (two_arguments (words_in text.now)) }
{
    let (first, others) = argument(text)?;
    let (second, told) = one_argument(others)?;
    Ok((first, second, told))
}
