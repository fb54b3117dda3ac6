//! Numbers and literals: where each ends that begins at a place.

/// The byte at a place, or a space at the end of the text.
#[inline]
pub(super) fn at(bytes: &[u8], at: usize) -> u8 {
    bytes.get(at).copied().unwrap_or(b' ')
}

#[inline]
pub(super) fn is_blank(byte: u8) -> bool {
    matches!(byte, b' ' | b'\t' | b'\n' | b'\r')
}

/// Whether a word may end here.
pub(super) fn ends(bytes: &[u8], place: usize) -> bool {
    let next = at(bytes, place);
    is_blank(next) || b"{}[]:,".contains(&next)
}

/// The end of this literal.
pub(super) fn literal_end(text: &str, at: usize, literal: &str) -> Option<usize> {
    text.as_bytes()[at..]
        .starts_with(literal.as_bytes())
        .then_some(at + literal.len())
}

/// The end of a number, if the grammar has one here.
pub(super) fn number_end(bytes: &[u8], begin: usize) -> Option<usize> {
    let mut end = begin + usize::from(at(bytes, begin) == b'-');
    end = match at(bytes, end) {
        b'0' => end + 1,
        _ => digits_end(bytes, end)?,
    };
    if at(bytes, end) == b'.' {
        end = digits_end(bytes, end + 1)?;
    }
    if matches!(at(bytes, end), b'e' | b'E') {
        let has_sign = matches!(at(bytes, end + 1), b'+' | b'-');
        end = digits_end(bytes, end + 1 + usize::from(has_sign))?;
    }
    Some(end)
}

/// The end of the digits, of which there has to be one.
fn digits_end(bytes: &[u8], begin: usize) -> Option<usize> {
    let mut end = begin;
    while at(bytes, end).is_ascii_digit() {
        end += 1;
    }
    (end > begin).then_some(end)
}
