//! Strings: where each ends that begins at a place, and its text without escapes.

/// A string.
pub(super) struct Found<'a> {
    /// Its text, without escapes.
    pub(super) text: &'a str,
    /// The place after its closing quotation mark.
    pub(super) end: usize,
}

/// The string whose text begins here, if it is one. It is a part of the text, or if it has escapes,
/// of the scratch, which then has room for as much as is left of the text.
#[inline]
pub(super) fn read<'a>(
    text: &'a str,
    start: usize,
    scratch: &mut &'a mut [u8],
) -> Option<Found<'a>> {
    let bytes = text.as_bytes();
    let plain = start + plain_len(&bytes[start..]);
    match bytes.get(plain)? {
        b'"' => Some(Found {
            text: &text[start..plain],
            end: plain + 1,
        }),
        b'\\' => unescaped(bytes, start, scratch),
        _ => None,
    }
}

/// How many bytes come before a quotation mark, a backslash or a control character. It tests eight
/// at once.
#[inline]
fn plain_len(bytes: &[u8]) -> usize {
    const ONES: u64 = 0x0101_0101_0101_0101;
    const HIGH: u64 = 0x8080_8080_8080_8080;
    // The lowest byte that is marked is one that is less than `n`, though one above it may not be.
    let below = |word: u64, n: u64| word.wrapping_sub(ONES * n) & !word & HIGH;
    let ends_in = |chunk: &[u8; 8]| {
        let word = u64::from_le_bytes(*chunk);
        let quote = below(word ^ (ONES * u64::from(b'"')), 1);
        let slash = below(word ^ (ONES * u64::from(b'\\')), 1);
        let found = quote | slash | below(word, 0x20);
        (found != 0).then(|| found.trailing_zeros() as usize / 8)
    };
    // Most strings are short.
    if let Some(end) = bytes.first_chunk().and_then(ends_in) {
        return end;
    }
    let (chunks, rest) = bytes.as_chunks::<8>();
    for (at, chunk) in chunks.iter().enumerate() {
        if let Some(end) = ends_in(chunk) {
            return 8 * at + end;
        }
    }
    let ends = |byte: &u8| *byte == b'"' || *byte == b'\\' || *byte < 0x20;
    let end = rest.iter().position(ends).unwrap_or(rest.len());
    bytes.len() - rest.len() + end
}

/// The string whose text begins here. No escape is shorter than what it stands for.
#[cold]
#[inline(never)]
fn unescaped<'a>(bytes: &[u8], start: usize, scratch: &mut &'a mut [u8]) -> Option<Found<'a>> {
    let (mut at, mut len) = (start, 0);
    loop {
        let plain = plain_len(&bytes[at..]);
        scratch[len..len + plain].copy_from_slice(&bytes[at..at + plain]);
        (at, len) = (at + plain, len + plain);
        match bytes.get(at)? {
            b'"' => break,
            b'\\' => {
                let (letter, end) = escape(bytes, at + 1)?;
                len += letter.encode_utf8(&mut scratch[len..]).len();
                at = end;
            }
            _ => return None,
        }
    }
    // What follows gets the rest of the room.
    let (found, rest) = core::mem::take(scratch).split_at_mut(len);
    *scratch = rest;
    let text = core::str::from_utf8(found).ok()?;
    Some(Found { text, end: at + 1 })
}

/// What the escape stands for whose letter is here, and its end.
fn escape(bytes: &[u8], at: usize) -> Option<(char, usize)> {
    let letter = match *bytes.get(at)? {
        letter @ (b'"' | b'\\' | b'/') => char::from(letter),
        b'b' => '\u{8}',
        b'f' => '\u{c}',
        b'n' => '\n',
        b'r' => '\r',
        b't' => '\t',
        b'u' => return unicode(bytes, at + 1),
        _ => return None,
    };
    Some((letter, at + 1))
}

/// The character whose four digits are here, and its end. A surrogate has to be the first of a
/// pair.
fn unicode(bytes: &[u8], at: usize) -> Option<(char, usize)> {
    let first = unit(bytes, at)?;
    if !(0xd800..0xdc00).contains(&first) {
        return Some((char::from_u32(first)?, at + 4));
    }
    let second = match bytes.get(at + 4..at + 6)? {
        b"\\u" => unit(bytes, at + 6)?,
        _ => return None,
    };
    if !(0xdc00..0xe000).contains(&second) {
        return None;
    }
    let letter = 0x10000 + ((first - 0xd800) << 10) + (second - 0xdc00);
    Some((char::from_u32(letter)?, at + 10))
}

/// The number that four hexadecimal digits are.
fn unit(bytes: &[u8], at: usize) -> Option<u32> {
    let digits = bytes.get(at..at + 4)?;
    let next = |number, digit: &u8| Some(number * 16 + char::from(*digit).to_digit(16)?);
    digits.iter().try_fold(0, next)
}
