//! The kit's text of a bounded length, which takes no memory.
//!
//! The contracts are those of the kit's `core/specs/Fmt/InlineText.antt`.

use core::fmt;

/// A text of at most `N` bytes. What is longer is cut, in whole characters, and ends in three dots.
#[derive(Clone, Copy)]
pub struct InlineText<const N: usize> {
    bytes: [u8; N],
    len: usize,
    /// Whether more was written than there is room for.
    is_full: bool,
}

impl<const N: usize> InlineText<N> {
    /// The contract: no text.
    pub const fn new() -> Self {
        InlineText {
            bytes: [0; N],
            len: 0,
            is_full: false,
        }
    }

    /// The contract: what the value writes, cut to `N` bytes.
    pub fn of(value: impl fmt::Display) -> Self {
        let mut text = Self::new();
        // It never fails: what there is no room for is dropped.
        let _ = fmt::Write::write_fmt(&mut text, format_args!("{value}"));
        text.ended()
    }

    /// The contract: at the end is the part, cut to `most` bytes, if fewer than `N` bytes may be
    /// there then. If not, all of the part is, and the whole is cut to `N` bytes.
    pub fn and_str(mut self, part: &str, most: usize) -> Self {
        if most >= N - self.len || part.len() <= most {
            self.write(part);
        } else {
            self.write(front_of(part, most.saturating_sub(3)));
            self.write(&"..."[..most.min(3)]);
        }
        self.ended()
    }

    /// The text.
    pub fn as_str(&self) -> &str {
        core::str::from_utf8(&self.bytes[..self.len]).unwrap_or("")
    }

    /// Writes as much of the part as there is room for, in whole characters.
    fn write(&mut self, part: &str) {
        if self.is_full {
            return;
        }
        let front = front_of(part, N - self.len);
        let end = self.len + front.len();
        self.bytes[self.len..end].copy_from_slice(front.as_bytes());
        self.len = end;
        self.is_full = front.len() < part.len();
    }

    /// The text, which ends in dots if more was written.
    fn ended(mut self) -> Self {
        if self.is_full {
            self.len = front_of(self.as_str(), N.saturating_sub(3)).len();
            self.is_full = false;
            self.write(&"..."[..N.min(3)]);
        }
        self
    }
}

impl<const N: usize> fmt::Write for InlineText<N> {
    fn write_str(&mut self, part: &str) -> fmt::Result {
        self.write(part);
        Ok(())
    }
}

/// At most so many bytes of a text, in whole characters.
fn front_of(text: &str, most: usize) -> &str {
    let mut end = most.min(text.len());
    while !text.is_char_boundary(end) {
        end -= 1;
    }
    &text[..end]
}

#[cfg(test)]
mod tests {
    use super::InlineText;

    #[test]
    fn what_there_is_room_for_is_whole() {
        assert_eq!(InlineText::<8>::new().as_str(), "");
        assert_eq!(InlineText::<8>::of(12_345_678).as_str(), "12345678");
        let text = InlineText::<8>::of("abc").and_str("defgh", 5);
        assert_eq!(text.as_str(), "abcdefgh");
        assert_eq!(text.and_str("", 0).as_str(), "abcdefgh");
    }

    #[test]
    fn what_is_longer_ends_in_dots() {
        assert_eq!(InlineText::<8>::of(123_456_789).as_str(), "12345...");
        assert_eq!(
            InlineText::<8>::of("abc").and_str("defghi", 6).as_str(),
            "abcde..."
        );
        assert_eq!(
            InlineText::<8>::of("abcdefg").and_str("hi", 2).as_str(),
            "abcde..."
        );
        let text = InlineText::<8>::of("abcdefg").and_str("xyz", 1);
        assert_eq!(text.as_str(), "abcde...");
        assert_eq!(InlineText::<2>::of("abc").as_str(), "..");
        assert_eq!(InlineText::<0>::of("abc").as_str(), "");
    }

    #[test]
    fn a_part_is_cut_to_its_own_length() {
        let text = InlineText::<20>::new();
        assert_eq!(text.and_str("abcdef", 6).as_str(), "abcdef");
        assert_eq!(text.and_str("abcdefg", 6).as_str(), "abc...");
        assert_eq!(text.and_str("abcdefg", 2).as_str(), "..");
        assert_eq!(text.and_str("abcdefg", 0).as_str(), "");
    }

    #[test]
    fn no_character_is_cut() {
        assert_eq!(InlineText::<8>::of("äääää").as_str(), "ää...");
        assert_eq!(InlineText::<8>::of("aä😀b").as_str(), "aä😀b");
        assert_eq!(InlineText::<7>::of("aä😀b").as_str(), "aä...");
        assert_eq!(InlineText::<20>::new().and_str("ä😀ab", 7).as_str(), "ä...");
    }
}
