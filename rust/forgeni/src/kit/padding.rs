//! Texts that keep the width, the alignment and the precision that are asked for.
//!
//! The kit's `Formatter` has none of them, so a contract speaks of the text alone. Rust's own
//! numbers and texts keep them, and so do the types of the package.

use core::fmt::{self, Write};

/// `write!`, which keeps width, alignment and precision.
macro_rules! padded {
    ($out:expr, $($text:tt)*) => {
        $crate::kit::padding::pad($out, format_args!($($text)*))
    };
}
pub(crate) use padded;

/// Writes the text. A text of at most [`LONGEST`] bytes is padded; a longer one is written as it
/// is.
pub fn pad(out: &mut fmt::Formatter<'_>, text: fmt::Arguments<'_>) -> fmt::Result {
    let mut short = Short::default();
    let is_plain = out.width().is_none() && out.precision().is_none();
    if is_plain || short.write_fmt(text).is_err() {
        return out.write_fmt(text);
    }
    out.pad(short.as_str())
}

/// As long as the text of the greatest handle.
const LONGEST: usize = 21;

/// A text without memory of its own.
#[derive(Default)]
struct Short {
    bytes: [u8; LONGEST],
    len: usize,
}

impl Short {
    fn as_str(&self) -> &str {
        core::str::from_utf8(&self.bytes[..self.len]).unwrap_or_default()
    }
}

impl Write for Short {
    /// An `Err` if there is no room for it.
    fn write_str(&mut self, text: &str) -> fmt::Result {
        let room = self.bytes.get_mut(self.len..self.len + text.len());
        room.ok_or(fmt::Error)?.copy_from_slice(text.as_bytes());
        self.len += text.len();
        Ok(())
    }
}

#[cfg(test)]
mod tests {
    use super::*;
    use ::alloc::format;

    struct Shown(&'static str);

    impl fmt::Display for Shown {
        fn fmt(&self, f: &mut fmt::Formatter<'_>) -> fmt::Result {
            padded!(f, "{}{}", "a", self.0)
        }
    }

    #[test]
    fn a_text_is_padded_as_rust_s_own() {
        for text in ["", "b", "bcd", "é", "12345678901234567890"] {
            let whole = format!("a{text}");
            assert_eq!(format!("{}|", Shown(text)), format!("{whole}|"));
            assert_eq!(format!("{:>24}|", Shown(text)), format!("{whole:>24}|"));
            assert_eq!(
                format!("{:-^24.2}|", Shown(text)),
                format!("{whole:-^24.2}|")
            );
        }
    }

    #[test]
    fn a_longer_text_is_written_as_it_is() {
        let text = "123456789012345678901";
        assert_eq!(format!("{:>30}", Shown(text)), format!("a{text}"));
    }
}
