// Made of crates/ent_script/src/found/instead.rt by rust/erase. It isn't edited by hand.

use crate::kit::programs::string::ToStringIn;
use super::shown::{Shown, with_char, with_letter, with_text};
use crate::kit::itoa::Buffer;
use crate::kit::programs::serde_json::Value;
use crate::kit::programs::inline_text::InlineText;

/// What is in the place where a test failed.
#[derive(Clone, Copy)]
pub(super) enum Instead<'a> {
    /// Nothing is there.
    Absent,
    /// A value that is refused.
    Refused(&'a Value),
    /// A key that is refused.
    Key(&'a str),
    /// A member whose value is refused.
    Member(&'a str, &'a Value),
    /// A name that a list has twice.
    Twice(&'a str),
    /// A list that is too long.
    Long(usize),
}

impl<'a> Instead<'a> {
    /// A value that is refused, if it is there.
    #[inline]
    pub(super) fn of(value: Option<&'a Value>) -> Instead<'a>
        // ensures { place_of result ≡ at_place (option_map (λ v. view v.now) value.entry) }
    {
        match value {
            Some(value) => Instead::Refused(value),
            None => Instead::Absent,
        }
    }

    /// A list that is too long, or what is there instead of a list.
    #[inline]
    pub(super) fn of_list(value: Option<&'a Value>) -> Instead<'a>
        // ensures { place_of result ≡ list_place (option_map (λ v. view v.now) value.entry) }
    {
        match value {
            Some(value) => Instead::no_list(value),
            None => Instead::Absent,
        }
    }

    #[inline]
    fn no_list(value: &'a Value) -> Instead<'a>
        // ensures { place_of result ≡ list_place (Some (view value.now)) }
    {
        match value.as_array() {
            Some(list) => Instead::Long(list.len()),
            None => Instead::Refused(value),
        }
    }

    /// The front of its text, if there is memory for that.
    #[inline]
    pub(super) fn shown(self) -> Option<Shown>
        // ensures text { IfSome result (λ shown. Shows (place_of self.entry) (inline_text shown)) }
        // ensures printable { IfSome result (λ shown. ArePrintable (inline_text shown)) }
    {
        let nothing = InlineText::new();
        match self {
            Instead::Absent => Some(with_text(nothing, "none")),
            Instead::Refused(value) => with_json(nothing, value),
            Instead::Key(key) => Some(with_quoted(nothing, key)),
            Instead::Member(key, value) => {
                let shown = with_text(with_quoted(nothing, key), ":");
                with_json(shown, value)
            }
            Instead::Twice(name) => Some(with_text(with_quoted(nothing, name), " twice")),
            Instead::Long(count) => {
                let shown = with_text(nothing, Buffer::new().format(count));
                Some(with_text(shown, " elements"))
            }
        }
    }
}

// Appends a JSON text of a value, if there is memory for it.
#[inline]
fn with_json(shown: Shown, value: &Value) -> Option<Shown>
    // requires printable { ArePrintable (inline_text shown) }
    // requires short { length (inline_text shown) ≤ 60 }
    // ensures text { IfSome result (λ new. (json : List ℕ) × IsJsonOf (view value.now) json
    //     × (inline_text new ≡ front (inline_text shown ++ plain json))) }
    // ensures printable { IfSome result (λ new. ArePrintable (inline_text new)) }
{
    match value.to_string_in() {
        Ok(json) => Some(with_text(shown, json.as_str())),
        Err(_) => None,
    }
}

// Appends a key between quotation marks.
#[inline]
fn with_quoted(shown: Shown, key: &str) -> Shown
    // requires printable { ArePrintable (inline_text shown) }
    // requires short { length (inline_text shown) ≤ 60 }
    // ensures text { inline_text result ≡ front (inline_text shown ++ quoted key.now) }
    // ensures printable { ArePrintable (inline_text result) }
    // ensures short { length (inline_text result) ≤ 60 }
{
    let shown = with_letter(shown, b'"');
    let shown = with_key(shown, key);
    with_letter(shown, b'"')
}

#[inline]
fn with_key(shown: Shown, key: &str) -> Shown
    // requires printable { ArePrintable (inline_text shown) }
    // requires short { length (inline_text shown) ≤ 60 }
    // ensures text { inline_text result
    //     ≡ front (inline_text shown ++ flat_map key_char (chars key.now)) }
    // ensures printable { ArePrintable (inline_text result) }
    // ensures short { length (inline_text result) ≤ 60 }
{
    let mut shown = shown;
    for letter in key.chars() {
        shown = with_key_char(shown, letter);
    }
    shown
}

// Appends a character of a key, after a backslash if it could end the key or begin an escape.
#[inline]
fn with_key_char(shown: Shown, letter: char) -> Shown
    // requires printable { ArePrintable (inline_text shown) }
    // requires short { length (inline_text shown) ≤ 60 }
    // ensures text { inline_text result ≡ front (inline_text shown ++ key_char letter) }
    // ensures printable { ArePrintable (inline_text result) }
    // ensures short { length (inline_text result) ≤ 60 }
{
    match letter {
        '"' => with_text(shown, "\\\""),
        '\\' => with_text(shown, "\\\\"),
        _ => with_char(shown, letter),
    }
}
