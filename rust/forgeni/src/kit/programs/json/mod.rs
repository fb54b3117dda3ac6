//! A reader of JSON (RFC 8259) that hands out tokens.
//!
//! The contracts are those of the kit's `json/specs`: the tokens are those of the text, in their
//! order, with commas and colons where they have to be, and the first fault is `Bad`, after which
//! none follows. That brackets fit, and how deep they nest, is up to the caller.

mod strings;
mod words;

use crate::kit::alloc::AllocError;
use crate::kit::vec::FallibleVec;
use ::alloc::vec::Vec;
use core::fmt;

/// The text is no JSON of the wanted form.
#[derive(Clone, Copy, Debug, PartialEq, Eq)]
pub struct Invalid;

impl fmt::Display for Invalid {
    fn fmt(&self, f: &mut fmt::Formatter<'_>) -> fmt::Result {
        f.write_str("invalid JSON")
    }
}

impl core::error::Error for Invalid {}

/// What a reader hands out.
#[derive(Clone, Copy, Debug, PartialEq, Eq)]
pub enum Token<'a> {
    BeginObject,
    EndObject,
    BeginArray,
    EndArray,
    /// A string before a colon, without its escapes.
    Key(&'a str),
    /// Another string, without its escapes.
    String(&'a str),
    /// The number's text, which the grammar has.
    Number(&'a str),
    Bool(bool),
    Null,
    /// The text is no JSON from here on.
    Bad,
}

/// Room for strings that have escapes. It is kept from read to read.
pub struct Scratch {
    text: Vec<u8>,
}

impl Scratch {
    /// It doesn't allocate.
    pub fn new() -> Self {
        Scratch { text: Vec::new() }
    }
}

/// What may come next.
#[derive(Clone, Copy, Debug, PartialEq, Eq)]
enum Place {
    /// A value, a key or the bracket that closes.
    Fresh,
    /// A value or a key.
    AfterComma,
    /// The bracket that closes, or the end of the text.
    AfterValue,
    /// Nothing: there was a fault.
    Failed,
}

/// A reader.
pub struct Reader<'a> {
    text: &'a str,
    /// Where the next token begins, or the end of the text.
    at: usize,
    place: Place,
    /// Where strings without their escapes go. If the text has a backslash, there is room for all
    /// of it that is left.
    scratch: &'a mut [u8],
}

impl<'a> Reader<'a> {
    /// The contract: a reader of all tokens of the text, or an `Err` if the scratch can't grow to
    /// the length of the text. A text without a backslash needs no scratch.
    pub fn new(text: &'a str, scratch: &'a mut Scratch) -> Result<Self, AllocError> {
        if scratch.text.len() < text.len() && text.as_bytes().contains(&b'\\') {
            scratch.text.resize_fallibly(text.len(), 0)?;
        }
        let mut reader = Reader {
            text,
            at: 0,
            place: Place::Fresh,
            scratch: &mut scratch.text,
        };
        reader.pass_blanks();
        Ok(reader)
    }

    /// Where the next token begins. After a fault it is where the fault's token begins.
    pub fn offset(&self) -> usize {
        self.at
    }

    /// The contract: the next token is taken.
    #[allow(clippy::should_implement_trait)]
    #[inline]
    pub fn next(&mut self) -> Option<Token<'a>> {
        let byte = words::at(self.text.as_bytes(), self.at);
        match byte {
            b'}' => self.close(Token::EndObject),
            b']' => self.close(Token::EndArray),
            _ if words::is_blank(byte) => self.end(),
            _ if !self.may_begin() => self.refuse(),
            b'"' => self.string(),
            b'{' => self.open(Token::BeginObject),
            b'[' => self.open(Token::BeginArray),
            _ => self.word(byte),
        }
    }

    /// The contract: a key is taken, or the brace that ends an object. If something else is next,
    /// it is an `Err`, and no token follows.
    #[inline]
    pub fn next_key(&mut self) -> Result<Option<&'a str>, Invalid> {
        match self.next().ok_or(Invalid)? {
            Token::Key(key) => Ok(Some(key)),
            Token::EndObject => Ok(None),
            _ => {
                self.place = Place::Failed;
                Err(Invalid)
            }
        }
    }

    /// The contract: the bracket that ends an array is taken, if it is next.
    #[inline]
    pub fn take_end_array(&mut self) -> bool {
        let is_next = words::at(self.text.as_bytes(), self.at) == b']' && self.may_close();
        if is_next {
            self.pass(1);
            self.after_value();
        }
        is_next
    }

    fn may_begin(&self) -> bool {
        matches!(self.place, Place::Fresh | Place::AfterComma)
    }

    fn may_close(&self) -> bool {
        matches!(self.place, Place::Fresh | Place::AfterValue)
    }

    #[inline]
    fn open(&mut self, token: Token<'a>) -> Option<Token<'a>> {
        self.pass(1);
        self.place = Place::Fresh;
        Some(token)
    }

    #[inline]
    fn close(&mut self, token: Token<'a>) -> Option<Token<'a>> {
        if !self.may_close() {
            return self.refuse();
        }
        self.pass(1);
        self.after_value();
        Some(token)
    }

    /// The end of the text.
    fn end(&mut self) -> Option<Token<'a>> {
        if self.may_close() {
            return None;
        }
        self.refuse()
    }

    /// A fault, once.
    #[cold]
    fn refuse(&mut self) -> Option<Token<'a>> {
        let had_failed = self.place == Place::Failed;
        self.place = Place::Failed;
        (!had_failed).then_some(Token::Bad)
    }

    fn string(&mut self) -> Option<Token<'a>> {
        let start = self.at + 1;
        let Some(found) = strings::read(self.text, start, &mut self.scratch) else {
            return self.refuse();
        };
        self.pass(found.end - self.at);
        if words::at(self.text.as_bytes(), self.at) == b':' {
            self.pass(1);
            self.place = Place::Fresh;
            return Some(Token::Key(found.text));
        }
        self.after_value();
        Some(Token::String(found.text))
    }

    /// A number or a literal.
    fn word(&mut self, byte: u8) -> Option<Token<'a>> {
        let (text, at) = (self.text, self.at);
        let (end, token) = match byte {
            b't' => (words::literal_end(text, at, "true"), Token::Bool(true)),
            b'f' => (words::literal_end(text, at, "false"), Token::Bool(false)),
            b'n' => (words::literal_end(text, at, "null"), Token::Null),
            _ => (words::number_end(text.as_bytes(), at), Token::Bad),
        };
        let Some(end) = end.filter(|end| words::ends(text.as_bytes(), *end)) else {
            return self.refuse();
        };
        self.pass(end - at);
        self.after_value();
        Some(match token {
            Token::Bad => Token::Number(&text[at..end]),
            token => token,
        })
    }

    /// Passes the comma that may follow a value.
    #[inline]
    fn after_value(&mut self) {
        self.place = Place::AfterValue;
        if words::at(self.text.as_bytes(), self.at) == b',' {
            self.pass(1);
            self.place = Place::AfterComma;
        }
    }

    /// Passes so many bytes, and the blanks after them.
    #[inline]
    fn pass(&mut self, count: usize) {
        self.at += count;
        self.pass_blanks();
    }

    #[inline]
    fn pass_blanks(&mut self) {
        let bytes = self.text.as_bytes();
        while bytes
            .get(self.at)
            .is_some_and(|byte| words::is_blank(*byte))
        {
            self.at += 1;
        }
    }
}

#[cfg(test)]
mod tests;
