// Made of crates/ent_script/src/leaf.rt by rust/erase. It isn't edited by hand.

use crate::scripts::number::number;
use crate::scripts::passing::pass_rest;
use crate::kit::programs::json::{Invalid, Reader, Token};
use crate::kit::programs::serde_json::Number;

/// A value in an object of an operation. Arrays and objects are emptied.
#[derive(Clone, Copy)]
pub(super) enum Leaf<'a> {
    Null,
    Bool(bool),
    Number(Number),
    Text(&'a str),
    Array,
    Object,
}

impl<'a> Leaf<'a> {
    /// The whole number that it is.
    #[inline]
    pub(super) fn whole(&self) -> Option<i64>
        // ensures { result ≡ whole (leaf_data self.now) }
    {
        match self {
            Leaf::Number(number) => number.as_i64(),
            Leaf::Null | Leaf::Bool(_) | Leaf::Text(_) | Leaf::Array | Leaf::Object => None,
        }
    }

    /// The text of a string.
    #[inline]
    pub(super) fn text(&self) -> Option<&str>
        // ensures { option_map (λ text. text.now) result ≡ as_str (leaf_data self.now) }
    {
        match self {
            Leaf::Text(text) => Some(text),
            Leaf::Null | Leaf::Bool(_) | Leaf::Number(_) | Leaf::Array | Leaf::Object => None,
        }
    }
}

/// The value that comes next, with its arrays and objects emptied.
#[inline]
pub(super) fn read_leaf<'a>(reader: &mut Reader<'a>, depth: usize) -> Result<Leaf<'a>, Invalid>
    // ensures ok { IfOk result (λ leaf. (d : Data)
    //     × (converted of_json (value depth reader.old) ≡ Some (d, reader.new))
    //     × (leaf_data leaf ≡ cut 0 d)) }
    // ensures shorter { OnOk result (length reader.new < length reader.old) }
    // ensures no_longer { length reader.new ≤ length reader.old }
    // ensures refused { OnErr result (converted of_json (value depth reader.old) ≡ None) }
{
    let token = reader.next().ok_or(Invalid)?;
    match token {
        Token::String(text) => Ok(Leaf::Text(text)),
        Token::Number(text) => match number(text) {
            Some(number) => Ok(Leaf::Number(number)),
            None => Err(Invalid),
        },
        Token::Bool(b) => Ok(Leaf::Bool(b)),
        Token::Null => Ok(Leaf::Null),
        Token::EndObject | Token::EndArray | Token::Key(_) | Token::Bad => Err(Invalid),
        Token::BeginArray => {
            pass_rest(reader, token, depth)?;
            Ok(Leaf::Array)
        }
        Token::BeginObject => {
            pass_rest(reader, token, depth)?;
            Ok(Leaf::Object)
        }
    }
}
