// Made of crates/ent_script/src/part.rt by rust/erase. It isn't edited by hand.

use crate::scripts::leaf::read_leaf;
use crate::scripts::names::is_name;
use crate::scripts::number::number;
use crate::scripts::object::Object;
use crate::scripts::passing::pass_rest;
use crate::scripts::read_fault::ReadFault;
use crate::kit::programs::json::{Reader, Token};
use crate::kit::programs::serde_json::Number;

/// What is under a key of an operation, with its arrays emptied, and the objects in it.
pub(super) enum Part<'a> {
    Null,
    Bool(bool),
    Number(Number),
    Text(&'a str),
    Array,
    Object(Object<'a>),
}

impl<'a> Part<'a> {
    /// The members of an object.
    #[inline]
    pub(super) fn members(&self) -> Option<&Object<'a>>
        // ensures { option_map (λ o. pairs_of (members_of o.now)) result
        //     ≡ members_in (data_of self.now) }
    {
        match self {
            Part::Object(members) => Some(members),
            Part::Null | Part::Bool(_) | Part::Number(_) | Part::Text(_) | Part::Array => None,
        }
    }

    /// The text of a string.
    #[inline]
    pub(super) fn text(&self) -> Option<&'a str>
        // ensures { option_map (λ text. text.now) result ≡ as_str (data_of self.now) }
    {
        match self {
            Part::Text(text) => Some(text),
            Part::Null | Part::Bool(_) | Part::Number(_) | Part::Array | Part::Object(_) => None,
        }
    }

    /// The name that it is.
    #[inline]
    pub(super) fn name(&self) -> Option<&'a str>
        // ensures { option_map (λ text. text.now) result ≡ as_name (data_of self.now) }
    {
        let text = self.text()?;
        if is_name(text) { Some(text) } else { None }
    }

    /// The whole number that it is.
    #[inline]
    fn whole(&self) -> Option<i64>
        // ensures { result ≡ whole (data_of self.now) }
    {
        match self {
            Part::Number(number) => number.as_i64(),
            Part::Null | Part::Bool(_) | Part::Text(_) | Part::Array | Part::Object(_) => None,
        }
    }

    /// The whole number up to this one that it is.
    #[inline]
    pub(super) fn at_most(&self, high: u32) -> Option<u32>
        // ensures { result ≡ whole_within 0 high (data_of self.now) }
    {
        let number = self.whole()?;
        if 0 <= number && number <= high as i64 {
            Some(number as u32)
        } else {
            None
        }
    }
}

/// The part that comes next, with its arrays emptied, and the objects in it.
#[inline]
pub(super) fn read_part<'a>(
    reader: &mut Reader<'a>,
    depth: usize,
) -> Result<Part<'a>, ReadFault>
    // ensures ok { IfOk result (λ p. (d : Data)
    //     × (converted of_json (value depth reader.old) ≡ Some (d, reader.new))
    //     × (data_of p ≡ cut 1 d)) }
    // ensures shorter { OnOk result (length reader.new < length reader.old) }
    // ensures no_longer { length reader.new ≤ length reader.old }
    // ensures json { result ≡ Err Json → converted of_json (value depth reader.old) ≡ None }
    // ensures kind { IfErr result (λ e. (e ≡ Json) ⊎ (e ≡ Memory)) }
{
    let token = reader.next().ok_or(ReadFault::Json)?;
    match token {
        Token::String(text) => Ok(Part::Text(text)),
        Token::Number(text) => match number(text) {
            Some(number) => Ok(Part::Number(number)),
            None => Err(ReadFault::Json),
        },
        Token::Bool(b) => Ok(Part::Bool(b)),
        Token::Null => Ok(Part::Null),
        Token::EndObject | Token::EndArray | Token::Key(_) | Token::Bad => Err(ReadFault::Json),
        Token::BeginArray => {
            pass_rest(reader, token, depth)?;
            Ok(Part::Array)
        }
        Token::BeginObject => {
            if depth == 0 {
                return Err(ReadFault::Json);
            }
            Ok(Part::Object(read_object(reader, depth - 1)?))
        }
    }
}

/// The members of an object, of which the brace was taken.
#[inline]
fn read_object<'a>(
    reader: &mut Reader<'a>,
    depth: usize,
) -> Result<Object<'a>, ReadFault>
    // ensures ok { IfOk result (λ o. (ms : Members)
    //     × (converted (λ ms. of_members ms no_members)
    //     (members (value depth) (length reader.old) reader.old) ≡ Some (ms, reader.new))
    //     × (members_of o ≡ cut_members 0 ms)) }
    // ensures shorter { OnOk result (length reader.new ≤ length reader.old) }
    // ensures no_longer { length reader.new ≤ length reader.old }
    // ensures json { result ≡ Err Json → converted (λ ms. of_members ms no_members)
    //     (members (value depth) (length reader.old) reader.old) ≡ None }
    // ensures kind { IfErr result (λ e. (e ≡ Json) ⊎ (e ≡ Memory)) }
{
    let mut found = Object::Empty;
    'members: while let Some(name) = reader.next_key()? {
        let leaf = read_leaf(reader, depth)?;
        found = found.with(name, leaf)?;
    }
    Ok(found)
}
