// Made of crates/ent_script/src/passing.rt by rust/erase. It isn't edited by hand.

use crate::scripts::number::number;
use crate::kit::programs::json::{Invalid, Reader, Token};

/// Passes over a value that `serde_json` reads. Arrays and objects may nest `depth` deep.
#[inline]
pub(super) fn pass_value(reader: &mut Reader<'_>, depth: usize) -> Result<(), Invalid>
    // ensures value { MatchResult result (λ _. after_value depth reader.old ≡ Some reader.new)
    //     (λ _. after_value depth reader.old ≡ None) }
    // ensures shorter { OnOk result (length reader.new < length reader.old) }
    // ensures no_longer { length reader.new ≤ length reader.old }
{
    let token = reader.next().ok_or(Invalid)?;
    pass_rest(reader, token, depth)
}

/// Passes over the rest of a value, of which this token was taken.
#[inline]
pub(super) fn pass_rest(
    reader: &mut Reader<'_>,
    token: Token<'_>,
    depth: usize,
) -> Result<(), Invalid>
    // ensures value { MatchResult result
    //     (λ _. after_value depth (token_of token.entry ∷ reader.old) ≡ Some reader.new)
    //     (λ _. after_value depth (token_of token.entry ∷ reader.old) ≡ None) }
    // ensures shorter { OnOk result (length reader.new ≤ length reader.old) }
    // ensures no_longer { length reader.new ≤ length reader.old }
{
    match token {
        Token::String(_) | Token::Bool(_) | Token::Null => Ok(()),
        Token::Number(text) => match number(text) {
            Some(_) => Ok(()),
            None => Err(Invalid),
        },
        Token::EndObject | Token::EndArray | Token::Key(_) | Token::Bad => Err(Invalid),
        Token::BeginArray => {
            if depth == 0 {
                return Err(Invalid);
            }
            pass_items(reader, depth - 1)
        }
        Token::BeginObject => {
            if depth == 0 {
                return Err(Invalid);
            }
            pass_members(reader, depth - 1)
        }
    }
}

#[inline]
pub(super) fn pass_items(reader: &mut Reader<'_>, depth: usize) -> Result<(), Invalid>
    // ensures value { MatchResult result (λ _. after_items depth reader.old ≡ Some reader.new)
    //     (λ _. after_items depth reader.old ≡ None) }
    // ensures shorter { OnOk result (length reader.new ≤ length reader.old) }
    // ensures no_longer { length reader.new ≤ length reader.old }
{
    while !reader.take_end_array() {
        pass_value(reader, depth)?;
    }
    Ok(())
}

#[inline]
pub(super) fn pass_members(reader: &mut Reader<'_>, depth: usize) -> Result<(), Invalid>
    // ensures value { MatchResult result (λ _. after_members depth reader.old ≡ Some reader.new)
    //     (λ _. after_members depth reader.old ≡ None) }
    // ensures shorter { OnOk result (length reader.new ≤ length reader.old) }
    // ensures no_longer { length reader.new ≤ length reader.old }
{
    while let Some(_) = reader.next_key()? {
        pass_value(reader, depth)?;
    }
    Ok(())
}
