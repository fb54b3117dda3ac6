// Made of crates/ent_script/src/cutting.rt by rust/erase. It isn't edited by hand.

use alloc::vec::Vec;
use crate::kit::programs::string::String;
use crate::scripts::number::number;
use crate::scripts::passing::pass_rest;
use crate::scripts::read_fault::ReadFault;
use crate::kit::programs::json::{Reader, Token};
use crate::kit::programs::serde_json::{Map, Value};

/// The value that comes next, with its arrays emptied, and so the objects that nest deeper than so
/// many levels.
#[inline]
pub(super) fn read_cut(
    reader: &mut Reader<'_>,
    depth: usize,
    levels: usize,
) -> Result<Value, ReadFault>
    // ensures ok { IfOk result (λ v. (d : Data)
    //     × (converted of_json (value depth reader.old) ≡ Some (d, reader.new))
    //     × (view v ≡ cut levels d)) }
    // ensures shorter { OnOk result (length reader.new < length reader.old) }
    // ensures no_longer { length reader.new ≤ length reader.old }
    // ensures json { result ≡ Err Json → converted of_json (value depth reader.old) ≡ None }
    // ensures kind { IfErr result (λ e. (e ≡ Json) ⊎ (e ≡ Memory)) }
{
    let token = reader.next().ok_or(ReadFault::Json)?;
    match token {
        Token::String(text) => Ok(Value::String(String::from_str(text)?)),
        Token::Number(text) => match number(text) {
            Some(number) => Ok(Value::Number(number)),
            None => Err(ReadFault::Json),
        },
        Token::Bool(b) => Ok(Value::Bool(b)),
        Token::Null => Ok(Value::Null),
        Token::EndObject | Token::EndArray | Token::Key(_) | Token::Bad => Err(ReadFault::Json),
        Token::BeginArray => {
            pass_rest(reader, token, depth)?;
            Ok(Value::Array(Vec::new()))
        }
        Token::BeginObject => {
            if levels == 0 {
                pass_rest(reader, token, depth)?;
                return Ok(Value::Object(Map::new()));
            }
            if depth == 0 {
                return Err(ReadFault::Json);
            }
            Ok(Value::Object(cut_members(reader, depth - 1, levels - 1)?))
        }
    }
}

#[inline]
fn cut_members(
    reader: &mut Reader<'_>,
    depth: usize,
    levels: usize,
) -> Result<Map<String, Value>, ReadFault>
    // ensures ok { IfOk result (λ m. (ms : Members)
    //     × (converted (λ ms. of_members ms no_members)
    //     (members (value depth) (length reader.old) reader.old) ≡ Some (ms, reader.new))
    //     × (members_view m.entries ≡ cut_members levels ms)) }
    // ensures shorter { OnOk result (length reader.new ≤ length reader.old) }
    // ensures no_longer { length reader.new ≤ length reader.old }
    // ensures json { result ≡ Err Json → converted (λ ms. of_members ms no_members)
    //     (members (value depth) (length reader.old) reader.old) ≡ None }
    // ensures kind { IfErr result (λ e. (e ≡ Json) ⊎ (e ≡ Memory)) }
{
    let mut found = Map::new();
    'members: while let Some(name) = reader.next_key()? {
        let key = String::from_str(name)?;
        let member = read_cut(reader, depth, levels)?;
        drop(found.insert(key, member)?);
    }
    Ok(found)
}
