// Made of crates/ent_script/src/top.rt by rust/erase. It isn't edited by hand.

use alloc::vec::Vec;
use crate::kit::programs::string::String;
use crate::scripts::cutting::read_cut;
use crate::scripts::passing::pass_rest;
use crate::scripts::read_fault::ReadFault;
use crate::scripts::sizes::COMPONENTS;
use crate::scripts::streaming::read_elements;
use crate::kit::programs::json::{Reader, Token};
use crate::kit::programs::serde_json::{Map, Value};

/// What the first pass over a text keeps.
pub(super) struct Top {
    /// The value of the text, with what its heading depends on.
    pub(super) value: Value,
    /// The elements of `components`, each cut, if they are an array of at most 256.
    pub(super) components: Option<Vec<Value>>,
}

/// The top of the value that comes next.
#[inline]
pub(super) fn read_top(
    reader: &mut Reader<'_>,
    depth: usize,
) -> Result<Top, ReadFault>
    // ensures ok { IfOk result (λ top. (d : Data)
    //     × (converted of_json (value depth reader.old) ≡ Some (d, reader.new))
    //     × (heading_of (view top.value) ≡ heading_of d)
    //     × (option_map (λ vs. map view vs.items) top.components
    //     ≡ option_map (map (cut 0)) (option_and_then (at_most most_components) (get (codes "components") d)))) }
    // ensures few { IfOk result (λ top. IfSome top.components (λ vs. length vs.items ≤ most_components)) }
    // ensures json { result ≡ Err Json → converted of_json (value depth reader.old) ≡ None }
    // ensures kind { IfErr result (λ e. (e ≡ Json) ⊎ (e ≡ Memory)) }
{
    let token = reader.next().ok_or(ReadFault::Json)?;
    if let Token::BeginObject = token {
        if depth == 0 {
            return Err(ReadFault::Json);
        }
        return read_members(reader, depth - 1);
    }
    pass_rest(reader, token, depth)?;
    Ok(Top {
        value: Value::Null,
        components: None,
    })
}

/// The top of an object, of which the brace was taken. Of a key that occurs twice the last counts.
#[inline]
fn read_members(reader: &mut Reader<'_>, depth: usize) -> Result<Top, ReadFault>
    // ensures ok { IfOk result (λ top. (ms : Members)
    //     × (converted (λ ms. of_members ms no_members)
    //     (members (value depth) (length reader.old) reader.old) ≡ Some (ms, reader.new))
    //     × (view top.value ≡ object (heads ms))
    //     × (option_map (λ vs. map view vs.items) top.components
    //     ≡ option_map (map (cut 0))
    //     (option_and_then (at_most most_components) (get_member (codes "components") ms)))) }
    // ensures few { IfOk result (λ top. IfSome top.components (λ vs. length vs.items ≤ most_components)) }
    // ensures json { result ≡ Err Json → converted (λ ms. of_members ms no_members)
    //     (members (value depth) (length reader.old) reader.old) ≡ None }
    // ensures kind { IfErr result (λ e. (e ≡ Json) ⊎ (e ≡ Memory)) }
{
    let mut found = Map::new();
    let mut components = None;
    'members: while let Some(name) = reader.next_key()? {
        let key = String::from_str(name)?;
        if name == "components" {
            components = None;
            components = read_elements(reader, depth, 0, COMPONENTS)?;
            drop(found.insert(key, Value::Null)?);
        } else {
            let member = read_cut(reader, depth, 0)?;
            drop(found.insert(key, member)?);
        }
    }
    Ok(Top {
        value: Value::Object(found),
        components,
    })
}
