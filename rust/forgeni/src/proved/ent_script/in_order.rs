// Made of crates/ent_script/src/in_order.rt by rust/erase. It isn't edited by hand.

//! Scripts whose frames come last, as most do. Such a text is read once.
//!
//! An error other than `Memory` says nothing about the text, which is then read twice.

use alloc::vec::Vec;
use crate::kit::programs::string::String;
use crate::scripts::cause::ScriptCause;
use crate::scripts::cutting::read_cut;
use crate::scripts::frames::frames;
use crate::scripts::front::Front;
use crate::scripts::read_fault::ReadFault;
use crate::scripts::reading::{DEPTH, different_names, heading, opens, owned};
use crate::scripts::script::Script;
use crate::scripts::share::Share;
use crate::scripts::sizes::COMPONENTS;
use crate::scripts::streaming::read_elements;
use crate::kit::programs::json::{Reader, Scratch};
use crate::kit::programs::serde_json::{Map, Value};

/// Takes the brace that ends an object, and the end of the text.
#[inline]
fn end(reader: &mut Reader<'_>) -> Result<(), ReadFault>
    // ensures { OnOk result (read_key reader.old ≡ Some (None, [])) }
{
    if reader.next_key()?.is_some() {
        return Err(ReadFault::Json);
    }
    if reader.next().is_some() {
        return Err(ReadFault::Json);
    }
    Ok(())
}

/// The script with this front. Its frames come next, and nothing behind them.
#[inline]
fn script_behind(
    front: Front,
    share: Share,
    reader: &mut Reader<'_>,
    depth: usize,
) -> Result<Script, ReadFault>
    // requires { IfSome front.components (λ values. length values.items ≤ most_components) }
    // ensures { IfOk result (λ script. (ds : Items) × (rest : List SpecToken)
    //     × (converted of_json (value depth reader.old) ≡ Some (array ds, rest))
    //     × (length rest < length reader.old)
    //     × (read_key rest ≡ Some (None, []))
    //     × ((ms : Members) → IsFront front (object ms)
    //     → get_member (codes "frames") ms ≡ Some (array ds)
    //     → script_by share (object ms) ≡ Ok script)) }
{
    let heading = front.heading;
    let values = front.components.ok_or(ScriptCause::Components)?;
    let components = different_names(&values)?;
    let frames = frames(heading.format, &components, share, reader, depth)?;
    end(reader)?;
    let names = owned(components.as_slice())?;
    Ok(Script::new(heading.limits, names, frames))
}

/// The front of an object with these members, emptied, and with an array of frames.
#[inline]
fn front_of(
    found: Map<String, Value>,
    components: Option<Vec<Value>>,
) -> Result<Front, ReadFault>
    // ensures components { IfOk result (λ front. front.components ≡ components) }
    // ensures heading { IfOk result (λ front. (old : Members) (ds : Items)
    //     → members_view found.entries ≡ heads old
    //     → in_script (heading_of (object (put (codes "frames") (array ds) old)))
    //     ≡ Ok front.heading) }
{
    let mut all = found;
    let key = String::from_str("frames")?;
    drop(all.insert(key, Value::Array(Vec::new()))?);
    let value = Value::Object(all);
    let heading = heading(&value)?;
    Ok(Front {
        heading,
        components,
    })
}

/// The script of an object of which the brace was taken, if its frames come last.
#[inline]
fn script_inside(
    share: Share,
    reader: &mut Reader<'_>,
    depth: usize,
) -> Result<Script, ReadFault>
    // ensures { IfOk result (λ script. (ms : Members)
    //     × (converted (λ ms. of_members ms no_members)
    //     (members (value depth) (length reader.old) reader.old) ≡ Some (ms, []))
    //     × (script_by share (object ms) ≡ Ok script)) }
{
    let mut found = Map::new();
    let mut components = None;
    'members: while let Some(name) = reader.next_key()? {
        if name == "frames" {
            let front = front_of(found, components)?;
            return script_behind(front, share, reader, depth);
        }
        let key = String::from_str(name)?;
        if name == "components" {
            components = None;
            components = read_elements(reader, depth, 0, COMPONENTS)?;
            drop(found.insert(key, Value::Null)?);
        } else {
            let member = read_cut(reader, depth, 0)?;
            drop(found.insert(key, member)?);
        }
    }
    Err(ReadFault::Script(ScriptCause::Frames))
}

/// What the workers of a share make of a text, if its frames come last.
#[inline]
pub(super) fn script_in_order(
    text: &str,
    scratch: &mut Scratch,
    share: Share,
) -> Result<Script, ReadFault>
    // ensures { IfOk result (Makes share text.now) }
{
    let mut reader = Reader::new(text, scratch)?;
    if !opens(&mut reader) {
        return Err(ReadFault::Script(ScriptCause::Top));
    }
    script_inside(share, &mut reader, DEPTH - 1)
}
