// Made of crates/spawnrun_lib/src/labels.rt by rust/erase. It isn't edited by hand.

//! Writes a component as ` name=value`.

use alloc::vec::Vec;
use crate::kit::programs::string::String;
use crate::spawnrun_lib::bytes::{append, append_labelled};
use crate::spawnrun_lib::piece::Piece;
use crate::handles::{ComponentId, OutOfMemory};

/// The number of a component is one of so many.
const COMPONENTS: usize = 256;

/// The longest name that has a label.
const LONGEST_NAME: usize = 46;

/// For each component the text before its value: a space, the name and `=`.
pub(super) struct Labels {
    pieces: [Piece; COMPONENTS],
}

impl Labels {
    /// The labels of the components with these names.
    #[inline]
    pub(super) fn of(names: &[String]) -> Self
        // ensures { AreLabels (map string_bytes names.now) result.pieces }
    {
        let mut pieces = [Piece::new(); COMPONENTS];
        let count = names.len().min(COMPONENTS);
        let mut place = 0;
        while place < count {
            pieces[place] = label(names[place].as_bytes());
            place += 1;
        }
        Labels { pieces }
    }

    /// Appends a component and its value.
    #[inline(always)]
    pub(super) fn append(
        &self,
        out: &mut Vec<u8>,
        names: &[String],
        item: (ComponentId, i64),
    ) -> Result<(), OutOfMemory>
        // requires { AreLabels (map string_bytes names.now) self.now.pieces }
        // ensures ok { OnOk result (out.new.items
        //     ≡ out.old.items ++ item_text (map string_bytes names.now) item) }
        // ensures kept { OnErr result (take (vec_len out.old) out.new.items ≡ out.old.items) }
        // ensures full { OnErr result (vec_capacity out.old
        //     < vec_len out.old + length (item_text (map string_bytes names.now) item)) }
        // ensures capacity { vec_capacity out.old ≤ vec_capacity out.new }
    {
        let (id, value) = item;
        let label = &self.pieces[id.0 as usize];
        if !label.is_empty() {
            return label.append_value(out, value);
        }
        append_name(out, names, id)?;
        append_labelled(out, b"=", value)
    }
}

/// A space, the name and `=`, or nothing if the name is too long.
#[inline]
fn label(name: &[u8]) -> Piece
    // ensures { IsLabel name.now result }
{
    let mut label = Piece::new();
    if name.len() > LONGEST_NAME {
        return label;
    }
    label.put(b" ");
    label.put(name);
    label.put(b"=");
    label
}

/// Appends a space and the name of a component, if it has one.
#[inline]
fn append_name(out: &mut Vec<u8>, names: &[String], id: ComponentId) -> Result<(), OutOfMemory>
    // ensures ok { OnOk result (out.new.items
    //     ≡ out.old.items ++ codes " " ++ component_name (map string_bytes names.now) id) }
    // ensures kept { OnErr result (take (vec_len out.old) out.new.items ≡ out.old.items) }
    // ensures full { OnErr result (vec_capacity out.old
    //     < vec_len out.old + length (codes " " ++ component_name (map string_bytes names.now) id)) }
    // ensures capacity { vec_capacity out.old ≤ vec_capacity out.new }
{
    append(out, b" ")?;
    match names.get(id.0 as usize) {
        Some(name) => append(out, name.as_bytes()),
        None => Ok(()),
    }
}
