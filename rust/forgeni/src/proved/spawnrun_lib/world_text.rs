// Made of crates/spawnrun_lib/src/world_text.rt by rust/erase. It isn't edited by hand.

use alloc::vec::Vec;
use crate::kit::programs::string::String;
use crate::spawnrun_lib::bytes::{append, append_labelled, append_shown};
use crate::spawnrun_lib::head::Head;
use crate::spawnrun_lib::labels::Labels;
use crate::spawnrun_lib::show::Show;
use crate::handles::{Birth, Handle, OutOfMemory};
use crate::components::Items;
use crate::worlds::World;

/// Appends a birth, and leaves the head of its line.
#[inline]
fn append_birth(out: &mut Vec<u8>, birth: Birth, head: &mut Head) -> Result<(), OutOfMemory>
    // requires { IsHead head.old }
    // ensures head { IsHead head.new }
    // ensures ok { OnOk result (out.new.items ≡ out.old.items ++ birth_text birth) }
    // ensures kept { OnErr result (take (vec_len out.old) out.new.items ≡ out.old.items) }
    // ensures full { OnErr result (vec_capacity out.old
    //     < vec_len out.old + length (birth_text birth)) }
    // ensures capacity { vec_capacity out.old ≤ vec_capacity out.new }
{
    head.turn_to(birth);
    head.text().append_to(out)
}

#[inline]
fn append_items(
    out: &mut Vec<u8>,
    names: &[String],
    labels: &Labels,
    items: Items<'_>,
) -> Result<(), OutOfMemory>
    // requires { AreLabels (map string_bytes names.now) labels.now.pieces }
    // ensures ok { OnOk result (out.new.items
    //     ≡ out.old.items ++ flat_map (item_text (map string_bytes names.now)) items.entry) }
    // ensures kept { OnErr result (take (vec_len out.old) out.new.items ≡ out.old.items) }
    // ensures full { OnErr result (vec_capacity out.old < vec_len out.old + length
    //     (flat_map (item_text (map string_bytes names.now)) items.entry)) }
    // ensures capacity { vec_capacity out.old ≤ vec_capacity out.new }
{
    for item in items {
        labels.append(out, names, item)?;
    }
    Ok(())
}

#[inline]
fn append_line(
    out: &mut Vec<u8>,
    names: &[String],
    labels: &Labels,
    show: Show,
    named: (Handle, Birth),
    items: Items<'_>,
    head: &mut Head,
) -> Result<(), OutOfMemory>
    // requires labels { AreLabels (map string_bytes names.now) labels.now.pieces }
    // requires head { IsHead head.old }
    // ensures head { IsHead head.new }
    // ensures ok { OnOk result (out.new.items
    //     ≡ out.old.items ++ entity_line (map string_bytes names.now) show named.0 named.1
    //     items.entry) }
    // ensures kept { OnErr result (take (vec_len out.old) out.new.items ≡ out.old.items) }
    // ensures full { OnErr result (vec_capacity out.old < vec_len out.old + length
    //     (entity_line (map string_bytes names.now) show named.0 named.1 items.entry)) }
    // ensures capacity { vec_capacity out.old ≤ vec_capacity out.new }
{
    let (handle, birth) = named;
    append_birth(out, birth, head)?;
    append_shown(out, show, handle)?;
    append_items(out, names, labels, items)?;
    append(out, b"\n")
}

/// Appends the line of an entity, if it is alive.
#[inline]
fn append_entity(
    out: &mut Vec<u8>,
    names: &[String],
    labels: &Labels,
    show: Show,
    world: &World,
    handle: Handle,
    head: &mut Head,
) -> Result<(), OutOfMemory>
    // requires labels { AreLabels (map string_bytes names.now) labels.now.pieces }
    // requires head { IsHead head.old }
    // ensures head { IsHead head.new }
    // ensures ok { OnOk result (out.new.items
    //     ≡ out.old.items ++ line_in (map string_bytes names.now) show world.now.entities handle) }
    // ensures kept { OnErr result (take (vec_len out.old) out.new.items ≡ out.old.items) }
    // ensures full { OnErr result (vec_capacity out.old < vec_len out.old + length
    //     (line_in (map string_bytes names.now) show world.now.entities handle)) }
    // ensures capacity { vec_capacity out.old ≤ vec_capacity out.new }
{
    let Some(birth) = world.birth(handle) else {
        return Ok(());
    };
    let Some(items) = world.items(handle) else {
        return Ok(());
    };
    append_line(out, names, labels, show, (handle, birth), items, head)
}

#[inline]
pub(super) fn append_entities(
    out: &mut Vec<u8>,
    names: &[String],
    labels: &Labels,
    show: Show,
    world: &World,
    handles: &[Handle],
) -> Result<(), OutOfMemory>
    // requires { AreLabels (map string_bytes names.now) labels.now.pieces }
    // ensures ok { OnOk result (out.new.items ≡ out.old.items
    //     ++ flat_map (line_in (map string_bytes names.now) show world.now.entities) handles.now) }
    // ensures kept { OnErr result (take (vec_len out.old) out.new.items ≡ out.old.items) }
    // ensures full { OnErr result (vec_capacity out.old < vec_len out.old + length
    //     (flat_map (line_in (map string_bytes names.now) show world.now.entities) handles.now)) }
    // ensures capacity { vec_capacity out.old ≤ vec_capacity out.new }
{
    let mut head = Head::of(Birth {
        frame: 0,
        system: 0,
        ordinal: 0,
    });
    for handle in handles {
        append_entity(out, names, labels, show, world, *handle, &mut head)?;
    }
    Ok(())
}

#[inline]
pub(super) fn append_alive(out: &mut Vec<u8>, count: usize) -> Result<(), OutOfMemory>
    // ensures ok { OnOk result (out.new.items ≡ out.old.items ++ alive_line count) }
    // ensures kept { OnErr result (take (vec_len out.old) out.new.items ≡ out.old.items) }
    // ensures full { OnErr result (vec_capacity out.old
    //     < vec_len out.old + length (alive_line count)) }
    // ensures capacity { vec_capacity out.old ≤ vec_capacity out.new }
{
    append_labelled(out, b"alive ", count)?;
    append(out, b"\n")
}

#[inline]
fn append_world(
    out: &mut Vec<u8>,
    world: &World,
    names: &[String],
    show: Show,
) -> Result<(), OutOfMemory>
    // ensures ok { OnOk result ((text : List ℕ)
    //     × IsWorldText (map string_bytes names.now) show world.now.entities text
    //     × (out.new.items ≡ out.old.items ++ text)) }
    // ensures kept { OnErr result (take (vec_len out.old) out.new.items ≡ out.old.items) }
    // ensures full { (text : List ℕ)
    //     → IsWorldText (map string_bytes names.now) show world.now.entities text
    //     → OnErr result ((world.now.entities ≢ finite.empty)
    //     ⊎ (vec_capacity out.old < vec_len out.old + length text)) }
    // ensures capacity { vec_capacity out.old ≤ vec_capacity out.new }
{
    let handles = world.by_birth()?;
    let labels = Labels::of(names);
    append_entities(out, names, &labels, show, world, &handles)?;
    append_alive(out, world.len())
}

/// Appends the text of a world: a line for each living entity in the order of births, as
/// `0.1.0 1v1 hp=7`, and then how many there are, as `alive 2`.
///
/// `names` has the name of each component at the index of its number. A component without a name
/// there is written as if its name were empty.
///
/// Beside the sort of the entities by birth, it takes time linear in what it appends.
///
/// # Errors
///
/// `Memory` if there isn't enough memory for the list of the entities, or no room for all of the
/// text. `out` keeps its items then. It is never returned if no entity lives and `out` has room for
/// the text.
///
/// <details><summary>Contract</summary>
///
/// <code style="display: block; tab-size: 4; white-space: pre-wrap">// In the words of [contracts](crate::contracts):
/// ensures ok { OnOk result ((text : List ℕ)
/// &#9;× IsWorldText (map string_bytes names.now) show world.now.entities text
/// &#9;× (out.new.items ≡ out.old.items ++ text)) }
/// // There is no other such text.
/// ensures only { OnOk result ((text : List ℕ)
/// &#9;→ IsWorldText (map string_bytes names.now) show world.now.entities text
/// &#9;→ out.new.items ≡ out.old.items ++ text) }
/// ensures err { OnErr result (out.new.items ≡ out.old.items) }
/// &#32;
/// // Memory runs out only for the list of somebody, or for a text that lacks room.
/// ensures full { (text : List ℕ)
/// &#9;→ IsWorldText (map string_bytes names.now) show world.now.entities text
/// &#9;→ OnErr result ((world.now.entities ≢ finite.empty)
/// &#9;⊎ (vec_capacity out.old \< vec_len out.old + length text)) }
/// ensures capacity { vec_capacity out.old ≤ vec_capacity out.new }
/// </code>
///
/// </details>
#[inline]
pub fn write_world(
    world: &World,
    names: &[String],
    show: Show,
    out: &mut Vec<u8>,
) -> Result<(), OutOfMemory> {
    let len = out.len();
    let written = append_world(out, world, names, show);
    if written.is_err() {
        out.truncate(len);
    }
    written
}
