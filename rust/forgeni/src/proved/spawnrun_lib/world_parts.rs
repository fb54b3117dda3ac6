// Made of crates/spawnrun_lib/src/world_parts.rt by rust/erase. It isn't edited by hand.

//! The text of a world that several workers write side by side: each writes the lines of some of
//! the entities.

use alloc::vec::Vec;
use crate::kit::programs::string::String;
use crate::kit::vec::FallibleVec;
use crate::spawnrun_lib::labels::Labels;
use crate::spawnrun_lib::show::Show;
use crate::spawnrun_lib::text::Text;
use crate::spawnrun_lib::world_text::{append_alive, append_entities, write_world};
use crate::handles::{Handle, OutOfMemory};
use crate::worlds::World;
use crate::kit::thread::{Join, join_mut};

/// One more worker writes for each so many lines. To start a thread takes as long as to write half
/// of them, or less.
const WORTH: usize = 8192;

/// The text, and behind it that of a world, which so many workers write. One worker writes the lines
/// of few entities.
///
/// # Errors
///
/// `Memory` if memory ran out.
#[inline]
pub(super) fn with_world<R>(
    rt: &R,
    text: Vec<u8>,
    world: &World,
    names: &[String],
    show: Show,
    workers: usize,
) -> Result<Text, OutOfMemory>
where
    R: Join + Sync,
    // requires some { 0 < workers }
    // ensures { IfOk result (λ all. (own : List ℕ)
    //     × IsWorldText (map string_bytes names.now) show world.now.entities own
    //     × (all ≡ text.items ++ own)) }
{
    let writers = (world.len() / WORTH).min(workers - 1) + 1;
    if writers == 1 {
        let mut text = text;
        write_world(world, names, show, &mut text)?;
        return Text::one(text);
    }
    let mut parts = empty_texts(writers)?;
    write_entities(rt, world, names, show, &mut parts)?;
    let mut last = Vec::new();
    append_alive(&mut last, world.len())?;
    parts.push_fallibly(last)?;
    parts.insert_fallibly(0, text)?;
    Ok(Text::of(parts))
}

/// So many texts without a byte.
#[inline]
fn empty_texts(count: usize) -> Result<Vec<Vec<u8>>, OutOfMemory>
    // ensures { IfOk result (λ texts. vec_len texts ≡ count) }
{
    let mut texts = Vec::with_capacity_fallibly(count)?;
    for _ in 0..count {
        texts.push_fallibly(Vec::new())?;
    }
    Ok(texts)
}

/// Makes the parts the lines of all entities, with one worker for each part.
#[inline]
fn write_entities<R>(
    rt: &R,
    world: &World,
    names: &[String],
    show: Show,
    parts: &mut [Vec<u8>],
) -> Result<(), OutOfMemory>
where
    R: Join + Sync,
    // requires some { 0 < length parts.old }
    // ensures { OnOk result ((handles : List Handle) × ListsAll world.now.entities handles
    //     × (joined parts.new ≡ flat_map (line_in (map string_bytes names.now) show world.now.entities)
    //     handles)) }
{
    let handles = world.by_birth()?;
    let labels = Labels::of(names);
    write_lines(rt, names, &labels, show, world, &handles, parts)
}

/// Makes the parts the lines of these entities, with one worker for each part.
#[inline]
fn write_lines<R>(
    rt: &R,
    names: &[String],
    labels: &Labels,
    show: Show,
    world: &World,
    handles: &[Handle],
    parts: &mut [Vec<u8>],
) -> Result<(), OutOfMemory>
where
    R: Join + Sync,
    // requires labels { AreLabels (map string_bytes names.now) labels.now.pieces }
    // requires some { 0 < length parts.old }
    // ensures { OnOk result (joined parts.new
    //     ≡ flat_map (line_in (map string_bytes names.now) show world.now.entities) handles.now) }
{
    if parts.len() == 1 {
        // Threads that append to lists beside one another would wait for the same line of cache.
        let mut text = Vec::new();
        append_entities(&mut text, names, labels, show, world, handles)?;
        parts[0] = text;
        return Ok(());
    }
    let middle = parts.len() / 2;
    let (first, second) = handles.split_at(handles.len() / parts.len() * middle);
    let (front, back) = parts.split_at_mut(middle);
    let (one, other) = write_both(
        rt, names, labels, show, world, first, front, second, back,
    );
    one?;
    other
}

/// Makes the parts in front the lines of the first entities, and side by side those behind the lines
/// of the others.
#[inline]
fn write_both<R>(
    rt: &R,
    names: &[String],
    labels: &Labels,
    show: Show,
    world: &World,
    first: &[Handle],
    front: &mut [Vec<u8>],
    second: &[Handle],
    back: &mut [Vec<u8>],
) -> (Result<(), OutOfMemory>, Result<(), OutOfMemory>)
where
    R: Join + Sync,
    // requires labels { AreLabels (map string_bytes names.now) labels.now.pieces }
    // requires some_front { 0 < length front.old }
    // requires some_back { 0 < length back.old }
    // ensures front { OnOk result.0 (joined front.new
    //     ≡ flat_map (line_in (map string_bytes names.now) show world.now.entities) first.now) }
    // ensures back { OnOk result.1 (joined back.new
    //     ≡ flat_map (line_in (map string_bytes names.now) show world.now.entities) second.now) }
{
    let mut one = || -> Result<(), OutOfMemory>
        // requires { IsSync R.row × AreLabels (map string_bytes names.now) labels.now.pieces
        //     × (0 < length front.now) }
        // ensures { OnOk result (joined front.exit.now
        //     ≡ flat_map (line_in (map string_bytes names.entry.now) show world.entry.now.entities)
        //     first.entry.now) }
    { write_lines(rt, names, labels, show, world, first, front) };
    let mut other = || -> Result<(), OutOfMemory>
        // requires { IsSync R.row × AreLabels (map string_bytes names.now) labels.now.pieces
        //     × (0 < length back.now) }
        // ensures { OnOk result (joined back.exit.now
        //     ≡ flat_map (line_in (map string_bytes names.entry.now) show world.entry.now.entities)
        //     second.entry.now) }
    { write_lines(rt, names, labels, show, world, second, back) };
    join_mut(rt, &mut one, &mut other)
}
