// Made of crates/ent_script/src/streaming.rt by rust/erase. It isn't edited by hand.

use alloc::vec::Vec;
use crate::kit::vec::FallibleVec;
use crate::scripts::cutting::read_cut;
use crate::scripts::passing::{pass_rest, pass_value};
use crate::scripts::read_fault::ReadFault;
use crate::kit::programs::json::{Invalid, Reader, Token};
use crate::kit::programs::serde_json::Value;

/// Takes the bracket that begins an array. A value that is no array is passed over.
#[inline]
pub(super) fn begins_array(reader: &mut Reader<'_>, depth: usize) -> Result<bool, Invalid>
    // ensures value { (d : Data) (rest : List SpecToken)
    //     → converted of_json (value depth reader.old) ≡ Some (d, rest)
    //     → BeginsArray depth result reader.new d rest }
    // ensures passes { MatchResult result
    //     (λ begins. after_value depth reader.old
    //     ≡ (if begins then after_items (depth - 1) reader.new else Some reader.new))
    //     (λ _. after_value depth reader.old ≡ None) }
    // ensures deep { result ≡ Ok true → 0 < depth }
    // ensures shorter { OnOk result (length reader.new < length reader.old) }
    // ensures no_longer { length reader.new ≤ length reader.old }
{
    let token = reader.next().ok_or(Invalid)?;
    if let Token::BeginArray = token {
        if depth == 0 {
            return Err(Invalid);
        }
        return Ok(true);
    }
    pass_rest(reader, token, depth)?;
    Ok(false)
}

/// Takes the brace that begins an object. A value that is no object is passed over.
#[inline]
pub(super) fn begins_object(reader: &mut Reader<'_>, depth: usize) -> Result<bool, Invalid>
    // ensures value { (d : Data) (rest : List SpecToken)
    //     → converted of_json (value depth reader.old) ≡ Some (d, rest)
    //     → BeginsObject depth result reader.new d rest }
    // ensures passes { result ≡ Ok true
    //     → after_value depth reader.old ≡ after_members (depth - 1) reader.new }
    // ensures deep { result ≡ Ok true → 0 < depth }
    // ensures shorter { OnOk result (length reader.new < length reader.old) }
    // ensures no_longer { length reader.new ≤ length reader.old }
{
    let token = reader.next().ok_or(Invalid)?;
    if let Token::BeginObject = token {
        if depth == 0 {
            return Err(Invalid);
        }
        return Ok(true);
    }
    pass_rest(reader, token, depth)?;
    Ok(false)
}

/// Passes over the rest of an array. Whether at most so many elements came.
#[inline]
pub(super) fn passes_at_most(
    reader: &mut Reader<'_>,
    depth: usize,
    most: usize,
) -> Result<bool, Invalid>
    // ensures value { (n : ℕ) (ds : Items) (rest : List SpecToken)
    //     → converted of_items (items (value depth) n reader.old) ≡ Some (ds, rest)
    //     → PassesAtMost most result reader.new ds rest }
    // ensures passes { (n : ℕ) → length reader.old ≤ n → MatchResult result
    //     (λ _. left (converted of_items (items (value depth) n reader.old)) ≡ Some reader.new)
    //     (λ _. left (converted of_items (items (value depth) n reader.old)) ≡ None) }
    // ensures shorter { OnOk result (length reader.new ≤ length reader.old) }
    // ensures no_longer { length reader.new ≤ length reader.old }
{
    let mut fits = true;
    let mut room = most;
    while !reader.take_end_array() {
        pass_value(reader, depth)?;
        if room == 0 {
            fits = false;
        } else {
            room -= 1;
        }
    }
    Ok(fits)
}

/// What is wrong with an array, of which an element has this fault, and at most so many elements
/// may follow. Running out of memory is no fault of the array, and decides at once.
#[inline]
pub(super) fn fault_of_array(
    reader: &mut Reader<'_>,
    depth: usize,
    most: usize,
    fault: ReadFault,
    too_many: ReadFault,
) -> ReadFault
    // ensures memory { fault ≡ Memory → result ≡ Memory }
    // ensures value { fault ≢ Memory → (n : ℕ) (ds : Items) (rest : List SpecToken)
    //     → converted of_items (items (value depth) n reader.old) ≡ Some (ds, rest)
    //     → FaultOfArray most fault too_many result reader.new ds rest }
    // ensures no_longer { length reader.new ≤ length reader.old }
{
    if fault == ReadFault::Memory {
        return fault;
    }
    match passes_at_most(reader, depth, most) {
        Ok(true) => fault,
        Ok(false) => too_many,
        Err(Invalid) => ReadFault::Json,
    }
}

/// The elements of an array of at most so many, each cut at so many levels.
#[inline]
pub(super) fn read_elements(
    reader: &mut Reader<'_>,
    depth: usize,
    levels: usize,
    most: usize,
) -> Result<Option<Vec<Value>>, ReadFault>
    // ensures value { (d : Data) (rest : List SpecToken)
    //     → converted of_json (value depth reader.old) ≡ Some (d, rest)
    //     → ReadsElements levels most result reader.new d rest }
    // ensures passes { Passes result reader.new (after_value depth reader.old) }
    // ensures few { IfOk result (λ found. IfSome found (λ values. length values.items ≤ most)) }
    // ensures kind { IfErr result (λ e. (e ≡ Json) ⊎ (e ≡ Memory)) }
    // ensures shorter { OnOk result (length reader.new < length reader.old) }
    // ensures no_longer { length reader.new ≤ length reader.old }
{
    if !begins_array(reader, depth)? {
        return Ok(None);
    }
    elements_cut(reader, depth - 1, levels, most)
}

#[inline]
fn elements_cut(
    reader: &mut Reader<'_>,
    depth: usize,
    levels: usize,
    most: usize,
) -> Result<Option<Vec<Value>>, ReadFault>
    // ensures value { (n : ℕ) (ds : Items) (rest : List SpecToken)
    //     → converted of_items (items (value depth) n reader.old) ≡ Some (ds, rest)
    //     → ReadsElements levels most result reader.new (array ds) rest }
    // ensures passes { (n : ℕ) → length reader.old ≤ n → Passes result reader.new
    //     (left (converted of_items (items (value depth) n reader.old))) }
    // ensures few { IfOk result (λ found. IfSome found (λ values. length values.items ≤ most)) }
    // ensures kind { IfErr result (λ e. (e ≡ Json) ⊎ (e ≡ Memory)) }
    // ensures shorter { OnOk result (length reader.new ≤ length reader.old) }
    // ensures no_longer { length reader.new ≤ length reader.old }
{
    let mut found = Vec::new();
    'elements: while !reader.take_end_array() {
        if found.len() == most {
            passes_at_most(reader, depth, 0)?;
            return Ok(None);
        }
        found.push_fallibly(read_cut(reader, depth, levels)?)?;
    }
    Ok(Some(found))
}
