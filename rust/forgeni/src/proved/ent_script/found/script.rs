// Made of crates/ent_script/src/found/script.rt by rust/erase. It isn't edited by hand.

//! What a text has in place of what a test of scripts expects.

use super::first::{bad_component, unknown_key, unlisted_component, unwhole_member};
use super::instead::Instead;
use super::shown::{Shown, text_shown};
use super::{Found, with, with_number};
use crate::scripts::cause::{Cause, ScriptCause};
use crate::scripts::read_fault::ReadFault;
use crate::kit::programs::serde_json::{Error, Value};
use crate::kit::programs::inline_text::InlineText;

// The longest text that is read once more, in bytes. A value takes up to 173 times its text.
const LONGEST: usize = 65_536;

/// What a text has in place of what a test of scripts expects, and where.
///
/// It is printable ASCII, whatever the text has. A value of more than 60 characters is cut, and
/// ends in three dots.
///
/// It reads the text as JSON once more, so it is for a text that is refused. Of a text of more than
/// 65,536 bytes it has only the place. If memory runs out, it says so in place of the value.
///
/// <details><summary>Contract</summary>
///
/// <code style="display: block; tab-size: 4; white-space: pre-wrap">// In the words of [contracts](crate::contracts):
/// ensures found { TellsOfScript text.now fault (inline_text result) }
/// ensures long { longest_shown \< length text.now → inline_text result ≡ position_text fault }
/// ensures printable { ArePrintable (inline_text result) }
/// </code>
///
/// </details>
#[inline]
pub fn script_found(text: &[u8], fault: ReadFault) -> Found {
    if text.len() > LONGEST {
        return with_position(Found::new(), fault);
    }
    let found = with(Found::new(), "; found ");
    match value_shown(text, fault) {
        Some(shown) => with_position(with(found, shown.as_str()), fault),
        None => with_position(with(found, "what there was no memory to show"), fault),
    }
}

// The front of the value that failed the test, or of the words of the reader of JSON, if there is
// memory for that.
#[inline]
fn value_shown(text: &[u8], fault: ReadFault) -> Option<Shown>
    // ensures shows { IfSome result (λ shown. ShowsValue text.now fault (inline_text shown)) }
    // ensures printable { IfSome result (λ shown. ArePrintable (inline_text shown)) }
{
    match Value::from_slice(text) {
        Ok(script) => instead_of(&script, fault).shown(),
        Err(error) if !error.is_memory() => Some(words_shown(error)),
        Err(_) => None,
    }
}

// The front of the words for an error.
#[inline]
fn words_shown(error: Error) -> Shown
    // ensures text { (words : List ℕ) × (inline_text result ≡ front (plain words)) }
    // ensures printable { ArePrintable (inline_text result) }
{
    let words: InlineText<256> = InlineText::of(error);
    text_shown(words.as_str())
}

// Appends where the test failed.
#[inline]
fn with_position(found: Found, fault: ReadFault) -> Found
    // requires { length (inline_text found) ≤ 68 }
    // ensures text { inline_text result ≡ inline_text found ++ position_text fault }
    // ensures printable { ArePrintable (inline_text found) → ArePrintable (inline_text result) }
{
    match fault {
        ReadFault::Frame { frame } => {
            let found = with_frame(found, frame);
            with(found, " (counted from 0)")
        }
        ReadFault::System { frame, system } => {
            let found = with_system(found, frame, system);
            with(found, " (counted from 0)")
        }
        ReadFault::Operation {
            frame,
            system,
            operation,
            cause: _,
        } => {
            let found = with_operation(found, frame, system, operation);
            with(found, " (counted from 0)")
        }
        ReadFault::Json | ReadFault::Script(_) | ReadFault::Memory => found,
    }
}

// Appends the number of a frame.
#[inline]
fn with_frame(found: Found, frame: usize) -> Found
    // requires { length (inline_text found) ≤ 68 }
    // ensures text { inline_text result
    //     ≡ inline_text found ++ codes " at frame " ++ decimal frame }
    // ensures len { length (inline_text result) ≤ length (inline_text found) + 30 }
    // ensures printable { ArePrintable (inline_text found) → ArePrintable (inline_text result) }
{
    let found = with(found, " at frame ");
    with_number(found, frame)
}

// Appends the numbers of a system and of its frame.
#[inline]
fn with_system(found: Found, frame: usize, system: usize) -> Found
    // requires { length (inline_text found) ≤ 68 }
    // ensures text { inline_text result ≡ inline_text found ++ codes " at frame " ++ decimal frame
    //     ++ codes ", system " ++ decimal system }
    // ensures len { length (inline_text result) ≤ length (inline_text found) + 59 }
    // ensures printable { ArePrintable (inline_text found) → ArePrintable (inline_text result) }
{
    let found = with_frame(found, frame);
    let found = with(found, ", system ");
    with_number(found, system)
}

// Appends the numbers of an operation, of its system and of its frame.
#[inline]
fn with_operation(found: Found, frame: usize, system: usize, operation: usize) -> Found
    // requires { length (inline_text found) ≤ 68 }
    // ensures text { inline_text result ≡ inline_text found ++ codes " at frame " ++ decimal frame
    //     ++ codes ", system " ++ decimal system ++ codes ", operation " ++ decimal operation }
    // ensures len { length (inline_text result) ≤ length (inline_text found) + 91 }
    // ensures printable { ArePrintable (inline_text found) → ArePrintable (inline_text result) }
{
    let found = with_system(found, frame, system);
    let found = with(found, ", operation ");
    with_number(found, operation)
}

// What stands where the test failed.
#[inline]
fn instead_of(script: &Value, fault: ReadFault) -> Instead<'_>
    // ensures { IsPlaceOf (view script.now) fault (place_of result) }
{
    match fault {
        ReadFault::Script(cause) => instead_in_script(script, cause),
        ReadFault::Frame { frame } => Instead::of_list(frame_of(script, frame)),
        ReadFault::System { frame, system } => {
            Instead::of_list(system_of(script, frame, system))
        }
        ReadFault::Operation {
            frame,
            system,
            operation,
            cause,
        } => match operation_of(script, frame, system, operation) {
            Some(operation) => instead_in_operation(script, operation, cause),
            None => Instead::Absent,
        },
        ReadFault::Json | ReadFault::Memory => Instead::Absent,
    }
}

#[inline]
fn frame_of(script: &Value, frame: usize) -> Option<&Value>
    // ensures { option_map (λ v. view v.now) result ≡ frame_in (view script.now) frame }
{
    script.get("frames")?.get(frame)
}

#[inline]
fn system_of(script: &Value, frame: usize, system: usize) -> Option<&Value>
    // ensures { option_map (λ v. view v.now) result ≡ system_in (view script.now) frame system }
{
    frame_of(script, frame)?.get(system)
}

#[inline]
fn operation_of(script: &Value, frame: usize, system: usize, operation: usize) -> Option<&Value>
    // ensures { option_map (λ v. view v.now) result
    //     ≡ operation_in (view script.now) frame system operation }
{
    system_of(script, frame, system)?.get(operation)
}

#[inline]
fn instead_in_script(script: &Value, cause: ScriptCause) -> Instead<'_>
    // ensures { place_of result ≡ script_place (view script.now) cause }
{
    match cause {
        ScriptCause::Top => Instead::Refused(script),
        ScriptCause::Key => unknown_key(script),
        ScriptCause::Format => Instead::of(script.get("format")),
        ScriptCause::Slots => Instead::of(script.get("slots")),
        ScriptCause::Generations => Instead::of(script.get("generations")),
        ScriptCause::Components => bad_component(script.get("components")),
        ScriptCause::Frames => Instead::of_list(script.get("frames")),
    }
}

// What stands where a test of this operation failed.
#[inline]
fn instead_in_operation<'a>(script: &'a Value, operation: &'a Value, cause: Cause) -> Instead<'a>
    // ensures { place_of result
    //     ≡ operation_place (view script.now) (view operation.now) cause }
{
    match cause {
        Cause::Shape => Instead::Refused(operation),
        Cause::Count => Instead::of(operation.get("spawn_many")),
        Cause::Bundle => Instead::of(bundle_of(operation)),
        Cause::Component => unlisted_component(
            script,
            bundle_of(operation),
            operation.get("remove"),
            target_at(operation, "each"),
        ),
        Cause::Value => unwhole_member(bundle_of(operation)),
        Cause::Name => Instead::of(operation.get("as").or(target_at(operation, "name"))),
        Cause::Target => Instead::of(target_of(operation)),
        Cause::Handle => Instead::of(target_at(operation, "handle")),
        Cause::Birth => Instead::of(target_at(operation, "birth")),
    }
}

#[inline]
fn bundle_of(operation: &Value) -> Option<&Value>
    // ensures { option_map (λ v. view v.now) result ≡ bundle_in (view operation.now) }
{
    operation
        .get("spawn")
        .or(operation.get("with"))
        .or(operation.get("insert"))
}

#[inline]
fn target_of(operation: &Value) -> Option<&Value>
    // ensures { option_map (λ v. view v.now) result ≡ target_in (view operation.now) }
{
    operation.get("on").or(operation.get("despawn"))
}

#[inline]
fn target_at<'a>(operation: &'a Value, key: &str) -> Option<&'a Value>
    // ensures { option_map (λ v. view v.now) result ≡ under key.now (view operation.now) }
{
    target_of(operation)?.get(key)
}
