// Made of crates/ent_script/src/reading.rt by rust/erase. It isn't edited by hand.

use alloc::vec::Vec;
use crate::kit::programs::string::String;
use crate::kit::vec::FallibleVec;
use crate::scripts::cause::ScriptCause;
use crate::scripts::divided::script_of_share;
use crate::scripts::elements::{are_keys_among, members, name, whole_within};
use crate::scripts::format::Format;
use crate::scripts::frame::Frame;
use crate::scripts::frames::frames;
use crate::scripts::front::Front;
use crate::scripts::heading::Heading;
use crate::scripts::names::Names;
use crate::scripts::passing::pass_value;
use crate::scripts::read_fault::ReadFault;
use crate::scripts::script::Script;
use crate::scripts::share::Share;
use crate::scripts::top::read_top;
use crate::allocator::Limits;
use crate::kit::programs::json::{Reader, Scratch, Token};
use crate::kit::programs::serde_json::Value;
use crate::kit::thread::Join;

/// The whole number in this range that a part is, or this one if the part is absent.
#[inline]
fn number_or(part: Option<&Value>, absent: u32, low: u32, high: u32) -> Option<u32>
    // ensures { result ≡ or_absent absent (whole_of low high)
    //     (option_map (λ v. view v.now) part.entry) }
{
    match part {
        None => Some(absent),
        Some(value) => whole_within(value, low, high),
    }
}

/// The format that a part says. One that is absent is 1.
#[inline]
fn format(part: Option<&Value>) -> Result<Format, ScriptCause>
    // ensures { result ≡ format_of (option_map (λ v. view v.now) part.entry) }
{
    let number = number_or(part, 1, 1, 2).ok_or(ScriptCause::Format)?;
    if number == 1 {
        Ok(Format::One)
    } else {
        Ok(Format::Two)
    }
}

/// The heading, after the tests of all that comes before it.
#[inline]
pub(super) fn heading(value: &Value) -> Result<Heading, ScriptCause>
    // ensures { result ≡ heading_of (view value.now) }
{
    let found = members(value).ok_or(ScriptCause::Top)?;
    let keys = ["format", "slots", "generations", "components", "frames"];
    if !are_keys_among(found, &keys) {
        return Err(ScriptCause::Key);
    }
    let format = format(value.get("format"))?;
    let slots = number_or(value.get("slots"), u32::MAX, 1, u32::MAX).ok_or(ScriptCause::Slots)?;
    let most = (1 << 31) - 1;
    let generations = number_or(value.get("generations"), most, 1, most).ok_or(
        ScriptCause::Generations,
    )?;
    let limits = Limits::new(slots, generations).ok_or(ScriptCause::Slots)?;
    Ok(Heading { format, limits })
}

/// The name that a value is, if it is none of these.
#[inline]
fn new_name<'a>(names: &Names<'_>, value: &'a Value) -> Option<&'a str>
    // ensures { option_map (λ text. text.now) result ≡ new_name names.now (view value.now) }
{
    let text = name(value)?;
    if names.find(text).is_some() {
        None
    } else {
        Some(text)
    }
}

/// The names that all of the values are, no two the same.
#[inline]
pub(super) fn different_names<'a>(
    values: &'a [Value],
) -> Result<Names<'a>, ReadFault>
    // ensures names { ReadsAs result (in_script (numbered (component_at (map view values.now)) 0
    //     (map view values.now))) }
    // ensures few { IfOk result (λ names. length names ≤ length values.now) }
{
    let mut names = Names::new();
    for value in values {
        let text = new_name(&names, value).ok_or(ScriptCause::Components)?;
        names.add(text)?;
    }
    Ok(names)
}

/// The names as texts of their own.
#[inline]
pub(super) fn owned(names: &[&str]) -> Result<Vec<String>, ReadFault>
    // ensures ok { IfOk result (λ texts. map string_bytes texts.items
    //     ≡ map (λ name. name.now) names.now) }
    // ensures err { IfErr result (λ fault. fault ≡ Memory) }
{
    let mut texts = Vec::with_capacity_fallibly(names.len())?;
    for name in names {
        texts.push_fallibly(String::from_str(*name)?)?;
    }
    Ok(texts)
}

/// How deep arrays and objects nest at most.
pub(super) const DEPTH: usize = 127;

/// What a text says before its frames. If the text is no JSON, that is found first.
#[inline]
fn front_in(text: &str, scratch: &mut Scratch) -> Result<Front, ReadFault>
    // ensures front { ReadsFront result text.now }
    // ensures few { IfOk result (λ front. IfSome front.components
    //     (λ values. length values.items ≤ most_components)) }
{
    let mut reader = Reader::new(text, scratch)?;
    let top = read_top(&mut reader, DEPTH)?;
    if reader.next().is_some() {
        return Err(ReadFault::Json);
    }
    let heading = heading(&top.value)?;
    Ok(Front {
        heading,
        components: top.components,
    })
}

/// Takes the brace that begins an object, if one is next.
#[inline]
pub(super) fn opens(reader: &mut Reader<'_>) -> bool
    // ensures { MatchBool result (reader.old ≡ begin_object ∷ reader.new)
    //     (begins_object reader.old ≡ false) }
{
    matches!(reader.next(), Some(Token::BeginObject))
}

#[inline]
fn ran_out(read: &Result<Vec<Frame>, ReadFault>) -> bool
    // ensures { result ≡ ran_out read.now }
{
    matches!(read, Err(ReadFault::Memory))
}

/// The frames of an object of which the brace was taken. Of a key that occurs twice the last
/// counts.
#[inline]
fn frames_inside(
    format: Format,
    components: &Names<'_>,
    reader: &mut Reader<'_>,
    depth: usize,
) -> Result<Vec<Frame>, ReadFault>
    // requires { length components.now ≤ most_components }
    // ensures { (n : ℕ) (ms : Members) (rest : List SpecToken)
    //     → converted (λ ms. of_members ms no_members) (members (value depth) n reader.old)
    //     ≡ Some (ms, rest)
    //     → ReadsList result (frames_of format components.now (get_member (codes "frames") ms)) }
{
    let mut found = Err(ReadFault::Script(ScriptCause::Frames));
    'members: while let Some(key) = reader.next_key()? {
        if key == "frames" {
            found = Err(ReadFault::Script(ScriptCause::Frames));
            found = frames(format, components, Share::all(1), reader, depth);
            if ran_out(&found) {
                return Err(ReadFault::Memory);
            }
        } else {
            pass_value(reader, depth)?;
        }
    }
    found
}

/// The frames of a text with these components, if it is JSON.
#[inline]
fn frames_in(
    format: Format,
    components: &Names<'_>,
    text: &str,
    scratch: &mut Scratch,
) -> Result<Vec<Frame>, ReadFault>
    // requires { length components.now ≤ most_components }
    // ensures { (d : Data) → read text.now ≡ Some d
    //     → ReadsList result (frames_of format components.now (get (codes "frames") d)) }
{
    let mut reader = Reader::new(text, scratch)?;
    if !opens(&mut reader) {
        return Err(ReadFault::Script(ScriptCause::Frames));
    }
    frames_inside(format, components, &mut reader, DEPTH - 1)
}

/// The script that a text with this front means.
#[inline]
fn script_in(
    front: Front,
    text: &str,
    scratch: &mut Scratch,
) -> Result<Script, ReadFault>
    // requires { IfSome front.components (λ values. length values.items ≤ most_components) }
    // ensures { (d : Data) → read text.now ≡ Some d → IsFront front d
    //     → ReadsAs result (script_of d) }
{
    let heading = front.heading;
    let values = front.components.ok_or(ScriptCause::Components)?;
    let components = different_names(&values)?;
    let frames = frames_in(heading.format, &components, text, scratch)?;
    let names = owned(components.as_slice())?;
    Ok(Script::new(heading.limits, names, frames))
}

/// One more worker reads for each so many bytes of a text. To start a thread takes at most a fifth as
/// long as one worker takes to read them.
const WORTH: usize = 131_072;

/// The most workers that read a text. More would hardly be faster, since each passes over all of it.
const MOST: usize = 8;

/// The script that a JSON text means, read by 1 to 64 workers.
///
/// Each worker takes time linear in the text, and logarithmic time for each look-up of a name. If the
/// frames come last, it reads the text once, and passes over the systems of the others. A short text
/// has fewer workers. One worker reads any other text from the start again, twice. Each keeps no more
/// than one operation at a time as a value.
///
/// # Errors
///
/// `Json` if `serde_json` reads no value from the text; `Script`, `Frame`, `System` or `Operation`
/// with the first test that the value fails. `Memory` if memory ran out.
#[inline]
pub(crate) fn read_script<R>(
    rt: &R,
    text: &[u8],
    workers: usize,
) -> Result<Script, ReadFault>
where
    R: Join + Sync,
    // requires some { 0 < workers }
    // requires few { workers ≤ 64 }
    // ensures exact { ReadsAs result (script_of_text text.now) }
    // ensures ranges { IfOk result IsScript }
{
    let Ok(checked) = crate::kit::programs::simdutf8::basic::from_utf8(text) else {
        return Err(ReadFault::Json);
    };
    let readers = (text.len() / WORTH).min(workers.min(MOST) - 1) + 1;
    match script_of_share(rt, checked, Share::all(readers)) {
        Ok(script) => return Ok(script),
        Err(ReadFault::Memory) => return Err(ReadFault::Memory),
        Err(_) => (),
    }
    let mut scratch = Scratch::new();
    let front = front_in(checked, &mut scratch)?;
    script_in(front, checked, &mut scratch)
}
