// Made of crates/spawnrun_lib/src/wants.rt by rust/erase. It isn't edited by hand.

use crate::traces::Cause as LineCause;
use crate::scripts::{Cause, ReadFault, ScriptCause};

/// What the size of an input has to be.
#[inline]
pub(super) fn size_wants() -> &'static str
    // ensures { result.now ≡ size_wants }
{
    "the input must have at most 67108864 bytes"
}

/// What a line of a schedule has to be: the demand that a line refused for this cause fails.
#[inline]
pub(super) fn line_wants(cause: LineCause) -> &'static str
    // ensures { result.now ≡ line_wants cause }
{
    match cause {
        LineCause::Word => {
            "a line must be alloc, free H, flush, begin C N, step C or answer C, for a handle \
             H, a caller C and a count N"
        }
        LineCause::Count => {
            "the words of a line must be those of alloc, free H, flush, begin C N, step C or \
             answer C, with one space between two words"
        }
        LineCause::Number => {
            "a caller or a count must be a decimal from 0 to 4294967295, without leading zeros"
        }
        LineCause::Handle => {
            "a handle must be an index up to 4294967294, the letter v and a generation from 1 \
             to 2147483647, as 0v1, without leading zeros"
        }
    }
}

/// What a script has to be: the demand that a script refused for this fault fails. No script is
/// refused for a lack of memory, so that text is empty.
#[inline]
pub(super) fn script_wants(fault: ReadFault) -> &'static str
    // ensures { result.now ≡ script_wants fault }
{
    match fault {
        ReadFault::Json => {
            "the input must be a JSON text in UTF-8, its lists and objects at most 127 deep, \
             its numbers in the range of a 64-bit float"
        }
        ReadFault::Script(cause) => parts_wants(cause),
        ReadFault::Frame { .. } => "a frame must be a list of at most 256 systems",
        ReadFault::System { .. } => "a system must be a list of at most 10000 operations",
        ReadFault::Operation { cause, .. } => operation_wants(cause),
        ReadFault::Memory => "",
    }
}

#[inline]
fn parts_wants(cause: ScriptCause) -> &'static str
    // ensures { result.now ≡ parts_wants cause }
{
    match cause {
        ScriptCause::Top => "a script must be an object with the keys 'components' and 'frames'",
        ScriptCause::Key => {
            "a key of a script must be 'format', 'slots', 'generations', 'components' or \
             'frames'"
        }
        ScriptCause::Format => "'format' must be the number 1 or 2, or absent",
        ScriptCause::Slots => "'slots' must be a whole number from 1 to 4294967295, or absent",
        ScriptCause::Generations => {
            "'generations' must be a whole number from 1 to 2147483647, or absent"
        }
        ScriptCause::Components => {
            "'components' must be a list of at most 256 different names, each of 1 to 32 \
             characters from a to z, 0 to 9 and _"
        }
        ScriptCause::Frames => "'frames' must be a list of at most 1000 frames",
    }
}

#[inline]
fn operation_wants(cause: Cause) -> &'static str
    // ensures { result.now ≡ operation_wants cause }
{
    match cause {
        Cause::Shape => {
            "an operation must be an object with the keys 'spawn', 'spawn_many', 'insert' and \
             'on', 'remove' and 'on', or 'despawn', and no others but 'as' beside 'spawn' or \
             'spawn_many', and 'with' beside 'spawn_many'"
        }
        Cause::Bundle => "a bundle must be an object of components and whole numbers",
        Cause::Component => "a component must be a name in the list 'components'",
        Cause::Value => {
            "the value of a component must be a whole number from -2^63 to 2^63 - 1, without \
             fraction or exponent, and not -0"
        }
        Cause::Count => "'spawn_many' must be a whole number from 0 to 65536",
        Cause::Name => {
            "an 'as' must be a name of 1 to 32 characters from a to z, 0 to 9 and _, and the \
             'name' of a target must be the 'as' of an earlier operation of its system"
        }
        Cause::Target => {
            "a target must be an object with one key, 'name', 'each', 'handle' or, in format 2, \
             'birth', and a string"
        }
        Cause::Handle => {
            "a handle must be an index up to 4294967294, the letter v and a generation from 1 \
             to 2147483647, as 0v1, without leading zeros"
        }
        Cause::Birth => {
            "a birth must be the number of an earlier frame, of a system up to 255 and of a \
             spawned entity up to 4294967295, with dots between, as 0.1.2, without leading zeros"
        }
    }
}
