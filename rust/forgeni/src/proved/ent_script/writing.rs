// Made of crates/ent_script/src/writing.rt by rust/erase. It isn't edited by hand.

use alloc::vec::Vec;
use crate::kit::vec::FallibleVec;
use crate::scripts::at::At;
use crate::scripts::cause::{Cause, ScriptCause};
use crate::scripts::read_fault::ReadFault;
use crate::handles::OutOfMemory;
use crate::kit::itoa::Buffer;

#[inline]
fn append(out: &mut Vec<u8>, text: &[u8]) -> Result<(), OutOfMemory>
    // ensures ok { OnOk result (out.new.items ≡ out.old.items ++ text.now) }
    // ensures err { OnErr result (out.new.items ≡ out.old.items) }
    // ensures full { OnErr result (vec_capacity out.old < vec_len out.old + length text.now) }
    // ensures capacity { vec_capacity out.old ≤ vec_capacity out.new }
{
    Ok(out.extend_from_slice_fallibly(text)?)
}

/// Appends a space and the decimal of a number.
#[inline]
fn append_number(out: &mut Vec<u8>, number: usize) -> Result<(), OutOfMemory>
    // ensures ok { OnOk result (out.new.items ≡ out.old.items ++ spaced_number number) }
    // ensures kept { OnErr result (take (vec_len out.old) out.new.items ≡ out.old.items) }
    // ensures full { OnErr result (vec_capacity out.old
    //     < vec_len out.old + length (spaced_number number)) }
    // ensures capacity { vec_capacity out.old ≤ vec_capacity out.new }
{
    append(out, b" ")?;
    append(out, Buffer::new().format(number).as_bytes())
}

/// Appends the numbers of a system and of its frame.
#[inline]
fn append_system(out: &mut Vec<u8>, frame: usize, system: usize) -> Result<(), OutOfMemory>
    // ensures ok { OnOk result (out.new.items
    //     ≡ out.old.items ++ spaced_number frame ++ spaced_number system) }
    // ensures kept { OnErr result (take (vec_len out.old) out.new.items ≡ out.old.items) }
    // ensures full { OnErr result (vec_capacity out.old
    //     < vec_len out.old + length (spaced_number frame ++ spaced_number system)) }
    // ensures capacity { vec_capacity out.old ≤ vec_capacity out.new }
{
    append_number(out, frame)?;
    append_number(out, system)
}

#[inline]
fn append_cause(out: &mut Vec<u8>, operation: usize, cause: Cause) -> Result<(), OutOfMemory>
    // ensures ok { OnOk result (out.new.items
    //     ≡ out.old.items ++ spaced_number operation ++ 32 ∷ operation_cause_text cause) }
    // ensures kept { OnErr result (take (vec_len out.old) out.new.items ≡ out.old.items) }
    // ensures full { OnErr result (vec_capacity out.old
    //     < vec_len out.old + length (spaced_number operation ++ 32 ∷ operation_cause_text cause)) }
    // ensures capacity { vec_capacity out.old ≤ vec_capacity out.new }
{
    append_number(out, operation)?;
    append(out, b" ")?;
    append(out, cause.text().as_bytes())
}

/// Appends the numbers of an operation, its system and its frame, and what is wrong with it.
#[inline]
fn append_operation(out: &mut Vec<u8>, at: At, cause: Cause) -> Result<(), OutOfMemory>
    // ensures ok { OnOk result (out.new.items
    //     ≡ out.old.items ++ operation_text at.frame at.system at.operation cause) }
    // ensures kept { OnErr result (take (vec_len out.old) out.new.items ≡ out.old.items) }
    // ensures full { OnErr result (vec_capacity out.old
    //     < vec_len out.old + length (operation_text at.frame at.system at.operation cause)) }
    // ensures capacity { vec_capacity out.old ≤ vec_capacity out.new }
{
    append_system(out, at.frame, at.system)?;
    append_cause(out, at.operation, cause)
}

#[inline]
fn append_script_text(out: &mut Vec<u8>, cause: ScriptCause) -> Result<(), OutOfMemory>
    // ensures ok { OnOk result (out.new.items
    //     ≡ out.old.items ++ codes "refused script " ++ script_cause_text cause) }
    // ensures kept { OnErr result (take (vec_len out.old) out.new.items ≡ out.old.items) }
    // ensures full { OnErr result (vec_capacity out.old
    //     < vec_len out.old + length (codes "refused script " ++ script_cause_text cause)) }
    // ensures capacity { vec_capacity out.old ≤ vec_capacity out.new }
{
    append(out, b"refused script ")?;
    append(out, cause.text().as_bytes())
}

#[inline]
fn append_frame_text(out: &mut Vec<u8>, frame: usize) -> Result<(), OutOfMemory>
    // ensures ok { OnOk result (out.new.items
    //     ≡ out.old.items ++ codes "refused frame" ++ spaced_number frame) }
    // ensures kept { OnErr result (take (vec_len out.old) out.new.items ≡ out.old.items) }
    // ensures full { OnErr result (vec_capacity out.old
    //     < vec_len out.old + length (codes "refused frame" ++ spaced_number frame)) }
    // ensures capacity { vec_capacity out.old ≤ vec_capacity out.new }
{
    append(out, b"refused frame")?;
    append_number(out, frame)
}

#[inline]
fn append_system_text(out: &mut Vec<u8>, frame: usize, system: usize) -> Result<(), OutOfMemory>
    // ensures ok { OnOk result (out.new.items
    //     ≡ out.old.items ++ codes "refused system" ++ spaced_number frame ++ spaced_number system) }
    // ensures kept { OnErr result (take (vec_len out.old) out.new.items ≡ out.old.items) }
    // ensures full { OnErr result (vec_capacity out.old < vec_len out.old
    //     + length (codes "refused system" ++ spaced_number frame ++ spaced_number system)) }
    // ensures capacity { vec_capacity out.old ≤ vec_capacity out.new }
{
    append(out, b"refused system")?;
    append_system(out, frame, system)
}

#[inline]
fn append_operation_text(out: &mut Vec<u8>, at: At, cause: Cause) -> Result<(), OutOfMemory>
    // ensures ok { OnOk result (out.new.items
    //     ≡ out.old.items ++ codes "refused operation"
    //     ++ operation_text at.frame at.system at.operation cause) }
    // ensures kept { OnErr result (take (vec_len out.old) out.new.items ≡ out.old.items) }
    // ensures full { OnErr result (vec_capacity out.old
    //     < vec_len out.old + length (codes "refused operation"
    //     ++ operation_text at.frame at.system at.operation cause)) }
    // ensures capacity { vec_capacity out.old ≤ vec_capacity out.new }
{
    append(out, b"refused operation")?;
    append_operation(out, at, cause)
}

#[inline]
fn append_text(fault: ReadFault, out: &mut Vec<u8>) -> Result<(), OutOfMemory>
    // requires { fault ≢ ReadFault.Memory }
    // ensures ok { OnOk result (out.new.items ≡ out.old.items ++ refusal_text fault) }
    // ensures kept { OnErr result (take (vec_len out.old) out.new.items ≡ out.old.items) }
    // ensures full { OnErr result (vec_capacity out.old
    //     < vec_len out.old + length (refusal_text fault)) }
    // ensures capacity { vec_capacity out.old ≤ vec_capacity out.new }
{
    match fault {
        ReadFault::Json => append(out, b"refused json"),
        ReadFault::Script(cause) => append_script_text(out, cause),
        ReadFault::Frame { frame } => append_frame_text(out, frame),
        ReadFault::System { frame, system } => append_system_text(out, frame, system),
        ReadFault::Operation {
            frame,
            system,
            operation,
            cause,
        } => {
            let at = At {
                frame,
                system,
                operation,
            };
            append_operation_text(out, at, cause)
        }
        ReadFault::Memory => unreachable!(),
    }
}

#[inline]
fn append_line(fault: ReadFault, out: &mut Vec<u8>) -> Result<(), OutOfMemory>
    // requires { fault ≢ ReadFault.Memory }
    // ensures ok { OnOk result (out.new.items ≡ out.old.items ++ refusal_line fault) }
    // ensures kept { OnErr result (take (vec_len out.old) out.new.items ≡ out.old.items) }
    // ensures full { OnErr result (vec_capacity out.old
    //     < vec_len out.old + length (refusal_line fault)) }
    // ensures capacity { vec_capacity out.old ≤ vec_capacity out.new }
{
    append_text(fault, out)?;
    append(out, b"\n")
}

/// Appends the line of a refusal, as `refused operation 0 0 0 component`. The fault may not be
/// `Memory`, which has no line.
///
/// # Errors
///
/// `Memory` if there is no room for all of the line. `out` keeps its items then.
#[inline]
pub(crate) fn write_refusal(fault: ReadFault, out: &mut Vec<u8>) -> Result<(), OutOfMemory>
    // requires { fault ≢ ReadFault.Memory }
    // ensures ok { OnOk result (out.new.items ≡ out.old.items ++ refusal_line fault) }
    // ensures err { OnErr result (out.new.items ≡ out.old.items) }
    // ensures full { OnErr result (vec_capacity out.old
    //     < vec_len out.old + length (refusal_line fault)) }
    // ensures capacity { vec_capacity out.old ≤ vec_capacity out.new }
{
    let len = out.len();
    let written = append_line(fault, out);
    if written.is_err() {
        out.truncate(len);
    }
    written
}
