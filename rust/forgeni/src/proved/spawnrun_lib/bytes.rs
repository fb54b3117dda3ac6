// Made of crates/spawnrun_lib/src/bytes.rt by rust/erase. It isn't edited by hand.

//! Parts of lines. What comes after a refusal keeps the bytes that were there before.

use alloc::vec::Vec;
use crate::kit::vec::FallibleVec;
use crate::spawnrun_lib::show::Show;
use crate::handles::{Handle, OutOfMemory};
use crate::kit::itoa::{Buffer, Integer};

#[inline]
pub(super) fn append(out: &mut Vec<u8>, text: &[u8]) -> Result<(), OutOfMemory>
    // ensures ok { OnOk result (out.new.items ≡ out.old.items ++ text.now) }
    // ensures err { OnErr result (out.new.items ≡ out.old.items) }
    // ensures full { OnErr result (vec_capacity out.old < vec_len out.old + length text.now) }
    // ensures capacity { vec_capacity out.old ≤ vec_capacity out.new }
{
    Ok(out.extend_from_slice_fallibly(text)?)
}

#[inline]
pub(super) fn append_number<N: Integer>(out: &mut Vec<u8>, number: N) -> Result<(), OutOfMemory>
    // ensures ok { OnOk result (out.new.items ≡ out.old.items ++ N.text number) }
    // ensures err { OnErr result (out.new.items ≡ out.old.items) }
    // ensures full { OnErr result (vec_capacity out.old < vec_len out.old + length (N.text number)) }
    // ensures capacity { vec_capacity out.old ≤ vec_capacity out.new }
{
    append(out, Buffer::new().format(number).as_bytes())
}

/// Appends a word and the decimal of a number.
#[inline]
pub(super) fn append_labelled<N: Integer>(
    out: &mut Vec<u8>,
    label: &[u8],
    number: N,
) -> Result<(), OutOfMemory>
    // ensures ok { OnOk result (out.new.items ≡ out.old.items ++ label.now ++ N.text number) }
    // ensures kept { OnErr result (take (vec_len out.old) out.new.items ≡ out.old.items) }
    // ensures full { OnErr result (vec_capacity out.old
    //     < vec_len out.old + length (label.now ++ N.text number)) }
    // ensures capacity { vec_capacity out.old ≤ vec_capacity out.new }
{
    append(out, label)?;
    append_number(out, number)
}

/// Appends a space and the handle, if handles are shown.
#[inline]
pub(super) fn append_shown(out: &mut Vec<u8>, show: Show, handle: Handle) -> Result<(), OutOfMemory>
    // ensures ok { OnOk result (out.new.items ≡ out.old.items ++ shown_handle show handle) }
    // ensures kept { OnErr result (take (vec_len out.old) out.new.items ≡ out.old.items) }
    // ensures full { OnErr result (vec_capacity out.old
    //     < vec_len out.old + length (shown_handle show handle)) }
    // ensures capacity { vec_capacity out.old ≤ vec_capacity out.new }
{
    match show {
        Show::Births => Ok(()),
        Show::Handles => {
            append(out, b" ")?;
            handle.write_text(out)
        }
    }
}
