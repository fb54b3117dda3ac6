// Made of crates/spawnrun_lib/src/frame_text.rt by rust/erase. It isn't edited by hand.

use alloc::vec::Vec;
use crate::spawnrun_lib::bytes::{append, append_labelled, append_shown};
use crate::spawnrun_lib::show::Show;
use crate::handles::OutOfMemory;
use crate::worlds::{Fault, FaultKind, Report};

#[inline]
fn append_counts(out: &mut Vec<u8>, wanted: u32, left: u32) -> Result<(), OutOfMemory>
    // ensures ok { OnOk result (out.new.items ≡ out.old.items ++ counts_text wanted left) }
    // ensures kept { OnErr result (take (vec_len out.old) out.new.items ≡ out.old.items) }
    // ensures full { OnErr result (vec_capacity out.old
    //     < vec_len out.old + length (counts_text wanted left)) }
    // ensures capacity { vec_capacity out.old ≤ vec_capacity out.new }
{
    append_labelled(out, b" wanted ", wanted)?;
    append_labelled(out, b" left ", left)
}

#[inline]
fn append_kind(out: &mut Vec<u8>, show: Show, kind: FaultKind) -> Result<(), OutOfMemory>
    // ensures ok { OnOk result (out.new.items ≡ out.old.items ++ kind_text show kind) }
    // ensures kept { OnErr result (take (vec_len out.old) out.new.items ≡ out.old.items) }
    // ensures full { OnErr result (vec_capacity out.old
    //     < vec_len out.old + length (kind_text show kind)) }
    // ensures capacity { vec_capacity out.old ≤ vec_capacity out.new }
{
    match kind {
        FaultKind::NotAlive(handle) => {
            append(out, b" not alive")?;
            append_shown(out, show, handle)
        }
        FaultKind::Space { wanted, left } => {
            append(out, b" space")?;
            append_counts(out, wanted, left)
        }
        FaultKind::Quota { left } => append_labelled(out, b" quota left ", left),
    }
}

#[inline]
fn append_fault(out: &mut Vec<u8>, show: Show, fault: Fault) -> Result<(), OutOfMemory>
    // ensures ok { OnOk result (out.new.items ≡ out.old.items ++ fault_line show fault) }
    // ensures kept { OnErr result (take (vec_len out.old) out.new.items ≡ out.old.items) }
    // ensures full { OnErr result (vec_capacity out.old
    //     < vec_len out.old + length (fault_line show fault)) }
    // ensures capacity { vec_capacity out.old ≤ vec_capacity out.new }
{
    append_labelled(out, b"fault ", fault.system)?;
    append_labelled(out, b" ", fault.command)?;
    append_kind(out, show, fault.kind)?;
    append(out, b"\n")
}

#[inline]
fn append_faults(out: &mut Vec<u8>, show: Show, faults: &[Fault]) -> Result<(), OutOfMemory>
    // ensures ok { OnOk result (out.new.items
    //     ≡ out.old.items ++ flat_map (fault_line show) faults.now) }
    // ensures kept { OnErr result (take (vec_len out.old) out.new.items ≡ out.old.items) }
    // ensures full { OnErr result (vec_capacity out.old
    //     < vec_len out.old + length (flat_map (fault_line show) faults.now)) }
    // ensures capacity { vec_capacity out.old ≤ vec_capacity out.new }
{
    for fault in faults {
        append_fault(out, show, *fault)?;
    }
    Ok(())
}

#[inline]
fn append_frame_line(
    out: &mut Vec<u8>,
    number: u64,
    born: usize,
    faults: usize,
) -> Result<(), OutOfMemory>
    // ensures ok { OnOk result (out.new.items ≡ out.old.items ++ frame_line number born faults) }
    // ensures kept { OnErr result (take (vec_len out.old) out.new.items ≡ out.old.items) }
    // ensures full { OnErr result (vec_capacity out.old
    //     < vec_len out.old + length (frame_line number born faults)) }
    // ensures capacity { vec_capacity out.old ≤ vec_capacity out.new }
{
    append_labelled(out, b"frame ", number)?;
    append_labelled(out, b" born ", born)?;
    append_labelled(out, b" faults ", faults)?;
    append(out, b"\n")
}

#[inline]
fn append_frame(
    out: &mut Vec<u8>,
    number: u64,
    report: &Report,
    show: Show,
) -> Result<(), OutOfMemory>
    // ensures ok { OnOk result (out.new.items
    //     ≡ out.old.items ++ frame_text show number report.now.born.items report.now.faults.items) }
    // ensures kept { OnErr result (take (vec_len out.old) out.new.items ≡ out.old.items) }
    // ensures full { OnErr result (vec_capacity out.old < vec_len out.old
    //     + length (frame_text show number report.now.born.items report.now.faults.items)) }
    // ensures capacity { vec_capacity out.old ≤ vec_capacity out.new }
{
    append_frame_line(out, number, report.born.len(), report.faults.len())?;
    append_faults(out, show, &report.faults)
}

/// Appends what a frame did: the line of the frame with this number, as `frame 0 born 2 faults 1`,
/// and then a line for each fault in the order of the report, as `fault 1 0 not alive 0v1`.
///
/// It takes time linear in what it appends, and memory for that alone.
///
/// # Errors
///
/// `Memory` if there is no room for all of it. `out` keeps its items then.
///
/// <details><summary>Contract</summary>
///
/// <code style="display: block; tab-size: 4; white-space: pre-wrap">// In the words of [contracts](crate::contracts):
/// ensures ok { OnOk result (out.new.items
/// &#9;≡ out.old.items ++ frame_text show number report.now.born.items report.now.faults.items) }
/// ensures err { OnErr result (out.new.items ≡ out.old.items) }
/// ensures full { OnErr result (vec_capacity out.old \< vec_len out.old
/// &#9;+ length (frame_text show number report.now.born.items report.now.faults.items)) }
/// ensures capacity { vec_capacity out.old ≤ vec_capacity out.new }
/// </code>
///
/// </details>
#[inline]
pub fn write_frame(
    number: u64,
    report: &Report,
    show: Show,
    out: &mut Vec<u8>,
) -> Result<(), OutOfMemory> {
    let len = out.len();
    let written = append_frame(out, number, report, show);
    if written.is_err() {
        out.truncate(len);
    }
    written
}
