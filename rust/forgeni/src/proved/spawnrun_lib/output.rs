// Made of crates/spawnrun_lib/src/output.rt by rust/erase. It isn't edited by hand.

//! What the work on an input writes, after all of it is made.

use crate::spawnrun_lib::product::Refusal;
use crate::spawnrun_lib::status::Status;
use crate::spawnrun_lib::text::Text;
use crate::cli::{Failed, Sink};

/// Writes a text, and ends with the status.
#[inline]
pub(super) fn write<O: Sink>(output: &mut O, text: &[u8], status: Status) -> Status
    // requires { status ≢ Status.Device }
    // ensures ends { (result ≡ status) ⊎ (result ≡ Status.Device) }
    // ensures written { result ≡ status
    //     → Appends (O.written output.old) (O.written output.new) text.now }
    // ensures failed { result ≡ Status.Device
    //     → O.failures output.new ≡ O.failures output.old + 1 }
    // ensures unfailed { result ≢ Status.Device → O.failures output.new ≡ O.failures output.old }
{
    match output.put(text) {
        Ok(()) => status,
        Err(Failed) => Status::Device,
    }
}

/// Writes a text part by part, and ends with the status.
#[inline]
pub(super) fn write_text<O: Sink>(output: &mut O, text: &Text, status: Status) -> Status
    // requires { status ≢ Status.Device }
    // ensures ends { (result ≡ status) ⊎ (result ≡ Status.Device) }
    // ensures written { result ≡ status
    //     → Appends (O.written output.old) (O.written output.new) text.now }
    // ensures failed { result ≡ Status.Device
    //     → O.failures output.new ≡ O.failures output.old + 1 }
    // ensures unfailed { result ≢ Status.Device → O.failures output.new ≡ O.failures output.old }
{
    let parts = text.parts();
    for part in parts {
        if output.put(part).is_err() {
            return Status::Device;
        }
    }
    status
}

/// Writes the line that refuses an input. If the line went out, the error stream gets what the
/// failed test asks for, and what it found.
#[inline]
pub(super) fn refuse<O: Sink, E: Sink>(output: &mut O, errors: &mut E, refusal: &Refusal) -> Status
    // ensures ends { (result ≡ Status.Refused) ⊎ (result ≡ Status.Device) }
    // ensures written { result ≡ Status.Refused
    //     → Appends (O.written output.old) (O.written output.new) refusal.now.line.items }
    // ensures failed { result ≡ Status.Device
    //     → O.failures output.new ≡ O.failures output.old + 1 }
    // ensures unfailed { result ≢ Status.Device → O.failures output.new ≡ O.failures output.old }
    // ensures advised { result ≡ Status.Refused → E.failures errors.new ≡ E.failures errors.old
    //     → Appends (E.written errors.old) (E.written errors.new)
    //     (refusal.now.wants.now ++ inline_text refusal.now.found ++ codes "\n") }
    // ensures quiet { result ≢ Status.Refused → errors.new ≡ errors.old }
{
    let status = write(output, &refusal.line, Status::Refused);
    if status == Status::Refused {
        // If the error stream fails, there is nobody left to tell.
        let _ = advise(errors, refusal.wants, refusal.found.as_str());
    }
    status
}

// Says in one line what a test wants, and what it found.
#[inline]
fn advise<E: Sink>(errors: &mut E, wants: &str, found: &str) -> Result<(), Failed>
    // ensures said { OnOk result (Appends (E.written errors.old) (E.written errors.new)
    //     (wants.now ++ found.now ++ codes "\n")) }
    // ensures failed { OnErr result (E.failures errors.new ≡ E.failures errors.old + 1) }
{
    errors.put(wants.as_bytes())?;
    errors.put(found.as_bytes())?;
    errors.put(b"\n")
}
