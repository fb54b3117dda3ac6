// Made of crates/tracecheck/src/image.rt by rust/erase. It isn't edited by hand.

//! The image of the allocator with which a trace begins.

use alloc::vec::Vec;
use crate::kit::programs::format;
use crate::kit::programs::string::String;
use crate::cli::{InputFault, Source, read_all};
use crate::allocator::{Entities, ImageFault};
use crate::handles::OutOfMemory;
use crate::kit::alloc::AllocError;

/// Why there is no allocator to begin with.
#[derive(Clone, Copy)]
pub enum Unread {
    /// The bytes are the image of no allocator.
    Fault(ImageFault),
    /// Memory ran out.
    Memory,
    /// The device failed.
    Device,
}

// Why there is no allocator, by what refuses the bytes.
#[inline]
fn unread_by(fault: ImageFault) -> Unread
    // ensures { result ≡ unread_by fault }
{
    match fault {
        ImageFault::Memory => Unread::Memory,
        _ => Unread::Fault(fault),
    }
}

// The allocator whose image the bytes are.
#[inline]
fn entities_in(bytes: &[u8]) -> Result<Entities, Unread>
    // ensures found { IfOk result (IsImageOf bytes.now) }
    // ensures unread { IfErr result (MayBeUnread bytes.now) }
    // ensures unfailed { result ≢ Err Device }
{
    match Entities::read_image(bytes) {
        Ok(entities) => Ok(entities),
        Err(fault) => Err(unread_by(fault)),
    }
}

/// Reads the allocator whose image the device gives.
///
/// # Errors
///
/// - `Fault` if the bytes are the image of no allocator: the first fault that they have.
/// - `Memory` if there was no memory for the bytes or for the slots.
/// - `Device` if the device failed.
///
/// <details><summary>Contract</summary>
///
/// <code style="display: block; tab-size: 4; white-space: pre-wrap">// In the words of [contracts](crate::contracts):
/// ensures found { IfOk result (λ e. IfSome (M.remaining image.old) (λ bytes. IsImageOf bytes e)) }
/// ensures unread { IfErr result (λ unread.
/// &#9;IfSome (M.remaining image.old) (λ bytes. MayBeUnread bytes unread)) }
/// ensures failed { result ≡ Err Device → M.failures image.new ≡ M.failures image.old + 1 }
/// ensures unfailed { result ≢ Err Device → M.failures image.new ≡ M.failures image.old }
/// </code>
///
/// </details>
#[inline]
pub fn read_entities<M: Source>(image: &mut M) -> Result<Entities, Unread> {
    let bytes = match read_all(image, usize::MAX) {
        Ok(bytes) => bytes,
        Err(InputFault::Device) => return Err(Unread::Device),
        Err(InputFault::Memory | InputFault::TooLong) => return Err(Unread::Memory),
    };
    entities_in(&bytes)
}

/// The line that says why bytes are no image.
///
/// # Errors
///
/// `Memory`: there isn't enough memory for the text.
///
/// <details><summary>Contract</summary>
///
/// <code style="display: block; tab-size: 4; white-space: pre-wrap">// In the words of [contracts](crate::contracts):
/// ensures { IfOk result (λ text. text.items ≡ refused_image_text fault) }
/// </code>
///
/// </details>
#[inline]
pub fn refused_image_text(fault: ImageFault) -> Result<Vec<u8>, OutOfMemory> {
    let fault = fault_text(fault)?;
    let text = format!("refused image {fault}\n")?;
    Ok(text.into_bytes())
}

// What is wrong, and where.
#[inline]
fn fault_text(fault: ImageFault) -> Result<String, AllocError>
    // ensures { IfOk result (λ text. string_bytes text ≡ fault_text fault) }
{
    match fault {
        ImageFault::Magic => format!("magic"),
        ImageFault::Version { version } => format!("version {version}"),
        ImageFault::Limits => format!("limits"),
        ImageFault::Counts => format!("counts"),
        ImageFault::Length { expected } => format!("length {expected}"),
        ImageFault::Requests => format!("requests"),
        ImageFault::Slot { index } => format!("slot {index}"),
        ImageFault::Position { position } => format!("position {position}"),
        ImageFault::Bound { slots } => format!("bound {slots}"),
        _ => format!("memory"),
    }
}
