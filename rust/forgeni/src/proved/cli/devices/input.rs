// Made of crates/cli/src/devices/input.rt by rust/erase. It isn't edited by hand.

//! The whole of what a device gives, within a limit.

use alloc::vec::Vec;
use crate::kit::vec::FallibleVec;
use crate::cli::devices::device::{Failed, Source};
use crate::kit::alloc::AllocError;

// How many bytes one call of the source may bring.
const PIECE: usize = 16_384;

/// Why an input was not read.
#[derive(Clone, Copy, Debug, PartialEq, Eq)]
pub enum InputFault {
    /// More bytes came than the limit allows.
    TooLong,
    /// Memory for them ran out.
    Memory,
    /// The source failed.
    Device,
}

impl From<Failed> for InputFault {
    #[inline]
    fn from(_failed: Failed) -> Self {
        InputFault::Device
    }
}

impl From<AllocError> for InputFault {
    #[inline]
    fn from(_refused: AllocError) -> Self {
        InputFault::Memory
    }
}

/// Reads all that the source gives, in pieces, until its end.
///
/// # Errors
///
/// What was read before the error is dropped.
///
/// - `TooLong` as soon as more than `limit` bytes have come. It takes just one byte more than the
///   limit, so it also returns for a source without end.
/// - `Memory` if there was no memory for the bytes.
/// - `Device` if the source failed.
///
/// <details><summary>Contract</summary>
///
/// <code style="display: block; tab-size: 4; white-space: pre-wrap">// In the words of [contracts](crate::contracts):
/// ensures whole { IfOk result (λ bytes.
/// &#9;IfSome (S.remaining source.old) (λ all. bytes.items ≡ all)) }
/// ensures taken { IfOk result (λ bytes.
/// &#9;Consumes (S.remaining source.old) (S.remaining source.new) bytes.items) }
/// ensures end { OnOk result (IsAtEnd (S.remaining source.new)) }
/// ensures within { IfOk result (λ bytes. vec_len bytes ≤ limit) }
/// &#32;
/// ensures too_long { result ≡ Err TooLong
/// &#9;→ IfSome (S.remaining source.old) (λ all. limit \< length all) }
/// ensures stops { result ≡ Err TooLong
/// &#9;→ Takes (S.remaining source.old) (S.remaining source.new) (limit + 1) }
/// ensures at_most { result ≢ Err Device
/// &#9;→ TakesAtMost (S.remaining source.old) (S.remaining source.new) (limit + 1) }
/// &#32;
/// ensures failed { result ≡ Err Device
/// &#9;→ S.failures source.new ≡ S.failures source.old + 1 }
/// ensures unfailed { result ≢ Err Device → S.failures source.new ≡ S.failures source.old }
/// </code>
///
/// </details>
#[inline]
pub fn read_all<S: Source>(
    source: &mut S,
    limit: usize,
) -> Result<Vec<u8>, InputFault> {
    let mut bytes = Vec::new();
    let mut piece = [0; PIECE];
    // Each turn but the last brings a byte at least.
    for _ in 0..u64::MAX {
        let room = limit - bytes.len();
        let end = room.min(PIECE - 1) + 1;
        let count = source.take(&mut piece[..end])?;
        if count == 0 {
            return Ok(bytes);
        }
        if count > room {
            return Err(InputFault::TooLong);
        }
        bytes.extend_from_slice_fallibly(&piece[..count])?;
    }
    unreachable!()
}
