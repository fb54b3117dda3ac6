// Made of crates/ent_handle/src/text.rt by rust/erase. It isn't edited by hand.

use alloc::vec::Vec;
use crate::kit::padded;
use crate::kit::vec::FallibleVec;
use crate::handles::decimal::{decimal_value, is_decimal};
use crate::handles::handle::Handle;
use crate::handles::memory::OutOfMemory;
use crate::kit::itoa::Buffer;
use core::fmt;

/// Why a text is not a number, or not a handle.
///
/// ```
/// use forgeni::{Handle, ParseHandleError};
///
/// assert_eq!("12-3".parse::<Handle>(), Err(ParseHandleError::Shape));
/// // No slot has a generation 0.
/// assert_eq!("12v0".parse::<Handle>(), Err(ParseHandleError::Range));
/// ```
#[derive(Clone, Copy, Debug, PartialEq, Eq, Hash)]
pub enum ParseHandleError {
    /// It doesn't have the right form, such as `0v1` for a handle.
    Shape,
    /// It has the right form, but a number in it is out of range.
    Range,
}

impl core::fmt::Display for ParseHandleError {
    fn fmt(&self, f: &mut core::fmt::Formatter<'_>) -> core::fmt::Result {
        match self {
            ParseHandleError::Shape => write!(f, "not of the form of a handle, as 0v1"),
            ParseHandleError::Range => write!(f, "no handle has these numbers"),
        }
    }
}

impl core::error::Error for ParseHandleError {}

/// The bytes before the first separator and the bytes after it, or `None` if there is no separator.
///
/// <details><summary>Contract</summary>
///
/// <code style="display: block; tab-size: 4; white-space: pre-wrap">// In the words of [contracts](crate::contracts):
/// ensures found { [IfSome](crate::contracts::logic#IfSome) result (λ parts. bytes.now ≡ parts.0.now ++ separator ∷ parts.1.now) }
/// ensures first { [IfSome](crate::contracts::logic#IfSome) result (λ parts. [All](crate::contracts::logic#All) (λ byte. byte ≢ separator) parts.0.now) }
/// ensures none { [IfNone](crate::contracts::logic#IfNone) result ([All](crate::contracts::logic#All) (λ byte. byte ≢ separator) bytes.now) }
/// </code>
///
/// </details>
#[inline]
pub fn split_once(bytes: &[u8], separator: u8) -> Option<(&[u8], &[u8])> {
    let at = bytes.iter().position(|byte| *byte == separator)?;
    Some((&bytes[..at], &bytes[at + 1..]))
}

/// # Text
impl Handle {
    /// Parses the text of a handle: the index in decimal, the letter `v`, the generation in
    /// decimal. A decimal has no sign and no leading zero.
    ///
    /// It takes time linear in the length of the text, however long that is, and doesn't allocate.
    ///
    /// ```
    /// use forgeni::{Handle, ParseHandleError};
    ///
    /// // A text that came as bytes, without a copy.
    /// let line = b"follow 12v3";
    /// let target = Handle::read_text(&line[7..])?;
    /// assert_eq!(Some(target), Handle::new(12, 3));
    /// assert_eq!(Handle::read_text(b"012v3"), Err(ParseHandleError::Shape));
    /// # Ok::<(), Box<dyn std::error::Error>>(())
    /// ```
    ///
    /// # Errors
    ///
    /// - `Shape`: the text does not have this form.
    /// - `Range`: it has this form, but no handle has these numbers.
    ///
    /// <details><summary>Contract</summary>
    ///
    /// <code style="display: block; tab-size: 4; white-space: pre-wrap">// In the words of [contracts](crate::contracts):
    /// // The text is that of the handle that is read.
    /// ensures found { [IfOk](crate::contracts::logic#IfOk) result (λ h. [IsHandle](crate::contracts::ent_handle::handle#IsHandle) h × (bytes.now ≡ [handle_text](crate::contracts::ent_handle::text#handle_text) h)) }
    /// // The text of each handle is read as that handle.
    /// ensures only { (h : [HandleValue](crate::contracts::ent_handle::handle#Handle)) → [IsHandle](crate::contracts::ent_handle::handle#IsHandle) h → bytes.now ≡ [handle_text](crate::contracts::ent_handle::text#handle_text) h → result ≡ Ok h }
    /// &#32;
    /// ensures shape { [IsErrOf](crate::contracts::logic#IsErrOf) result ParseHandleError.Shape ↔ (¬ [HasHandleForm](crate::contracts::ent_handle::text#HasHandleForm) bytes.now) }
    /// ensures range { [IsErrOf](crate::contracts::logic#IsErrOf) result ParseHandleError.Range ↔ ([HasHandleForm](crate::contracts::ent_handle::text#HasHandleForm) bytes.now
    /// &#9;× ((h : [HandleValue](crate::contracts::ent_handle::handle#Handle)) → [IsHandle](crate::contracts::ent_handle::handle#IsHandle) h → bytes.now ≢ [handle_text](crate::contracts::ent_handle::text#handle_text) h)) }
    /// &#32;
    /// // The whole result, as a function of the text.
    /// ensures exact { result ≡ [handle_of](crate::contracts::ent_handle::text#handle_of) bytes.now }
    /// </code>
    ///
    /// </details>
    #[inline]
    pub fn read_text(bytes: &[u8]) -> Result<Self, ParseHandleError> {
        let Some((index, generation)) = split_once(bytes, b'v') else {
            return Err(ParseHandleError::Shape);
        };
        if !is_decimal(index) || !is_decimal(generation) {
            return Err(ParseHandleError::Shape);
        }
        Handle::of_decimals(index, generation).ok_or(ParseHandleError::Range)
    }

    /// Appends the handle's text. It succeeds if `out` has room for the whole text.
    ///
    /// ```
    /// use forgeni::Handle;
    ///
    /// let mut line = b"follow ".to_vec();
    /// "12v3".parse::<Handle>()?.write_text(&mut line)?;
    /// assert_eq!(line, b"follow 12v3");
    /// # Ok::<(), Box<dyn std::error::Error>>(())
    /// ```
    ///
    /// # Errors
    ///
    /// `Memory`: there isn't enough memory for the text. `out` is unchanged.
    ///
    /// <details><summary>Contract</summary>
    ///
    /// <code style="display: block; tab-size: 4; white-space: pre-wrap">// In the words of [contracts](crate::contracts):
    /// ensures ok { [OnOk](crate::contracts::logic#OnOk) result (out.new.items ≡ out.old.items ++ [handle_text](crate::contracts::ent_handle::text#handle_text) self.now) }
    /// ensures err { [OnErr](crate::contracts::logic#OnErr) result (out.new.items ≡ out.old.items) }
    /// ensures full { [OnErr](crate::contracts::logic#OnErr) result
    /// &#9;([vec_capacity](crate::contracts::logic#vec_capacity) out.old \< [vec_len](crate::contracts::logic#vec_len) out.old + [length](crate::contracts::logic#length) ([handle_text](crate::contracts::ent_handle::text#handle_text) self.now)) }
    /// ensures capacity { [vec_capacity](crate::contracts::logic#vec_capacity) out.old ≤ [vec_capacity](crate::contracts::logic#vec_capacity) out.new }
    /// </code>
    ///
    /// </details>
    #[inline]
    pub fn write_text(&self, out: &mut Vec<u8>) -> Result<(), OutOfMemory> {
        let mut index = Buffer::new();
        let index = index.format(self.index()).as_bytes();
        let mut generation = Buffer::new();
        let generation = generation.format(self.generation()).as_bytes();

        out.reserve_fallibly(index.len() + 1 + generation.len())?;
        out.extend_from_slice_fallibly(index).unwrap();
        out.push_reserved(b'v');
        out.extend_from_slice_fallibly(generation).unwrap();
        Ok(())
    }
}

impl Handle {
    #[inline]
    fn of_decimals(index: &[u8], generation: &[u8]) -> Option<Self>
        // requires index { IsDecimal index.now }
        // requires generation { IsDecimal generation.now }
        // ensures value { IfSome result (λ h. h ≡ written index.now generation.now) }
        // ensures in_range { IsSome result ↔ IsHandle (written index.now generation.now) }
    {
        Handle::new(decimal_value(index)?, decimal_value(generation)?)
    }
}

/// The handle's text, as `Handle::write_text` appends it.
impl fmt::Display for Handle {
    #[inline]
    fn fmt(&self, f: &mut fmt::Formatter<'_>) -> fmt::Result {
        let index = self.index();
        let generation = self.generation();
        padded!(f, "{index}v{generation}")
    }
}

/// As `Display` writes it.
impl fmt::Debug for Handle {
    #[inline]
    fn fmt(&self, f: &mut fmt::Formatter<'_>) -> fmt::Result {
        let slot = self.index();
        let occupant = self.generation();
        padded!(f, "{slot}v{occupant}")
    }
}
