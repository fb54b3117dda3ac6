// Made of crates/spawnrun_lib/src/piece.rt by rust/erase. It isn't edited by hand.

//! A short text that is appended with one test for room: the whole array is copied, and the list is
//! then truncated to the text.

use alloc::vec::Vec;
use crate::kit::vec::FallibleVec;
use crate::spawnrun_lib::bytes::append;
use crate::handles::OutOfMemory;
use crate::kit::itoa::Buffer;

/// How many bytes a piece has. A birth takes at most 42 of them.
const ROOM: usize = 48;

/// A text of at most 48 bytes.
#[derive(Clone, Copy)]
pub(super) struct Piece {
    bytes: [u8; ROOM],
    len: usize,
}

impl Piece {
    #[inline]
    pub(super) fn new() -> Self
        // ensures { result.len ≡ 0 }
    {
        Piece {
            bytes: [0; ROOM],
            len: 0,
        }
    }

    #[inline]
    pub(super) fn is_empty(&self) -> bool
        // ensures { result ≡ (self.now.len == 0) }
    {
        self.len == 0
    }

    /// Adds the bytes at the end of the text.
    #[inline]
    pub(super) fn put(&mut self, text: &[u8])
        // requires { self.old.len + length text.now ≤ 48 }
        // ensures len { self.new.len ≡ self.old.len + length text.now }
        // ensures text { piece_text self.new ≡ piece_text self.old ++ text.now }
    {
        for byte in text {
            self.put_byte(*byte);
        }
    }

    /// Adds the byte at the end of the text.
    #[inline(always)]
    fn put_byte(&mut self, byte: u8)
        // requires { self.old.len < 48 }
        // ensures len { self.new.len ≡ self.old.len + 1 }
        // ensures text { piece_text self.new ≡ piece_text self.old ++ byte ∷ [] }
    {
        self.bytes[self.len] = byte;
        self.len += 1;
    }

    /// Replaces the last byte.
    #[inline(always)]
    pub(super) fn set_last(&mut self, byte: u8)
        // requires some { 0 < self.old.len }
        // requires within { self.old.len ≤ 48 }
        // ensures len { self.new.len ≡ self.old.len }
        // ensures text { piece_text self.new
        //     ≡ take (self.old.len - 1) self.old.bytes ++ byte ∷ [] }
    {
        self.bytes[self.len - 1] = byte;
    }

    /// Appends the text.
    #[inline(always)]
    pub(super) fn append_to(&self, out: &mut Vec<u8>) -> Result<(), OutOfMemory>
        // requires { self.now.len ≤ 48 }
        // ensures ok { OnOk result (out.new.items ≡ out.old.items ++ piece_text self.now) }
        // ensures err { OnErr result (out.new.items ≡ out.old.items) }
        // ensures full { OnErr result (vec_capacity out.old
        //     < vec_len out.old + length (piece_text self.now)) }
        // ensures capacity { vec_capacity out.old ≤ vec_capacity out.new }
    {
        if out.extend_from_slice_fallibly(&self.bytes).is_err() {
            return append(out, &self.bytes[..self.len]);
        }
        out.truncate(out.len() - (ROOM - self.len));
        Ok(())
    }

    /// Appends the text and the decimal of the number.
    #[inline(always)]
    pub(super) fn append_value(&self, out: &mut Vec<u8>, value: i64) -> Result<(), OutOfMemory>
        // requires { self.now.len ≤ 48 }
        // ensures ok { OnOk result (out.new.items
        //     ≡ out.old.items ++ piece_text self.now ++ signed_decimal value) }
        // ensures kept { OnErr result (take (vec_len out.old) out.new.items ≡ out.old.items) }
        // ensures full { OnErr result (vec_capacity out.old
        //     < vec_len out.old + length (piece_text self.now ++ signed_decimal value)) }
        // ensures capacity { vec_capacity out.old ≤ vec_capacity out.new }
    {
        let size = value.unsigned_abs();
        if 0 <= value && size < 10 && self.len < ROOM {
            let mut whole = *self;
            whole.put_byte(b'0' + size as u8);
            return whole.append_to(out);
        }
        let mut buffer = Buffer::new();
        let number = buffer.format(value).as_bytes();
        if self.len + number.len() > ROOM {
            append(out, &self.bytes[..self.len])?;
            return append(out, number);
        }
        let mut whole = *self;
        whole.put(number);
        whole.append_to(out)
    }
}
