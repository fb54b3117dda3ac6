//! The decimal of a number without memory, as the crate `itoa` has it.
//!
//! The contracts are those of the kit's `itoa/src/lib.rt`.

use core::ops::Deref;

/// A whole number.
pub trait Integer: Copy {
    /// The number without its sign.
    fn size(self) -> u64;

    /// Whether it is less than 0.
    fn is_negative(self) -> bool;
}

impl Integer for u32 {
    fn size(self) -> u64 {
        u64::from(self)
    }

    fn is_negative(self) -> bool {
        false
    }
}

impl Integer for u64 {
    fn size(self) -> u64 {
        self
    }

    fn is_negative(self) -> bool {
        false
    }
}

impl Integer for usize {
    fn size(self) -> u64 {
        self as u64
    }

    fn is_negative(self) -> bool {
        false
    }
}

impl Integer for i64 {
    fn size(self) -> u64 {
        self.unsigned_abs()
    }

    fn is_negative(self) -> bool {
        self < 0
    }
}

/// Room for the longest number.
pub struct Buffer(Decimal);

/// A number as a text. Its bytes and their count are had without a test whether they are one.
pub struct Decimal {
    bytes: [u8; Decimal::LENGTH],
    /// Where the text begins, which ends with the bytes.
    start: usize,
}

/// The numbers below this one have at most eight digits.
const WORD: u64 = 100_000_000;

/// The least number of each count of digits, above 1.
const LEAST: [u64; 20] = {
    let mut least = [0; 20];
    let mut digits = 1;
    while digits < 20 {
        least[digits] = 10_u64.pow(digits as u32);
        digits += 1;
    }
    least
};

impl Buffer {
    #[inline]
    pub fn new() -> Self {
        Buffer(Decimal {
            bytes: [b'0'; Decimal::LENGTH],
            start: Decimal::LENGTH,
        })
    }

    /// The contract: the text is the number's decimal, without leading zeros, and with a sign only
    /// if it is less than 0.
    #[inline]
    pub fn format<N: Integer>(&mut self, number: N) -> &Decimal {
        self.0.set(number.size(), number.is_negative());
        &self.0
    }
}

impl Decimal {
    /// Three words: `18446744073709551615` and `-9223372036854775808` have 20 bytes.
    const LENGTH: usize = 24;

    // Where only the length is asked for, no digit is written then.
    #[inline(always)]
    fn set(&mut self, size: u64, is_negative: bool) {
        self.start = Decimal::LENGTH - digits_of(size);
        // Most generations are so small.
        if size < 10 {
            self.bytes[Decimal::LENGTH - 1] = b'0' + size as u8;
        } else if size < WORD {
            self.put_eight(16, size);
        } else {
            self.put_eight(16, size % WORD);
            self.put_eight(8, size / WORD % WORD);
            self.put_eight(0, size / WORD / WORD);
        }
        if is_negative {
            self.start -= 1;
            self.bytes[self.start] = b'-';
        }
    }

    #[inline(always)]
    fn put_eight(&mut self, at: usize, number: u64) {
        let digits = eight_digits(number as u32);
        self.bytes[at..at + 8].copy_from_slice(&digits.to_le_bytes());
    }

    #[inline]
    pub fn as_bytes(&self) -> &[u8] {
        &self.bytes[self.start..]
    }

    // A number has a digit.
    #[allow(clippy::len_without_is_empty)]
    #[inline]
    pub fn len(&self) -> usize {
        Decimal::LENGTH - self.start
    }
}

impl Deref for Decimal {
    type Target = str;

    #[inline]
    fn deref(&self) -> &str {
        core::str::from_utf8(self.as_bytes()).expect("digits are ASCII")
    }
}

/// How many digits a number has. A bit makes 0.301 of one.
#[inline(always)]
fn digits_of(number: u64) -> usize {
    let bits = u64::BITS - (number | 1).leading_zeros();
    let digits = ((bits * 1_233) >> 12) as usize;
    digits + usize::from(number >= LEAST[digits])
}

/// The eight digits of a number below 10^8, zeros in front, as a text whose first byte is the
/// lowest one. It has no branch, since the processor can't foresee how long a number is. Each line
/// divides all parts of the word in two: `* 5_243 >> 19` is a division by 100 up to 9,999, and `*
/// 103 >> 10` one by 10 up to 99.
#[inline(always)]
fn eight_digits(number: u32) -> u64 {
    let fours = u64::from(number / 10_000) | u64::from(number % 10_000) << 32;
    let hundreds = ((fours * 5_243) >> 19) & 0x0000_007f_0000_007f;
    let pairs = hundreds | (fours - hundreds * 100) << 16;
    let tens = ((pairs * 103) >> 10) & 0x000f_000f_000f_000f;
    let digits = tens | (pairs - tens * 10) << 8;
    digits | u64::from_le_bytes([b'0'; 8])
}

#[cfg(test)]
mod tests {
    use super::{Buffer, Integer};
    use ::alloc::string::ToString;

    #[track_caller]
    fn is_decimal(number: impl Integer + ToString) {
        let mut buffer = Buffer::new();
        let (wanted, found) = (number.to_string(), buffer.format(number));
        assert_eq!((&**found, found.as_bytes()), (&*wanted, wanted.as_bytes()));
        assert_eq!(found.len(), wanted.len());
    }

    #[test]
    fn decimals_are_those_of_rust() {
        for number in [4_294_967_294, u32::MAX] {
            is_decimal(number);
        }
        for number in [4_294_967_296, u64::MAX] {
            is_decimal(number);
        }
        for number in [0, -1, -9, -10, -99, -100, i64::MIN, i64::MAX] {
            is_decimal(number);
        }
        is_decimal(usize::MAX);
    }

    #[test]
    fn each_count_of_digits_is_right() {
        for number in 0..10_000_u32 {
            is_decimal(number);
            is_decimal(10_000 * number + 9_999 - number);
        }
        let powers = (0..20).map(|digits| 10_u64.pow(digits));
        for number in powers.flat_map(|power| [power - 1, power, power + 1]) {
            is_decimal(number);
        }
    }

    #[test]
    fn a_buffer_is_used_again() {
        let mut buffer = Buffer::new();
        assert_eq!(&**buffer.format(i64::MIN), "-9223372036854775808");
        assert_eq!(&**buffer.format(u32::MAX), "4294967295");
        assert_eq!(&**buffer.format(7_u32), "7");
    }
}
