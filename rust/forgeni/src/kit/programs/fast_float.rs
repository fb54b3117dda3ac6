//! The decimal numerals of JSON, as numbers.
//!
//! The contracts are those of the kit's `fast_float/specs`.

/// The text of a number that the grammar of JSON (RFC 8259) has, without its sign.
pub struct Numeral<'a> {
    bytes: &'a [u8],
    /// The number, if it has neither a point nor an exponent and is below 2^64.
    whole: Option<u64>,
}

/// A type of floats.
pub trait Float: core::str::FromStr + core::ops::Neg<Output = Self> + Default {}

impl Float for f64 {}

impl<'a> Numeral<'a> {
    /// The contract: the numeral that these bytes are. Who calls it has a token of a number.
    #[inline]
    pub fn scan(bytes: &'a [u8]) -> Self {
        Numeral {
            bytes,
            whole: whole(bytes),
        }
    }

    /// The contract: the number, if it has neither a point nor an exponent and is below 2^64.
    #[inline]
    pub fn to_u64(&self) -> Option<u64> {
        self.whole
    }

    /// The contract: the number with its sign, if it has neither a point nor an exponent and is
    /// from -2^63 to 2^63 - 1.
    #[inline]
    pub fn to_i64(&self, negative: bool) -> Option<i64> {
        let size = self.to_u64()?;
        if negative {
            0_i64.checked_sub_unsigned(size)
        } else {
            i64::try_from(size).ok()
        }
    }

    /// The contract: the float that is nearest to the number with its sign, of two the even one,
    /// and infinity for a number that rounds to more than the largest float. Rust's `parse`
    /// promises the same.
    pub fn to_float<F: Float>(&self, negative: bool) -> F {
        let text = core::str::from_utf8(self.bytes).unwrap_or("0");
        let size: F = text.parse().unwrap_or_default();
        if negative {
            -size
        } else {
            size
        }
    }
}

/// The number that the digits write, if all bytes are digits and it is below 2^64.
#[inline]
fn whole(bytes: &[u8]) -> Option<u64> {
    // So many digits are no number of 2^64 or more.
    const SURE: usize = 19;
    let mut number = 0_u64;
    for (at, byte) in bytes.iter().enumerate() {
        let digit = u64::from(byte.wrapping_sub(b'0'));
        if digit > 9 {
            return None;
        }
        number = if at < SURE {
            number * 10 + digit
        } else {
            number.checked_mul(10)?.checked_add(digit)?
        };
    }
    Some(number)
}

#[cfg(test)]
mod tests {
    use super::Numeral;

    fn numeral(text: &str) -> Numeral<'_> {
        Numeral::scan(text.as_bytes())
    }

    #[test]
    fn whole_numbers_at_the_ends_of_their_types() {
        assert_eq!(numeral("0").to_u64(), Some(0));
        assert_eq!(numeral("18446744073709551615").to_u64(), Some(u64::MAX));
        assert_eq!(numeral("18446744073709551616").to_u64(), None);
        assert_eq!(
            numeral("9999999999999999999").to_u64(),
            Some(9_999_999_999_999_999_999)
        );
        assert_eq!(numeral("99999999999999999999").to_u64(), None);
        assert_eq!(numeral("184467440737095516150").to_u64(), None);
        assert_eq!(numeral("9223372036854775807").to_i64(false), Some(i64::MAX));
        assert_eq!(numeral("9223372036854775808").to_i64(false), None);
        assert_eq!(numeral("9223372036854775808").to_i64(true), Some(i64::MIN));
        assert_eq!(numeral("9223372036854775809").to_i64(true), None);
        assert_eq!(numeral("0").to_i64(true), Some(0));
    }

    #[test]
    fn a_point_or_an_exponent_makes_no_whole_number() {
        for text in ["1.0", "1e0", "1E2", "0.5", "10e-1"] {
            assert_eq!(
                (numeral(text).to_u64(), numeral(text).to_i64(true)),
                (None, None)
            );
        }
    }

    #[test]
    fn floats_are_the_nearest_ones() {
        let float = |text| numeral(text).to_float::<f64>(false);
        assert_eq!(float("1e30"), 1e30);
        assert_eq!(float("9007199254740993"), 9_007_199_254_740_992.0);
        assert_eq!(float("1.7976931348623157e308"), f64::MAX);
        assert_eq!(float("1e309"), f64::INFINITY);
        assert_eq!(float("4.9e-324"), f64::from_bits(1));
        assert_eq!(float("1e-400"), 0.0);
        assert_eq!(numeral("1e309").to_float::<f64>(true), f64::NEG_INFINITY);
        assert!(numeral("0").to_float::<f64>(true).is_sign_negative());
    }
}
