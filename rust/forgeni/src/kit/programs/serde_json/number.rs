//! Numbers.

use crate::kit::programs::fast_float::Numeral;

/// A number. Which of the three it is depends on the number alone, and on whether it was written as
/// a whole one.
#[derive(Clone, Copy, Debug, PartialEq)]
pub enum Number {
    /// A whole number that isn't negative.
    Positive(u64),
    /// A whole number below 0.
    Negative(i64),
    /// Another number, which is finite.
    Float(f64),
}

impl Number {
    /// The contract: the float, if it is finite.
    pub fn from_f64(float: f64) -> Option<Self> {
        float.is_finite().then_some(Number::Float(float))
    }

    /// The contract: the number, if it is a whole number of type `i64`.
    pub fn as_i64(&self) -> Option<i64> {
        match *self {
            Number::Positive(number) => i64::try_from(number).ok(),
            Number::Negative(number) => Some(number),
            Number::Float(_) => None,
        }
    }

    /// The contract: the number of this token: a whole one if its type has it, and else the nearest
    /// float. A number beyond all floats is none, and `-0` is a float.
    pub(super) fn read(token: &str) -> Option<Self> {
        let Some(size) = token.strip_prefix('-') else {
            let numeral = Numeral::scan(token.as_bytes());
            let whole = numeral.to_u64().map(Number::Positive);
            return whole.or_else(|| Number::from_f64(numeral.to_float(false)));
        };
        let numeral = Numeral::scan(size.as_bytes());
        let whole = numeral.to_i64(true).filter(|number| *number < 0);
        let whole = whole.map(Number::Negative);
        whole.or_else(|| Number::from_f64(numeral.to_float(true)))
    }
}

impl From<u64> for Number {
    fn from(number: u64) -> Self {
        Number::Positive(number)
    }
}

impl From<i64> for Number {
    fn from(number: i64) -> Self {
        match u64::try_from(number) {
            Ok(number) => Number::Positive(number),
            Err(_) => Number::Negative(number),
        }
    }
}
