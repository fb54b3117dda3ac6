// Made of crates/ent_handle/src/decimal.rt by rust/erase. It isn't edited by hand.

use crate::handles::text::ParseHandleError;

#[inline]
fn all_digits(bytes: &[u8]) -> bool
    // ensures { result ≡ list_all is_ascii_digit bytes.now }
{
    bytes.iter().all(|byte| byte.is_ascii_digit())
}

/// Whether the bytes are `0`, or digits of which the first is not `0`.
#[inline]
pub(super) fn is_decimal(bytes: &[u8]) -> bool
    // ensures { result ≡ is_decimal_of bytes.now }
{
    let [first, others @ ..] = bytes else {
        return false;
    };
    if *first == b'0' {
        others.is_empty()
    } else {
        all_digits(bytes)
    }
}

/// The number that a decimal writes, or `None` if it is 2^32 or more.
#[inline]
pub(super) fn decimal_value(bytes: &[u8]) -> Option<u32>
    // requires { IsDecimal bytes.now }
    // ensures value { IfSome result (λ n. n ≡ digits_value 10 bytes.now) }
    // ensures in_range { IsSome result ↔ (digits_value 10 bytes.now < 2 ^ 32) }
{
    let mut value: u32 = 0;
    for byte in bytes {
        value = value.checked_mul(10)?.checked_add(u32::from(*byte - b'0'))?;
    }
    Some(value)
}

/// The number of this text, which is a decimal: `0`, or digits of which the first is not `0`.
///
/// It takes time linear in the length of the text, however long that is, and doesn't allocate.
///
/// # Errors
///
/// - `Shape`: the text is not a decimal.
/// - `Range`: it is a decimal, and its number is 2^32 or more.
///
/// <details><summary>Contract</summary>
///
/// <code style="display: block; tab-size: 4; white-space: pre-wrap">// In the words of [contracts](crate::contracts):
/// // The text is the decimal of the number that is read.
/// ensures found { [IfOk](crate::contracts::logic#IfOk) result (λ n. bytes.now ≡ [decimal](crate::contracts::logic#decimal) n) }
/// // The decimal of each number below 2^32 is read as that number.
/// ensures only { (n : [ℕ](crate::contracts::logic#ℕ)) → n \< 2 ^ 32 → bytes.now ≡ [decimal](crate::contracts::logic#decimal) n → result ≡ Ok n }
/// &#32;
/// ensures shape { [IsErrOf](crate::contracts::logic#IsErrOf) result ParseHandleError.Shape ↔ (¬ [IsDecimal](crate::contracts::ent_handle::text#IsDecimal) bytes.now) }
/// ensures range { [IsErrOf](crate::contracts::logic#IsErrOf) result ParseHandleError.Range
/// &#9;↔ ([IsDecimal](crate::contracts::ent_handle::text#IsDecimal) bytes.now × (2 ^ 32 ≤ [digits_value](crate::contracts::logic#digits_value) 10 bytes.now)) }
/// &#32;
/// // The whole result, as a function of the text.
/// ensures exact { result ≡ [number_of](crate::contracts::ent_handle::text#number_of) bytes.now }
/// </code>
///
/// </details>
#[inline]
pub fn read_decimal(bytes: &[u8]) -> Result<u32, ParseHandleError> {
    if !is_decimal(bytes) {
        return Err(ParseHandleError::Shape);
    }
    decimal_value(bytes).ok_or(ParseHandleError::Range)
}
