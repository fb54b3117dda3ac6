// Made of crates/ent_script/src/number.rt by rust/erase. It isn't edited by hand.

use crate::kit::programs::fast_float::Numeral;
use crate::kit::programs::serde_json::Number;

#[inline]
fn has_minus(bytes: &[u8]) -> bool
    // ensures value { result ≡ (slice_index bytes.now 0 == 45) }
    // ensures len { IsTrue result → 0 < length bytes.now }
{
    !bytes.is_empty() && bytes[0] == b'-'
}

#[inline]
fn nearest(negative: bool, numeral: &Numeral<'_>) -> Option<Number>
    // ensures { option_map number_view result ≡ float_of negative numeral.now }
{
    Number::from_f64(numeral.to_float::<f64>(negative))
}

#[inline]
fn unsigned(numeral: &Numeral<'_>) -> Option<Number>
    // ensures { option_map number_view result ≡ number_from false numeral.now }
{
    match numeral.to_u64() {
        Some(n) => Some(Number::from(n)),
        None => nearest(false, numeral),
    }
}

#[inline]
fn negative(numeral: &Numeral<'_>) -> Option<Number>
    // ensures { option_map number_view result ≡ number_from true numeral.now }
{
    if let Some(n) = numeral.to_i64(true) {
        if n < 0 {
            return Some(Number::from(n));
        }
    }
    nearest(true, numeral)
}

/// The number that a token of JSON writes, where `serde_json` has one for it.
#[inline]
pub(super) fn number(text: &str) -> Option<Number>
    // ensures { option_map number_view result ≡ number_of text.now }
{
    let bytes = text.as_bytes();
    if has_minus(bytes) {
        negative(&Numeral::scan(&bytes[1..]))
    } else {
        unsigned(&Numeral::scan(bytes))
    }
}
