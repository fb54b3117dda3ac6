// Made of crates/ent_script/src/elements.rt by rust/erase. It isn't edited by hand.

//! What the format asks of a JSON value.

use alloc::vec::Vec;
use crate::kit::programs::string::String;
use crate::scripts::names::is_name;
use crate::kit::programs::serde_json::{Map, Value};

/// The elements of an array. `None` if the value is no array.
///
/// <details><summary>Contract</summary>
///
/// <code style="display: block; tab-size: 4; white-space: pre-wrap">// In the words of [contracts](crate::contracts):
/// ensures { option_map (λ list. map view list.now.items) result ≡ elements (view value.now) }
/// </code>
///
/// </details>
#[inline]
pub fn elements(value: &Value) -> Option<&Vec<Value>> {
    value.as_array()
}

/// The members of an object. `None` if the value is no object.
///
/// <details><summary>Contract</summary>
///
/// <code style="display: block; tab-size: 4; white-space: pre-wrap">// In the words of [contracts](crate::contracts):
/// ensures { option_map (λ found. map (λ m. (string_bytes m.0, view m.1)) found.now.entries) result
/// &#9;≡ members (view value.now) }
/// </code>
///
/// </details>
#[inline]
pub fn members(value: &Value) -> Option<&Map<String, Value>> {
    value.as_object()
}

/// Whether the key is one of these.
///
/// <details><summary>Contract</summary>
///
/// <code style="display: block; tab-size: 4; white-space: pre-wrap">// In the words of [contracts](crate::contracts):
/// ensures { result ≡ list_any (λ name. bytes_eq key.now name.now) allowed.now }
/// </code>
///
/// </details>
#[inline]
pub fn is_among(key: &str, allowed: &[&str]) -> bool {
    allowed.iter().any(|name| key == *name)
}

#[inline]
fn are_among(members: &Map<String, Value>, allowed: &[&str]) -> bool
    // ensures { result ≡ list_all (λ key. list_any (λ name. bytes_eq (string_bytes key) name.now)
    //     allowed.now) (keys members.now) }
{
    members.keys().all(|key| is_among(key.as_str(), allowed))
}

/// Whether each key is one of these.
#[inline]
pub(super) fn are_keys_among(members: &Map<String, Value>, allowed: &[&str]) -> bool
    // ensures { result ≡ keys_among (map (λ key. key.now) allowed.now)
    //     (map (λ m. (string_bytes m.0, view m.1)) members.now.entries) }
{
    are_among(members, allowed)
}

/// The whole number in this range that it is.
#[inline]
pub(super) fn whole_within(value: &Value, low: u32, high: u32) -> Option<u32>
    // ensures { result ≡ whole_within low high (view value.now) }
{
    let number = value.as_i64()?;
    if low as i64 <= number && number <= high as i64 {
        Some(number as u32)
    } else {
        None
    }
}

/// The name that a value is: a string of 1 to 32 letters from `a` to `z`, digits and `_`. `None` if
/// it is none.
///
/// <details><summary>Contract</summary>
///
/// <code style="display: block; tab-size: 4; white-space: pre-wrap">// In the words of [contracts](crate::contracts):
/// ensures { option_map (λ text. text.now) result ≡ as_name (view value.now) }
/// </code>
///
/// </details>
#[inline]
pub fn name(value: &Value) -> Option<&str> {
    let text = value.as_str()?;
    if is_name(text) { Some(text) } else { None }
}
