//! Values of JSON.
//!
//! The contracts are those of the kit's `serde_json/specs`, over those of [`json`](super::json) and
//! of [`fast_float`](super::fast_float).

mod cut;
mod error;
mod number;
mod reading;
mod writing;

pub use error::Error;
pub use number::Number;

use super::string::String;
use crate::kit::collections::BTreeMap;
use ::alloc::vec::Vec;

/// The members of an object, in the order of their keys. Of a key that comes twice the last one
/// counts.
pub type Map<K, V> = BTreeMap<K, V>;

/// A value.
#[derive(Debug, PartialEq)]
pub enum Value {
    Null,
    Bool(bool),
    Number(Number),
    String(String),
    Array(Vec<Value>),
    Object(Map<String, Value>),
}

impl Value {
    /// The contract: the member with this key, or the item at this place, if it is there.
    pub fn get<I: Index>(&self, index: I) -> Option<&Value> {
        index.found_in(self)
    }

    /// The contract: the members, if it is an object.
    pub fn as_object(&self) -> Option<&Map<String, Value>> {
        match self {
            Value::Object(members) => Some(members),
            _ => None,
        }
    }

    /// The contract: the items, if it is an array.
    pub fn as_array(&self) -> Option<&Vec<Value>> {
        match self {
            Value::Array(items) => Some(items),
            _ => None,
        }
    }

    /// The contract: the text, if it is a string.
    pub fn as_str(&self) -> Option<&str> {
        match self {
            Value::String(text) => Some(text),
            _ => None,
        }
    }

    /// The contract: the number, if it is a whole number of type `i64`.
    pub fn as_i64(&self) -> Option<i64> {
        match self {
            Value::Number(number) => number.as_i64(),
            _ => None,
        }
    }

    /// The contract: whether it is a whole number of type `i64`.
    pub fn is_i64(&self) -> bool {
        self.as_i64().is_some()
    }
}

/// What finds a part of a value.
pub trait Index {
    /// The part.
    fn found_in(self, value: &Value) -> Option<&Value>;
}

impl Index for &str {
    fn found_in(self, value: &Value) -> Option<&Value> {
        value.as_object()?.get(self)
    }
}

impl Index for usize {
    fn found_in(self, value: &Value) -> Option<&Value> {
        value.as_array()?.get(self)
    }
}

#[cfg(test)]
mod tests;
