//! Rows of what is written and of what is refused.

use serde::de::DeserializeOwned;
use serde::Serialize;
use std::fmt::Debug;

/// The value is written as this JSON and as these bytes, and both are read as the value.
#[track_caller]
pub fn written<T>(value: &T, json: &str, bytes: &[u8])
where
    T: Serialize + DeserializeOwned + PartialEq + Debug,
{
    assert_eq!(serde_json::to_string(value).expect("JSON"), json);
    assert_eq!(bincode::serialize(value).expect("bytes"), bytes);
    assert_eq!(&serde_json::from_str::<T>(json).expect(json), value);
    assert_eq!(
        &serde_json::from_reader::<_, T>(json.as_bytes()).expect(json),
        value
    );
    let tree: serde_json::Value = serde_json::from_str(json).expect(json);
    assert_eq!(&serde_json::from_value::<T>(tree).expect(json), value);
    assert_eq!(&bincode::deserialize::<T>(bytes).expect("a value"), value);
}

/// The JSON isn't read as such a value, and the message begins so.
#[track_caller]
pub fn refused<T: DeserializeOwned + Debug>(json: &str, message: &str) {
    let error = serde_json::from_str::<T>(json).expect_err(json).to_string();
    assert!(error.starts_with(message), "{json}: {error}");
}

/// The bytes aren't read as such a value, and the message is this one.
#[track_caller]
pub fn refused_bytes<T: DeserializeOwned + Debug>(bytes: &[u8], message: &str) {
    let error = bincode::deserialize::<T>(bytes).expect_err(message);
    assert_eq!(error.to_string(), message, "{bytes:?}");
}
