//! Tests of values at the edges. `.ci/tokens.py` compares them with an independent reader.

use super::*;
use crate::kit::programs::string::ToStringIn;
use crate::kit::refusing::refuse;
use std::string::ToString as _;
use std::{format, vec};

/// What a text reads as, written again, or why it isn't read.
fn said(text: &[u8]) -> std::string::String {
    match Value::from_slice(text) {
        Ok(value) => value.to_string_in().expect("memory").to_string(),
        Err(error) => error.to_string(),
    }
}

#[track_caller]
fn says(text: &str, wanted: &str) {
    assert_eq!(said(text.as_bytes()), wanted, "{text}");
}

#[test]
fn values_are_written_without_blanks_in_the_order_of_their_keys() {
    says(
        " { \"b\" : [ 1 , null ] ,\n\"a\":{\"é\":true}, \"c\":[] }",
        "{\"a\":{\"é\":true},\"b\":[1,null],\"c\":[]}",
    );
    says("{\"a\":1,\"b\":2,\"a\":3}", "{\"a\":3,\"b\":2}");
    says("{}", "{}");
    says(
        r#""a\u0000\u001f\"\\\/\b\f\n\r\t\u007f\ud83d\ude00""#,
        "\"a\\u0000\\u001f\\\"\\\\/\\b\\f\\n\\r\\t\u{7f}😀\"",
    );
}

#[test]
fn numbers_at_the_ends_of_their_types() {
    for (text, wanted) in [
        ("18446744073709551615", "18446744073709551615"),
        ("18446744073709551616", "1.8446744073709552e+19"),
        ("-9223372036854775808", "-9223372036854775808"),
        ("-9223372036854775809", "-9.223372036854776e+18"),
        ("-0", "-0.0"),
        ("0.0", "0.0"),
        ("1.0", "1.0"),
        ("1e0", "1.0"),
        ("123e-2", "1.23"),
        ("1e15", "1000000000000000.0"),
        ("1e16", "1e+16"),
        ("123456789012345680.0", "1.2345678901234568e+17"),
        ("1234567890123456.7", "1234567890123456.8"),
        ("1844674407370955.25", "1844674407370955.2"),
        ("1844674407370955.75", "1844674407370955.8"),
        ("9007199254740993.0", "9007199254740992.0"),
        ("2.2250738585072014e-308", "2.2250738585072014e-308"),
        ("0.00001", "0.00001"),
        ("1.5e-5", "0.000015"),
        ("0.000001", "1e-6"),
        ("1.25e-7", "1.25e-7"),
        ("1e30", "1e+30"),
        ("5e-324", "5e-324"),
        ("-1.7976931348623157e308", "-1.7976931348623157e+308"),
    ] {
        says(text, wanted);
    }
    says("[1e309]", "number out of range at line 1 column 7");
    says("-1e400", "number out of range at line 1 column 6");
}

#[test]
fn whole_numbers_are_those_of_their_type() {
    let number = |text: &str| {
        Value::from_slice(text.as_bytes())
            .expect("a number")
            .as_i64()
    };
    assert_eq!(number("9223372036854775807"), Some(i64::MAX));
    assert_eq!(number("9223372036854775808"), None);
    assert_eq!(number("-9223372036854775808"), Some(i64::MIN));
    assert_eq!(
        (number("1.0"), number("\"1\""), number("[1]")),
        (None, None, None)
    );
    assert_eq!(
        (Number::from(-1_i64), Number::from(1_i64)),
        (Number::Negative(-1), Number::Positive(1))
    );
    assert_eq!(
        (Number::from_f64(f64::NAN), Number::from_f64(f64::INFINITY)),
        (None, None)
    );
}

#[test]
fn a_text_that_ends_too_early_says_so() {
    for (text, column) in [
        ("", 0),
        (" ", 1),
        ("[1,", 3),
        ("[1", 2),
        ("[1 ", 3),
        ("tru", 1),
        ("[nul", 2),
        ("-", 1),
        ("[1.", 2),
        ("1e", 1),
        ("1E+", 1),
        ("\"a", 1),
        ("\"\\", 1),
        ("\"\\u12", 1),
        ("\"\\u12\"", 1),
        ("\"\\ud800", 1),
        ("\"\\udc00", 1),
        ("{", 1),
        ("{\"a\"", 4),
        ("{\"a\":", 5),
        ("{\"a\":1", 6),
        ("{\"a\":1,", 7),
        ("{\"a", 2),
        ("[[]", 3),
        ("{\"a\":{}", 7),
    ] {
        says(
            text,
            &format!("EOF while parsing at line 1 column {column}"),
        );
    }
    says("[\n\n1,\n  tru", "EOF while parsing at line 4 column 3");
    says("[1,\r\n", "EOF while parsing at line 2 column 0");
    says(&"[".repeat(127), "EOF while parsing at line 1 column 127");
    assert_eq!(said(b"[\"a\xc3"), "EOF while parsing at line 1 column 4");
    assert_eq!(said(b"[\"\xff\xff"), "EOF while parsing at line 1 column 3");
}

#[test]
fn another_fault_says_that_it_is_no_json() {
    for (text, column) in [
        ("x", 1),
        ("[,", 2),
        ("[1 2", 4),
        ("[1}", 3),
        ("{1", 2),
        ("{\"a\" 1", 6),
        ("trx", 1),
        ("nulll", 1),
        ("[tru,", 2),
        ("[1e,", 2),
        ("-x", 1),
        ("1 2", 3),
        ("[1],", 4),
        ("\"\\x", 1),
        ("\"\u{1}", 1),
        ("\"\\u12g4", 1),
        ("\"\\ud800\"", 1),
        ("00", 1),
        ("}", 1),
        ("[1,]", 4),
        ("{\"a\":}", 6),
        ("\u{feff}1", 1),
        ("[1x", 2),
        (":", 1),
    ] {
        says(text, &format!("invalid JSON at line 1 column {column}"));
    }
    says("[\n\n1,\n  trx", "invalid JSON at line 4 column 3");
    assert_eq!(said(b"\xc3"), "invalid JSON at line 1 column 1");
    assert_eq!(said(b"[1\xff"), "invalid JSON at line 1 column 3");
    assert_eq!(said(b"\n\n\xff"), "invalid JSON at line 3 column 1");
}

#[test]
fn a_value_may_be_nested_127_deep() {
    let nested = |deep: usize| format!("{}{}", "[".repeat(deep), "]".repeat(deep));
    says(&nested(127), &nested(127));
    says(&nested(128), "invalid JSON at line 1 column 129");
    let objects = |deep: usize| format!("{}1{}", "{\"a\":".repeat(deep), "}".repeat(deep));
    says(&objects(127), &objects(127));
    assert!(Value::from_slice(objects(128).as_bytes()).is_err());
}

#[test]
fn parts_are_found_by_their_keys_and_places() {
    let value = Value::from_slice(br#"{"a":[1,"x"],"b":{}}"#).expect("a value");
    let item = value.get("a").and_then(|list| list.get(1));
    assert_eq!(item.and_then(Value::as_str), Some("x"));
    assert_eq!(value.get("a").and_then(|list| list.get(2)), None);
    assert_eq!((value.get("c"), value.get(0)), (None, None));
    assert_eq!(value.get("a").and_then(|list| list.get("a")), None);
    assert!(value
        .get("b")
        .and_then(Value::as_object)
        .is_some_and(|it| it.is_empty()));
    assert!(value.get("b").and_then(Value::as_array).is_none());
    assert!(!value.is_i64());
}

#[test]
fn out_of_memory_is_said() {
    for text in ["[1]", "{\"a\":1}", "\"a\"", "\"\\n\""] {
        let refused = refuse(|| Value::from_slice(text.as_bytes())).expect_err("no memory");
        assert_eq!(
            (refused.is_memory(), refused.to_string()),
            (true, "out of memory".to_string())
        );
    }
    let value = Value::from_slice(b"[\"a\"]").expect("a value");
    assert!(refuse(|| value.to_string_in()).is_err());
    let invalid = Value::from_slice(b"[").expect_err("no value");
    assert!(!invalid.is_memory());
}

/// Reads texts that are apart by a byte 0, and writes what each reads as. `.ci/tokens.py` runs it.
#[test]
#[ignore = "it needs a file"]
fn values_of_a_file() {
    let path = |name| std::env::var_os(name).expect("a path");
    let texts = std::fs::read(path("TEXTS")).expect("the texts");
    let texts: vec::Vec<&[u8]> = texts.split(|byte| *byte == 0).collect();
    let lines: std::string::String = texts.iter().map(|text| said(text) + "\0").collect();
    std::fs::write(path("SAID"), lines).expect("a file");
}
