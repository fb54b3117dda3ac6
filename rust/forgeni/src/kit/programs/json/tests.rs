//! Tests of the tokens at the edges of the grammar. `.ci/tokens.py` compares them with an
//! independent reader.

use super::*;
use crate::kit::refusing::refuse;
use std::string::{String, ToString as _};
use std::{format, vec};

/// The tokens of a text, each as a word, and where the reader is then.
fn tokens(text: &str) -> (String, usize) {
    tokens_by(text, |_| None)
}

/// The same, with strings as `shown` has them.
fn tokens_by(text: &str, shown: impl Fn(&Token<'_>) -> Option<String>) -> (String, usize) {
    let mut scratch = Scratch::new();
    let mut reader = Reader::new(text, &mut scratch).expect("memory");
    let mut found = vec![];
    while let Some(token) = reader.next() {
        let word = || match token {
            Token::BeginObject => "{".to_string(),
            Token::EndObject => "}".to_string(),
            Token::BeginArray => "[".to_string(),
            Token::EndArray => "]".to_string(),
            Token::Key(text) => format!("{text:?}:"),
            Token::String(text) => format!("{text:?}"),
            Token::Number(text) => text.to_string(),
            Token::Bool(is) => is.to_string(),
            Token::Null => "null".to_string(),
            Token::Bad => "bad".to_string(),
        };
        found.push(shown(&token).unwrap_or_else(word));
    }
    (found.join(" "), reader.offset())
}

#[track_caller]
fn has(text: &str, wanted: &str) {
    assert_eq!(tokens(text).0, wanted, "{text}");
}

#[test]
fn all_tokens() {
    has(
        " {\"a\" : [1, -2.5e+3,\ttrue,false ,null], \"b\":{}}\r\n",
        "{ \"a\": [ 1 -2.5e+3 true false null ] \"b\": { } }",
    );
    has("", "");
    has(" \n ", "");
}

#[test]
fn commas_and_colons_have_their_places() {
    for (text, wanted) in [
        ("[,1]", "[ bad"),
        ("[1,]", "[ 1 bad"),
        ("[1,,2]", "[ 1 bad"),
        ("[1 2]", "[ 1 bad"),
        ("1,", "1 bad"),
        (",", "bad"),
        (":", "bad"),
        ("[1:2]", "[ 1 bad"),
        ("{\"a\":}", "{ \"a\": }"),
        ("{\"a\"::1}", "{ \"a\": bad"),
        ("{\"a\":1:2}", "{ \"a\": 1 bad"),
        ("{\"a\" 1}", "{ \"a\" bad"),
        ("{\"a\":1,}", "{ \"a\": 1 bad"),
        ("[1}", "[ 1 }"),
        ("]", "]"),
    ] {
        has(text, wanted);
    }
}

#[test]
fn numbers_at_the_edges_of_the_grammar() {
    for text in [
        "0",
        "-0",
        "10",
        "0.0",
        "1e5",
        "1E-05",
        "-1.5e+10",
        "99999999999999999999",
    ] {
        has(text, text);
    }
    for text in [
        "00", "01", "-", "+1", ".5", "1.", "1.e1", "1e", "1e+", "0x1", "-a", "1a", "1\"", "NaN",
        "Infinity",
    ] {
        has(text, "bad");
    }
    has("[1]", "[ 1 ]");
    has("1:", "1 bad");
}

#[test]
fn literals_are_whole_words() {
    for text in [
        "tru", "truee", "True", "nul", "nullx", "falsee", "true\"", "t", "é",
    ] {
        has(text, "bad");
    }
    has("[true]", "[ true ]");
    has("true\u{b}", "bad");
    has("\u{a0}true", "bad");
    has("\u{feff}1", "bad");
}

#[test]
fn strings_and_their_escapes() {
    for (text, wanted) in [
        (r#""""#, ""),
        (r#""a\"b\\c\/d\b\f\n\r\t""#, "a\"b\\c/d\u{8}\u{c}\n\r\t"),
        (r#""\u0041\u00e9\u20AC""#, "Aé€"),
        (r#""\ud83d\ude00""#, "😀"),
        (r#""\uD800\uDC00\udbff\udfff""#, "\u{10000}\u{10ffff}"),
        (r#""\u0000""#, "\0"),
        ("\"é\u{7f}\u{2028}\"", "é\u{7f}\u{2028}"),
    ] {
        has(text, &format!("{wanted:?}"));
    }
    for text in [
        r#"""#,
        r#""a"#,
        r#""\"#,
        r#""\""#,
        r#""\x""#,
        r#""\u12""#,
        r#""\u12g4""#,
        r#""\u+123""#,
        r#""\ud800""#,
        r#""\ud800a""#,
        r#""\ud800\n""#,
        r#""\ud800\u0041""#,
        r#""\ud800\ud800""#,
        r#""\udc00""#,
        "\"\n\"",
        "\"\u{1f}\"",
        "\"\\\n\"",
    ] {
        has(text, "bad");
    }
    has(r#""a"b"#, "\"a\" bad");
    has(r#""a""b""#, "\"a\" bad");
}

#[test]
fn where_a_string_ends_is_found_at_each_place_of_eight_bytes() {
    for before in 0..20 {
        for (mark, wanted) in [
            ("\"", true),
            ("\\n\"", true),
            ("\u{1}\"", false),
            ("\u{80}\"", true),
            ("!#[]\"", true),
        ] {
            let text = format!("\"{}{mark}", "x".repeat(before));
            assert_eq!(tokens(&text).0 != "bad", wanted, "{text:?}");
        }
        for letter in '\0'..='!' {
            let text = format!("\"{}{letter}xxxxxxxx\"", "x".repeat(before));
            assert_eq!(tokens(&text).0 != "bad", letter >= ' ', "{text:?}");
        }
    }
}

#[test]
fn many_strings_with_escapes_share_the_room() {
    let text = format!("[{}]", vec!["\"\\ud83d\\ude00\\n\""; 50].join(","));
    let wanted = format!("[ {} ]", vec!["\"😀\\n\""; 50].join(" "));
    has(&text, &wanted);
}

#[test]
fn a_fault_is_where_its_token_begins_and_nothing_follows() {
    assert_eq!(tokens("[1,  tru]").1, 5);
    assert_eq!(tokens("[1, \"a\u{1}\"]").1, 4);
    assert_eq!(tokens("[1,  ").1, 5);
    assert_eq!(tokens(" [1] ").1, 5);
    let mut scratch = Scratch::new();
    let mut reader = Reader::new("[,]", &mut scratch).expect("memory");
    assert_eq!(reader.next(), Some(Token::BeginArray));
    assert_eq!(
        (reader.next(), reader.next(), reader.next()),
        (Some(Token::Bad), None, None)
    );
    assert!(!reader.take_end_array());
    assert_eq!(reader.next_key(), Err(Invalid));
}

#[test]
fn keys_and_ends_of_arrays_are_taken_where_they_are_next() {
    let mut scratch = Scratch::new();
    let mut reader = Reader::new("{\"a\\n\":[],\"b\":[1]}", &mut scratch).expect("memory");
    assert_eq!(reader.next(), Some(Token::BeginObject));
    assert_eq!(reader.next_key(), Ok(Some("a\n")));
    assert!(!reader.take_end_array());
    assert_eq!(reader.next(), Some(Token::BeginArray));
    assert!(reader.take_end_array());
    assert!(!reader.take_end_array());
    assert_eq!(reader.next_key(), Ok(Some("b")));
    assert_eq!(reader.next(), Some(Token::BeginArray));
    assert_eq!(reader.next(), Some(Token::Number("1")));
    assert!(reader.take_end_array());
    assert_eq!((reader.next_key(), reader.next()), (Ok(None), None));
    let mut reader = Reader::new("{1:2}", &mut scratch).expect("memory");
    assert_eq!(reader.next(), Some(Token::BeginObject));
    assert_eq!((reader.next_key(), reader.next()), (Err(Invalid), None));
    let mut reader = Reader::new("[1,]", &mut scratch).expect("memory");
    assert_eq!(
        (reader.next(), reader.next()),
        (Some(Token::BeginArray), Some(Token::Number("1")))
    );
    assert!(!reader.take_end_array());
}

#[test]
fn a_scratch_that_has_room_asks_for_none() {
    let mut scratch = Scratch::new();
    assert!(refuse(|| Reader::new("[\"\\n\"]", &mut scratch).is_err()));
    assert!(Reader::new("[\"\\n\",2]", &mut scratch).is_ok());
    assert!(refuse(|| Reader::new("[\"\\n\"]", &mut scratch).is_ok()));
}

#[test]
fn a_text_without_a_backslash_needs_no_scratch() {
    for text in ["", "[1]", "\"a long string, and a / in it\""] {
        assert!(refuse(|| Reader::new(text, &mut Scratch::new()).is_ok()));
    }
}

/// Reads texts that are apart by a byte 0, and writes the tokens of each. `.ci/tokens.py` runs it.
#[test]
#[ignore = "it needs a file"]
fn tokens_of_a_file() {
    let path = |name| std::env::var_os(name).expect("a path");
    let texts = std::fs::read_to_string(path("TEXTS")).expect("the texts");
    let hex = |mark: &str, text: &str| {
        let bytes = text.bytes().map(|byte| format!("{byte:02x}"));
        mark.to_string() + &bytes.collect::<String>()
    };
    let line = |text: &str| {
        let strings = |token: &Token<'_>| match token {
            Token::Key(text) => Some(hex("k", text)),
            Token::String(text) => Some(hex("s", text)),
            _ => None,
        };
        tokens_by(text, strings).0 + "\0"
    };
    let lines: String = texts.split('\0').map(line).collect();
    std::fs::write(path("SAID"), lines).expect("a file");
}
