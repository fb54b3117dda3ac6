//! Text to tokens. Put together again, the tokens are the text.

/// What a token is.
#[derive(Clone, Copy, Debug, PartialEq, Eq)]
pub enum Kind {
    /// Spaces and ends of lines.
    Blank,
    /// A comment, of a line or of a block, also one that is documentation.
    Comment,
    /// A name or a keyword.
    Word,
    /// A lifetime or a label, with its quote.
    Lifetime,
    /// A number.
    Number,
    /// A text, a character, or bytes, with the quotes.
    Literal,
    /// Any other sign. `->`, `=>`, `::`, `..`, `..=` are one token each.
    Sign,
}

/// A piece of a text.
#[derive(Clone, Copy, Debug, PartialEq, Eq)]
pub struct Token {
    /// What it is.
    pub kind: Kind,
    /// Its first byte.
    pub from: usize,
    /// The byte after its last one.
    pub to: usize,
}

/// Signs of more than one character. A longer one stands before its own beginning.
const LONG_SIGNS: [&str; 5] = ["..=", "..", "->", "=>", "::"];

/// Cuts the text into tokens.
///
/// # Errors
///
/// The byte at which a token begins that has no end or isn't known, and what it is.
pub fn tokens(text: &str) -> Result<Vec<Token>, (usize, &'static str)> {
    let mut tokens = Vec::new();
    let mut from = 0;
    while from < text.len() {
        let (kind, len) = first(&text[from..]).map_err(|what| (from, what))?;
        let to = from + len;
        tokens.push(Token { kind, from, to });
        from = to;
    }
    Ok(tokens)
}

/// Whether a name goes on with this character.
pub fn is_word(c: char) -> bool {
    c.is_alphanumeric() || c == '_'
}

/// The kind of the first token and its length.
fn first(text: &str) -> Result<(Kind, usize), &'static str> {
    let begin = text.chars().next().expect("a character");
    if begin.is_whitespace() {
        return Ok((Kind::Blank, span(text, char::is_whitespace)));
    }
    if text.starts_with("//") {
        return Ok((Kind::Comment, text.find('\n').unwrap_or(text.len())));
    }
    if text.starts_with("/*") {
        return Ok((Kind::Comment, block_comment(text)?));
    }
    if begin == '"' {
        return Ok((Kind::Literal, quoted(text, 1, '"')?));
    }
    if begin == '\'' {
        return character_or_lifetime(text);
    }
    if begin.is_ascii_digit() {
        return Ok((Kind::Number, number(text)));
    }
    if is_word(begin) {
        return word_or_prefixed(text);
    }
    let long = LONG_SIGNS.iter().find(|sign| text.starts_with(**sign));
    Ok((Kind::Sign, long.map_or(begin.len_utf8(), |sign| sign.len())))
}

/// How many bytes from the beginning are such characters.
fn span(text: &str, is: impl Fn(char) -> bool) -> usize {
    text.find(|c| !is(c)).unwrap_or(text.len())
}

fn block_comment(text: &str) -> Result<usize, &'static str> {
    let mut depth = 0;
    let mut at = 0;
    while at < text.len() {
        if text[at..].starts_with("/*") {
            depth += 1;
            at += 2;
        } else if text[at..].starts_with("*/") {
            depth -= 1;
            at += 2;
            if depth == 0 {
                return Ok(at);
            }
        } else {
            at += text[at..].chars().next().map_or(1, char::len_utf8);
        }
    }
    Err("a comment without an end")
}

/// The length of a literal whose text begins at `from` and ends with this quote.
fn quoted(text: &str, from: usize, quote: char) -> Result<usize, &'static str> {
    let mut chars = text[from..].char_indices();
    while let Some((at, c)) = chars.next() {
        if c == '\\' {
            chars.next();
        } else if c == quote {
            return Ok(from + at + c.len_utf8());
        }
    }
    Err("a literal without an end")
}

fn character_or_lifetime(text: &str) -> Result<(Kind, usize), &'static str> {
    let mut chars = text[1..].chars();
    let (first, second) = (chars.next(), chars.next());
    match (first, second) {
        (Some('\\'), _) | (Some(_), Some('\'')) => Ok((Kind::Literal, quoted(text, 1, '\'')?)),
        (Some(c), _) if is_word(c) => Ok((Kind::Lifetime, 1 + span(&text[1..], is_word))),
        _ => Err("a quote that begins nothing"),
    }
}

/// Digits and letters, with a point if a digit follows it.
fn number(text: &str) -> usize {
    let whole = span(text, is_word);
    match text[whole..].strip_prefix('.') {
        Some(rest) if rest.starts_with(|c: char| c.is_ascii_digit()) => {
            whole + 1 + span(rest, is_word)
        }
        _ => whole,
    }
}

/// A word, or a literal that begins with letters, as `b"..."` and `r#"..."#`.
fn word_or_prefixed(text: &str) -> Result<(Kind, usize), &'static str> {
    let len = span(text, is_word);
    let (word, rest) = text.split_at(len);
    match (word, rest.chars().next()) {
        ("c" | "cr", Some('"' | '#')) => Err("a literal of C"),
        ("b", Some('"')) => Ok((Kind::Literal, quoted(text, len + 1, '"')?)),
        ("b", Some('\'')) => Ok((Kind::Literal, quoted(text, len + 1, '\'')?)),
        ("r" | "br", Some('"' | '#')) => Ok((Kind::Literal, raw(text, len)?)),
        _ => Ok((Kind::Word, len)),
    }
}

/// The length of a raw literal whose prefix has this length.
fn raw(text: &str, prefix: usize) -> Result<usize, &'static str> {
    let hashes = span(&text[prefix..], |c| c == '#');
    let from = prefix + hashes + 1;
    if !text[prefix + hashes..].starts_with('"') {
        return Err("a raw name");
    }
    let end = format!("\"{}", "#".repeat(hashes));
    match text[from..].find(&end) {
        Some(at) => Ok(from + at + end.len()),
        None => Err("a literal without an end"),
    }
}

#[cfg(test)]
mod tests {
    use super::*;

    fn pieces(text: &str) -> Vec<(Kind, &str)> {
        let tokens = tokens(text).expect("tokens");
        let joined: String = tokens.iter().map(|it| &text[it.from..it.to]).collect();
        assert_eq!(joined, text);
        tokens
            .iter()
            .filter(|it| it.kind != Kind::Blank)
            .map(|it| (it.kind, &text[it.from..it.to]))
            .collect()
    }

    #[test]
    fn words_and_signs() {
        use Kind::{Number, Sign, Word};
        assert_eq!(
            pieces("a::b->c=>0..=9_u8 .. 1.5e3 x.0.1"),
            [
                (Word, "a"),
                (Sign, "::"),
                (Word, "b"),
                (Sign, "->"),
                (Word, "c"),
                (Sign, "=>"),
                (Number, "0"),
                (Sign, "..="),
                (Number, "9_u8"),
                (Sign, ".."),
                (Number, "1.5e3"),
                (Word, "x"),
                (Sign, "."),
                (Number, "0.1"),
            ]
        );
    }

    #[test]
    fn signs_of_proofs() {
        use Kind::{Sign, Word};
        assert_eq!(
            pieces("λ n. ◌≡◌ ≢ ℤ"),
            [
                (Word, "λ"),
                (Word, "n"),
                (Sign, "."),
                (Sign, "◌"),
                (Sign, "≡"),
                (Sign, "◌"),
                (Sign, "≢"),
                (Word, "ℤ"),
            ]
        );
    }

    #[test]
    fn literals() {
        for literal in [
            r#""""#,
            r#""a \" // b""#,
            r##"r#"a " b"#"##,
            r##"br"\""##,
            r#"b"\\""#,
            "'x'",
            r"'\''",
            r"'\u{1F600}'",
            "b'v'",
            "'é'",
        ] {
            assert_eq!(pieces(literal), [(Kind::Literal, literal)]);
        }
    }

    #[test]
    fn lifetimes_are_no_characters() {
        assert_eq!(pieces("&'a")[1], (Kind::Lifetime, "'a"));
        assert_eq!(pieces("'_>")[0], (Kind::Lifetime, "'_"));
        assert_eq!(pieces("'outer: loop")[0], (Kind::Lifetime, "'outer"));
    }

    #[test]
    fn comments_nest() {
        let text = "/* a /* b */ \" */ x // y \" '\n/// z";
        let kinds: Vec<_> = pieces(text).into_iter().map(|it| it.0).collect();
        assert_eq!(
            kinds,
            [Kind::Comment, Kind::Word, Kind::Comment, Kind::Comment]
        );
    }

    #[test]
    fn what_has_no_end_is_refused() {
        for (text, at) in [
            ("a \"b", 2),
            ("/* a", 0),
            ("r#\"a\"", 0),
            ("b' ", 0),
            ("x r#type", 2),
        ] {
            assert_eq!(tokens(text).expect_err(text).0, at);
        }
    }
}
