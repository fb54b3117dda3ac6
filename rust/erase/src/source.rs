//! A text with its tokens, and where its brackets close.

use crate::lex::{is_word, tokens, Kind, Token};
use std::fmt;

/// Why a source can't be erased, and where.
#[derive(Clone, Debug, PartialEq, Eq)]
pub struct Fault {
    /// The file.
    pub path: String,
    /// Its line, from 1.
    pub line: usize,
    /// What is wrong there.
    pub what: String,
}

impl fmt::Display for Fault {
    fn fmt(&self, f: &mut fmt::Formatter<'_>) -> fmt::Result {
        write!(f, "{}:{}: {}", self.path, self.line, self.what)
    }
}

impl std::error::Error for Fault {}

/// A text, and its code: the tokens that are no blanks and no comments, counted from 0.
pub struct Source<'a> {
    /// The file that it was read from.
    pub path: &'a str,
    /// The text.
    pub text: &'a str,
    /// All tokens.
    pub tokens: Vec<Token>,
    /// The places of the code's tokens among all.
    pub code: Vec<usize>,
    /// For each bracket of the code the place in the code of its partner. For other tokens their
    /// own.
    partners: Vec<usize>,
}

impl<'a> Source<'a> {
    /// Reads a text. The path is for faults.
    ///
    /// # Errors
    ///
    /// A literal or a comment has no end, or a bracket has no partner.
    pub fn read(path: &'a str, text: &'a str) -> Result<Self, Fault> {
        let line_of = |at: usize| 1 + text[..at].matches('\n').count();
        let fault = |at, what: &str| Fault {
            path: path.to_owned(),
            line: line_of(at),
            what: what.to_owned(),
        };
        let tokens = tokens(text).map_err(|(at, what)| fault(at, what))?;
        if let Some((at, what)) = otherwise_read(text, &tokens) {
            return Err(fault(at, what));
        }
        let is_code = |place: &usize| !matches!(tokens[*place].kind, Kind::Blank | Kind::Comment);
        let code: Vec<usize> = (0..tokens.len()).filter(is_code).collect();
        let signs = code.iter().map(|place| &tokens[*place]);
        let signs: Vec<&str> = signs.map(|token| &text[token.from..token.to]).collect();
        let partners = partners(&signs)
            .map_err(|at| fault(tokens[code[at]].from, "a bracket without a partner"))?;
        Ok(Source {
            path,
            text,
            tokens,
            code,
            partners,
        })
    }

    /// How many tokens the code has.
    pub fn len(&self) -> usize {
        self.code.len()
    }

    /// Whether it has no code.
    pub fn is_empty(&self) -> bool {
        self.code.is_empty()
    }

    /// The token of the code at this place.
    pub fn token(&self, at: usize) -> Token {
        self.tokens[self.code[at]]
    }

    /// The text of the code's token at this place; empty after the last one.
    pub fn at(&self, at: usize) -> &'a str {
        match self.code.get(at) {
            Some(place) => &self.text[self.tokens[*place].from..self.tokens[*place].to],
            None => "",
        }
    }

    /// The text of the token before this place; empty before the first one.
    pub fn before(&self, at: usize) -> &'a str {
        at.checked_sub(1).map_or("", |at| self.at(at))
    }

    /// Whether the code's token at this place is a word.
    pub fn is_word(&self, at: usize) -> bool {
        at < self.len() && self.token(at).kind == Kind::Word
    }

    /// Whether the code goes on with these tokens.
    pub fn has(&self, at: usize, tokens: &[&str]) -> bool {
        (at..).zip(tokens).all(|(at, token)| self.at(at) == *token)
    }

    /// The place of the bracket that belongs to the one at this place.
    pub fn partner(&self, at: usize) -> usize {
        self.partners[at]
    }

    /// The end of the term in the braces that open here, if any do. No bracket in the term may be
    /// in a comment or a literal, which the kit may read in another way.
    ///
    /// # Errors
    ///
    /// One is.
    pub fn after_term(&self, open: usize) -> Result<Option<usize>, Fault> {
        if self.at(open) != "{" {
            return Ok(None);
        }
        let close = self.partner(open);
        let hidden = self.tokens[self.code[open]..self.code[close]]
            .iter()
            .find(|token| {
                matches!(token.kind, Kind::Comment | Kind::Literal)
                    && self.text[token.from..token.to].contains(|c| "(){}[]".contains(c))
            });
        match hidden {
            Some(_) => Err(self.fault(open, "a bracket in a comment or a literal of a term")),
            None => Ok(Some(close + 1)),
        }
    }

    /// The first place from `at` on, and before `end`, where one of these tokens stands outside all
    /// brackets that open on the way.
    pub fn find(&self, at: usize, end: usize, wanted: &[&str]) -> Option<usize> {
        let mut at = at;
        while at < end {
            if wanted.contains(&self.at(at)) {
                return Some(at);
            }
            at = self.partner(at).max(at) + 1;
        }
        None
    }

    /// The place after the `>` that closes the `<` at this place.
    ///
    /// # Errors
    ///
    /// There is none.
    pub fn after_angles(&self, at: usize) -> Result<usize, Fault> {
        let (mut depth, mut next) = (0, at);
        while next < self.len() {
            match self.at(next) {
                "<" => depth += 1,
                ">" => depth -= 1,
                ";" | "{" => break,
                _ => next = self.partner(next).max(next),
            }
            next += 1;
            if depth == 0 {
                return Ok(next);
            }
        }
        Err(self.fault(at, "`>` is missing"))
    }

    /// A fault at the code's token of this place.
    pub fn fault(&self, at: usize, what: impl Into<String>) -> Fault {
        let at = at.min(self.len().saturating_sub(1));
        let from = self
            .code
            .get(at)
            .map_or(0, |place| self.tokens[*place].from);
        Fault {
            path: self.path.to_owned(),
            line: 1 + self.text[..from].matches('\n').count(),
            what: what.into(),
        }
    }
}

/// The first byte of what a term or the kit may read as a comment where Rust doesn't, or the other
/// way round, and what it is.
fn otherwise_read(text: &str, tokens: &[Token]) -> Option<(usize, &'static str)> {
    let hides = |rest: &str| rest.contains(|c| "(){}[]\"'".contains(c)) || rest.contains("/*");
    // For one of the two, a line may end there, and a comment with it.
    let is_odd = |c: char| c.is_control() && c != '\n' || ['\u{2028}', '\u{2029}'].contains(&c);
    if let Some(at) = text.find(is_odd) {
        return Some((at, "a character that isn't seen"));
    }
    tokens.iter().find_map(|token| {
        let from = &text[token.from..];
        let line = from.lines().next().unwrap_or("");
        let what = match token.kind {
            Kind::Sign if from.starts_with("--") && hides(line) => {
                "a bracket in a comment of a term"
            }
            Kind::Sign if from.starts_with("{-") => "a block comment of a term",
            Kind::Sign if from.starts_with('«') && !is_quoted_name(from) => "no name in quotes",
            Kind::Comment if from[..token.to - token.from].matches("/*").count() > 1 => {
                "a comment within a comment"
            }
            _ => return None,
        };
        Some((token.from, what))
    })
}

/// Whether a name in quotes begins here, such as `«data»`.
fn is_quoted_name(text: &str) -> bool {
    let rest = text.trim_start_matches('«');
    rest.trim_start_matches(is_word).starts_with('»')
}

/// For each token the place of its partner, or the place of a bracket that has none.
fn partners(tokens: &[&str]) -> Result<Vec<usize>, usize> {
    let mut partners: Vec<usize> = (0..tokens.len()).collect();
    let mut open: Vec<(usize, &str)> = Vec::new();
    for (at, token) in tokens.iter().enumerate() {
        match *token {
            "(" => open.push((at, ")")),
            "[" => open.push((at, "]")),
            "{" => open.push((at, "}")),
            ")" | "]" | "}" => match open.pop() {
                Some((begin, end)) if end == *token => {
                    partners[begin] = at;
                    partners[at] = begin;
                }
                _ => return Err(at),
            },
            _ => {}
        }
    }
    match open.pop() {
        Some((at, _)) => Err(at),
        None => Ok(partners),
    }
}
