//! The messages of errors, which the result has as `Display`.

use super::{has, pieces, Audit};
use crate::source::Fault;

impl Audit<'_> {
    /// The end of the `Display` and the `Error` that the result has for the messages of a type.
    pub(super) fn added_messages(&self) -> Result<usize, Fault> {
        let name = self.result.at(self.out + 7);
        let head = format!(
            "impl core::fmt::Display for {name} {{ \
             fn fmt(&self, f: &mut core::fmt::Formatter<'_>) -> core::fmt::Result {{"
        );
        let mut at = self.added(self.out, &head)?;
        let messages = self.messages_of(name);
        if self.result.at(at) == "match" {
            at = self.added(at, "match self {")?;
            for (variant, text) in &messages {
                at = self.added(at, &format!("{name}::{variant}"))?;
                at = self.after_pattern(at, text);
                at = self.added(at, &format!("=> write!(f, {text}),"))?;
            }
            at = self.added(at, "}")?;
        } else {
            let text = messages.first().map_or("", |(_, text)| text.as_str());
            if self.result.at(at) == "let" {
                at = self.added(at, &format!("let {name}"))?;
                at = self.added(self.after_pattern(at, text), "= self;")?;
            }
            at = self.added(at, &format!("write!(f, {text})"))?;
        }
        self.added(
            at,
            &format!("}} }} impl core::error::Error for {name} {{}}"),
        )
    }

    /// The place after these tokens of the result, which have to stand here.
    fn added(&self, at: usize, text: &str) -> Result<usize, Fault> {
        let wanted = pieces(text);
        if has(self.result, at, &wanted) {
            return Ok(at + wanted.len());
        }
        let what = format!("the result lacks `{text}`, which the messages give");
        Err(self.source.fault(self.at, what))
    }

    /// The place after the fields of a pattern: names of the message, and `..` at the end, or
    /// `(..)`.
    fn after_pattern(&self, at: usize, text: &str) -> usize {
        let (result, close) = (self.result, self.result.partner(at));
        if result.has(at, &["(", "..", ")"]) {
            return at + 3;
        }
        if result.at(at) != "{" {
            return at;
        }
        let is_name = |at: usize| match result.at(at) {
            ".." => at + 1 == close,
            name => text.contains(&format!("{{{name}")),
        };
        let parts: Vec<usize> = (at + 1..close).collect();
        let is_list = parts
            .iter()
            .enumerate()
            .all(|(number, at)| match number % 2 {
                0 => is_name(*at),
                _ => result.at(*at) == ",",
            });
        if is_list && parts.len() % 2 == 1 {
            close + 1
        } else {
            at
        }
    }

    /// The messages of a type of the source, each after the name of its struct or variant.
    fn messages_of(&self, name: &str) -> Vec<(String, String)> {
        let source = self.source;
        let is_type =
            |at: &usize| ["struct", "enum"].contains(&source.at(*at)) && source.at(*at + 1) == name;
        let Some(at) = (0..source.len()).find(is_type) else {
            return Vec::new();
        };
        let is_message = |at: &usize| source.has(*at, &["#", "[", "error", "("]);
        let message = |at: usize, name: &str| (name.to_owned(), source.at(at + 4).to_owned());
        if source.at(at) == "struct" {
            let above = (0..at)
                .rev()
                .take_while(|at| ![";", "}"].contains(&source.at(*at)));
            return above
                .filter(is_message)
                .map(|at| message(at, name))
                .collect();
        }
        let close = source.partner(at + 2);
        (at..close)
            .filter(is_message)
            .map(|at| message(at, source.at(source.partner(at + 1) + 1)))
            .collect()
    }
}
