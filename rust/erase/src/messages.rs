//! Error messages: what `#[derive(Error)]` with `#[error("..")]` gives is written out.

use crate::lex::is_word;
use crate::source::Fault;
use crate::walk::Walk;

/// A message, and the struct or the variant that has it.
struct Message<'a> {
    /// Its path, as `Fault::Memory`.
    path: String,
    /// The literal.
    text: &'a str,
    /// What its fields are.
    fields: Fields<'a>,
}

enum Fields<'a> {
    None,
    Unnamed,
    Named(Vec<&'a str>),
}

impl Walk<'_> {
    /// `Display` and `Error` of the type at `at`, whose attributes begin at `start` and whose
    /// fields or variants at `body`.
    pub(crate) fn error_impls(
        &self,
        start: usize,
        at: usize,
        body: usize,
        end: usize,
    ) -> Result<String, Fault> {
        let name = self.source.at(at + 1);
        if body != at + 2 {
            return Err(self.source.fault(at, "messages of a type with parameters"));
        }
        let display = if self.source.at(at) == "struct" {
            let fields = self.fields_of(body);
            struct_body(self, &self.message(start, name.to_owned(), fields, at)?)?
        } else {
            self.enum_body(name, body + 1, end - 1)?
        };
        Ok(format!(
            "\n\nimpl core::fmt::Display for {name} {{\n    \
             fn fmt(&self, f: &mut core::fmt::Formatter<'_>) -> core::fmt::Result {{\n\
             {display}    }}\n}}\n\nimpl core::error::Error for {name} {{}}"
        ))
    }

    fn enum_body(&self, name: &str, at: usize, end: usize) -> Result<String, Fault> {
        let mut arms = String::new();
        let mut at = at;
        while at < end {
            let start = at;
            while self.source.at(at) == "#" {
                at = self.after_attribute(at)?;
            }
            let path = format!("{name}::{}", self.source.at(at));
            let message = self.message(start, path, self.fields_of(at + 1), at)?;
            let pattern = pattern(self, &message, at)?;
            let text = message.text;
            arms.push_str(&format!("            {pattern} => write!(f, {text}),\n"));
            at = self.source.find(at, end, &[","]).unwrap_or(end) + 1;
        }
        Ok(format!("        match self {{\n{arms}        }}\n"))
    }

    /// The message among the attributes from `start` up to `at`.
    fn message<'b>(
        &'b self,
        start: usize,
        path: String,
        fields: Fields<'b>,
        at: usize,
    ) -> Result<Message<'b>, Fault> {
        let is_message = |at: &usize| {
            self.source.has(*at, &["#", "[", "error", "("]) && self.source.has(*at + 5, &[")", "]"])
        };
        match (start..at).find(is_message) {
            Some(found) if self.source.at(found + 4).starts_with('"') => Ok(Message {
                path,
                text: self.source.at(found + 4),
                fields,
            }),
            _ => Err(self
                .source
                .fault(at, format!("`{path}` has no message of a known form"))),
        }
    }

    /// The fields that begin here, if any do.
    fn fields_of(&self, at: usize) -> Fields<'_> {
        match self.source.at(at) {
            "(" => Fields::Unnamed,
            "{" => {
                let end = self.source.partner(at);
                let is_name = |at: &usize| {
                    self.source.is_word(*at)
                        && self.source.at(*at + 1) == ":"
                        && ["{", ",", "]", "pub", ")"].contains(&self.source.before(*at))
                };
                let mut names = Vec::new();
                let mut at = at + 1;
                while at < end {
                    let comma = self.source.find(at, end, &[","]).unwrap_or(end);
                    names.extend((at..comma).find(is_name).map(|at| self.source.at(at)));
                    at = comma + 1;
                }
                Fields::Named(names)
            }
            _ => Fields::None,
        }
    }
}

/// What is written of a struct.
fn struct_body(walk: &Walk<'_>, message: &Message<'_>) -> Result<String, Fault> {
    let text = message.text;
    let write = format!("        write!(f, {text})\n");
    if placeholders(text).is_empty() {
        return Ok(write);
    }
    let pattern = pattern(walk, message, 0)?;
    Ok(format!("        let {pattern} = self;\n{write}"))
}

/// The pattern that binds the fields which the message names.
fn pattern(walk: &Walk<'_>, message: &Message<'_>, at: usize) -> Result<String, Fault> {
    let wanted = placeholders(message.text);
    let path = &message.path;
    match &message.fields {
        Fields::None if wanted.is_empty() => Ok(path.clone()),
        Fields::Unnamed if wanted.is_empty() => Ok(format!("{path}(..)")),
        Fields::Named(_) if wanted.is_empty() => Ok(format!("{path} {{ .. }}")),
        Fields::Named(names) if wanted.iter().all(|it| names.contains(it)) => {
            let rest = if wanted.len() < names.len() {
                ", .."
            } else {
                ""
            };
            Ok(format!("{path} {{ {}{rest} }}", wanted.join(", ")))
        }
        _ => Err(walk
            .source
            .fault(at, format!("the message of `{path}` names no field of it"))),
    }
}

/// The names in the braces of a message, each once.
fn placeholders(text: &str) -> Vec<&str> {
    let mut names = Vec::new();
    let mut rest = text;
    while let Some(at) = rest.find('{') {
        rest = &rest[at + 1..];
        if let Some(after) = rest.strip_prefix('{') {
            rest = after;
            continue;
        }
        let name = &rest[..rest.find(|c| !is_word(c)).unwrap_or(rest.len())];
        if !names.contains(&name) {
            names.push(name);
        }
    }
    names
}

#[cfg(test)]
mod tests {
    use super::placeholders;

    #[test]
    fn names_in_braces() {
        assert_eq!(placeholders("\"a {b} {c:?} {{d}} {b}\""), ["b", "c"]);
        assert_eq!(placeholders("\"{} {0}\""), ["", "0"]);
        assert!(placeholders("\"a\"").is_empty());
    }
}
