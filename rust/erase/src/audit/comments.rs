//! Comments: those of the source stay, and the clauses come to them.

use super::docs::Line;
use super::{pieces, Audit};
use crate::lex::Kind;
use crate::source::{Fault, Source};

impl Audit<'_> {
    /// Tests the comments: see the module.
    pub(super) fn comments(&self) -> Result<(), Fault> {
        let wanted = comments(self.source);
        let mut clauses = String::new();
        let mut next = 0;
        // The first one says of which source the result is made.
        let written = comments(self.result);
        for line in self.lines(written.get(1..).unwrap_or_default())? {
            let text = match line {
                Line::Comment(text) => text,
                Line::Clause(text) => {
                    clauses.push_str(&text);
                    clauses.push('\n');
                    continue;
                }
            };
            let is_same = |old: &Comment<'_>| self.led(old.text) == text;
            match wanted[next..].iter().position(is_same) {
                Some(passed) => {
                    self.only_ghost(&wanted[next..next + passed])?;
                    next += passed + 1;
                }
                None if is_docs(&text) => {
                    let what = format!("docs that the source doesn't have: `{text}`");
                    return Err(self.source.fault(0, what));
                }
                None => {
                    clauses.push_str(text.trim_start_matches('/'));
                    clauses.push('\n');
                }
            }
        }
        self.only_ghost(&wanted[next..])?;
        let is_clause = |at: &usize| self.is_clause[*at];
        let of_source = (0..self.source.len())
            .filter(is_clause)
            .map(|at| self.source.at(at));
        if of_source.eq(pieces(&clauses).iter().map(String::as_str)) {
            return Ok(());
        }
        Err(self.source.fault(
            0,
            "the comments of the result are not those of the source and its clauses",
        ))
    }

    /// Comments that are not in the result have to stand in what is ghost, or right above.
    fn only_ghost(&self, comments: &[Comment<'_>]) -> Result<(), Fault> {
        let is_lost = |comment: &&Comment<'_>| {
            let is_ghost = |at: usize| self.is_ghost.get(at).copied().unwrap_or(false);
            let is_within = comment.next.checked_sub(1).is_some_and(is_ghost);
            let is_above = !comment.is_apart && !comment.text.starts_with("//!");
            !is_ghost(comment.next) || !is_within && !is_above
        };
        match comments.iter().find(is_lost) {
            Some(Comment { next, text, .. }) => Err(self
                .source
                .fault(*next, format!("a comment is lost: `{text}`"))),
            None => Ok(()),
        }
    }

    /// A comment as it stands in the result: its links lead where the code's paths do.
    fn led(&self, comment: &str) -> String {
        if !is_docs(comment) {
            return comment.to_owned();
        }
        let own = ("crate", &self.names.crates[self.krate]);
        let others = self
            .names
            .crates
            .iter()
            .map(|(name, path)| (name.as_str(), path));
        let mut text = comment.to_owned();
        for (name, path) in std::iter::once(own).chain(others) {
            text = text.replace(&format!("]({name}::"), &format!("]({path}::"));
        }
        text.replace("](forgeni::", "](crate::")
    }
}

/// Whether a comment is of docs.
fn is_docs(comment: &str) -> bool {
    comment.starts_with("///") || comment.starts_with("//!")
}

/// A comment of a text.
pub(super) struct Comment<'a> {
    pub(super) text: &'a str,
    /// The place in the code of the token after it.
    pub(super) next: usize,
    /// Whether an empty line stands between them.
    is_apart: bool,
}

fn comments<'a>(source: &Source<'a>) -> Vec<Comment<'a>> {
    let mut comments = Vec::new();
    let mut next = 0;
    for token in &source.tokens {
        if token.kind == Kind::Comment {
            let end = source
                .code
                .get(next)
                .map_or(source.text.len(), |it| source.tokens[*it].from);
            comments.push(Comment {
                text: source.text[token.from..token.to].trim_end(),
                next,
                is_apart: source.text[token.to..end].contains("\n\n"),
            });
        } else if token.kind != Kind::Blank {
            next += 1;
        }
    }
    comments
}
