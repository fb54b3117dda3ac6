//! Contracts in docs.

use super::comments::Comment;
use super::Audit;
use crate::contracts::{without_links, BEGIN, END};
use crate::source::Fault;

/// A line of the result that isn't code.
pub(super) enum Line {
    /// A comment of the source.
    Comment(String),
    /// Of a clause.
    Clause(String),
}

impl Audit<'_> {
    /// The comments of the result. Of docs with a contract these are the contract's lines, which
    /// begin and end as they have to, and are those of the next function.
    pub(super) fn lines(&self, comments: &[Comment<'_>]) -> Result<Vec<Line>, Fault> {
        let mut lines = Vec::new();
        let mut at = 0;
        while at < comments.len() {
            if !begins_with(&comments[at..], &BEGIN) {
                lines.push(Line::Comment(comments[at].text.to_owned()));
                at += 1;
                continue;
            }
            let place = comments[at].next;
            at += BEGIN.len();
            let mut clauses = String::new();
            while at < comments.len() && !begins_with(&comments[at..], &END) {
                let clause = comments[at].text.strip_prefix("///").map(without_links);
                match clause.as_deref().map(str::trim) {
                    Some(clause) if !clause.starts_with("//") => {
                        lines.push(Line::Clause(clause.to_owned()));
                        clauses.push_str(clause);
                        clauses.push('\n');
                    }
                    own => lines.push(Line::Comment(own.unwrap_or(comments[at].text).to_owned())),
                }
                at += 1;
            }
            if at == comments.len() {
                return Err(self.source.fault(0, "docs with a contract without an end"));
            }
            at += END.len();
            self.is_contract_of_next(place, &clauses)?;
        }
        Ok(lines)
    }

    /// These clauses have to be all of the first function from this place of the result on.
    fn is_contract_of_next(&self, place: usize, clauses: &str) -> Result<(), Fault> {
        let (source, result) = (self.source, self.result);
        let function = (place..result.len()).find(|at| result.at(*at) == "fn");
        let body = function.and_then(|at| result.find(at, result.len(), &["{", ";"]));
        let of_next = self.contracts.iter().filter(|it| Some(it.1) == body);
        let of_next = of_next.flat_map(|(at, _)| {
            let open = source.find(*at, source.len(), &["{"]).unwrap_or(*at);
            (*at..=source.partner(open)).map(|at| source.at(at))
        });
        if of_next.eq(super::pieces(clauses).iter().map(String::as_str)) {
            return Ok(());
        }
        let at = self.contracts.first().map_or(0, |it| it.0);
        Err(source.fault(
            at,
            "docs that show another contract than that of their function",
        ))
    }
}

/// Whether docs begin with these lines.
fn begins_with(comments: &[Comment<'_>], lines: &[&str]) -> bool {
    let mut pairs = comments.iter().zip(lines);
    let led = |line: &str| format!("/// {line}").replace("](forgeni::", "](crate::");
    comments.len() >= lines.len()
        && pairs.all(|(comment, line)| comment.text == led(line).trim_end())
}
