//! Functions with a condition are the package's own, and so are a few others.

use super::Audit;
use crate::conditions::{imported, is_inside, is_met};
use crate::source::Fault;

impl Audit<'_> {
    /// Whether a `pub` stands here in the source that may not do so in the result: that of a
    /// function with a condition, or of its import.
    pub(super) fn has_to_be_narrow(&self) -> bool {
        let (source, at) = (self.source, self.at);
        if source.at(at) != "pub" {
            return false;
        }
        let first = match source.at(at + 1) {
            "const" => at + 2,
            _ => at + 1,
        };
        match source.at(first) {
            "fn" => self.is_conditional(first) || is_inside(source, self.krate, first),
            "use" => self.imports_a_condition(first + 1),
            _ => false,
        }
    }

    /// `pub` of the source is `pub(crate)` in the result.
    pub(super) fn narrowed(&mut self) -> Result<(), Fault> {
        if self.result.has(self.out, &["pub", "(", "crate", ")"]) {
            self.at += 1;
            self.out += 4;
            return Ok(());
        }
        let what = "a function with a condition that all may call";
        Err(self.source.fault(self.at, what))
    }

    /// Whether a condition stands between the name and the body of the function here.
    fn is_conditional(&self, at: usize) -> bool {
        let (source, mut at) = (self.source, at + 1);
        loop {
            match source.at(at) {
                word @ ("requires" | "ensures") => {
                    let open = (at..source.len()).find(|at| source.at(*at) == "{");
                    let open = open.unwrap_or(source.len());
                    if word == "requires" && !is_met(source, open) {
                        return true;
                    }
                    at = source.partner(open);
                }
                "(" | "[" => at = source.partner(at),
                "{" | ";" | "" => return false,
                _ => {}
            }
            at += 1;
        }
    }

    /// Whether the import of this path gives functions with a condition.
    fn imports_a_condition(&self, at: usize) -> bool {
        let end = self.source.find(at, self.source.len(), &[";"]);
        let end = end.map_or(at, |end| end + 1);
        let mut all = imported(self.source, self.names, at, end).into_iter();
        all.any(|it| it.1 == Some(true))
    }
}
