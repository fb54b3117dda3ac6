//! Ghost traits, and the type parameters that they bound, which the result doesn't have.

use super::{pieces, Audit};
use crate::forms::{BRAND, PHANTOM};
use crate::ghost_types::{after_threads, file_of_module};

impl Audit<'_> {
    /// The end of what is ghost here since a trait is.
    pub(super) fn ghost_type_end(&self) -> Option<usize> {
        let (source, at) = (self.source, self.at);
        let angles = at + usize::from(source.at(at) == "::");
        if source.at(angles) == "<" {
            let end = self.ghost_argument_end(angles + 1)?;
            return (source.at(end) == ">").then_some(end + 1);
        }
        let item = self.after_pub(at);
        match source.at(item) {
            "use" | "trait" | "impl" | "mod" => return self.ghost_trait_end(item),
            _ => {}
        }
        if item > at {
            let end = self.phantom_end(item)?;
            return Some(end + usize::from(source.at(end) == ","));
        }
        let part = at + usize::from(source.at(at) == ",");
        if !["<", ",", "{"].contains(&source.before(part)) {
            return None;
        }
        let end = self
            .ghost_argument_end(part)
            .or_else(|| self.phantom_end(part))?;
        match (part > at, source.at(end) == ",") {
            (true, true) => None,
            (true, false) => Some(end),
            (false, has_comma) => Some(end + usize::from(has_comma)),
        }
    }

    fn after_pub(&self, at: usize) -> usize {
        match (self.source.at(at), self.source.at(at + 1)) {
            ("pub", "(") => self.source.partner(at + 1) + 1,
            ("pub", _) => at + 1,
            _ => at,
        }
    }

    /// The end of an item of a ghost trait: its import, the trait, an `impl` of it, or the module
    /// of nothing else.
    fn ghost_trait_end(&self, at: usize) -> Option<usize> {
        let source = self.source;
        let is_trait = |at: usize| self.names.ghost_traits.contains(source.at(at));
        let end = source.find(at, source.len(), &["{", ";"])?;
        match source.at(at) {
            "use" if source.at(end) == ";" && is_trait(end - 1) => Some(end + 1),
            "use" => self.phantom_import_end(at),
            "trait" if is_trait(at + 1) => Some(source.partner(end) + 1),
            "impl" => {
                let is_of = |at: usize| is_trait(at) && source.at(at + 1) == "for";
                (at..end).any(is_of).then(|| source.partner(end) + 1)
            }
            "mod" => {
                let file = file_of_module(source, source.at(at + 1));
                let is_ghost = end == at + 2 && self.names.ghost_files.contains(&file);
                is_ghost.then_some(end + 1)
            }
            _ => None,
        }
    }

    /// The end of an import of `PhantomData`, if the result has none.
    fn phantom_import_end(&self, at: usize) -> Option<usize> {
        let is_used = (0..self.result.len()).any(|at| self.result.at(at) == PHANTOM);
        let lists = ["PhantomData", "{Model, PhantomData}"];
        let imports = lists.map(|list| pieces(&format!("use std::marker::{list};")));
        let import = imports
            .iter()
            .find(|import| super::has(self.source, at, import))?;
        (!is_used).then(|| at + import.len())
    }

    /// The end of a parameter that a ghost trait alone bounds, here or where it is declared.
    fn ghost_argument_end(&self, at: usize) -> Option<usize> {
        let source = self.source;
        let may_go_on = [":", ",", ">"].contains(&source.at(at + 1));
        if self.names.ghost_traits.is_empty() || !may_go_on || !source.is_word(at) {
            return None;
        }
        if source.at(at) == BRAND && source.at(at + 1) == ">" {
            return Some(at + 1);
        }
        let declares = |other: &usize| source.has(*other, &[source.at(at), ":"]);
        let is_bound = |at: usize| {
            self.names.ghost_traits.contains(source.at(at + 2))
                && source.at(after_threads(source, at + 3)) != "+"
        };
        let mut all = (0..source.len()).filter(declares).peekable();
        if all.peek().is_none() || !all.all(is_bound) {
            return None;
        }
        Some(if source.at(at + 1) == ":" {
            after_threads(source, at + 3)
        } else {
            at + 1
        })
    }

    /// The end of a field that is a `PhantomData` of a ghost type, or of its place in a literal or
    /// a pattern.
    fn phantom_end(&self, at: usize) -> Option<usize> {
        let source = self.source;
        let is_field = |it: &(String, String)| it.1 == source.at(at);
        if !self.names.phantoms.iter().any(is_field) || source.at(at + 1) != ":" {
            return None;
        }
        let end = match source.at(at + 2) {
            PHANTOM if source.at(at + 3) == "<" => {
                self.ghost_argument_end(at + 4).map(|end| end + 1)?
            }
            PHANTOM | "_" => at + 3,
            _ => return None,
        };
        [",", "}"].contains(&source.at(end)).then_some(end)
    }
}
