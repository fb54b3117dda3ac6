//! The names that a source binds: by an import, a parameter, a pattern.

use crate::forms;
use crate::names::parameters_in;
use crate::source::Source;
use std::collections::BTreeSet;

/// All of them, wherever the source binds them: Rust and the kit have the same scopes.
pub(crate) fn bound<'a>(source: &Source<'a>) -> BTreeSet<&'a str> {
    let mut scope = Scope {
        source,
        bound: BTreeSet::new(),
    };
    for at in 0..source.len() {
        match source.at(at) {
            "use" if source.before(at) != "ghost" => scope.import(at),
            "fn" | "struct" | "enum" | "trait" | "type" if source.is_word(at + 1) => {
                scope.parameters(at + 2);
            }
            "impl" => scope.parameters(at + 1),
            "let" => scope.until(at + 1, &["=", ":", ";"]),
            "for" => scope.loop_pattern(at + 1),
            "match" => scope.arms(at),
            "matches" if source.has(at + 1, &["!", "("]) => {
                let end = source.partner(at + 2);
                if let Some(comma) = source.find(at + 3, end, &[","]) {
                    scope.pattern(comma + 1, end);
                }
            }
            "|" if scope.begins_closure(at) => scope.until(at + 1, &["|"]),
            _ => {}
        }
    }
    // Binding one of these would give it another meaning.
    let is_free = |name: &&str| !forms::PRELUDE.contains(name) && !forms::PRIMITIVES.contains(name);
    scope.bound.into_iter().filter(is_free).collect()
}

struct Scope<'a, 'b> {
    source: &'b Source<'a>,
    bound: BTreeSet<&'a str>,
}

impl Scope<'_, '_> {
    fn import(&mut self, at: usize) {
        let end = self.source.find(at, self.source.len(), &[";"]);
        let places = at + 1..end.unwrap_or(at);
        let last = |at: &usize| self.source.is_word(*at) && self.source.at(*at + 1) != "::";
        self.bound
            .extend(places.filter(last).map(|at| self.source.at(at)));
    }

    /// The parameters of an item, if angles are here, and the arguments, if the item is a function.
    fn parameters(&mut self, at: usize) {
        let mut next = at;
        if self.source.at(at) == "<" {
            let Ok(end) = self.source.after_angles(at) else {
                return;
            };
            let declared = parameters_in(self.source, at, end);
            self.bound
                .extend(declared.into_iter().map(|at| self.source.at(at)));
            next = end;
        }
        let is_function = at >= 2 && self.source.at(at - 2) == "fn";
        if is_function && self.source.at(next) == "(" {
            let end = self.source.partner(next);
            let mut from = next + 1;
            while from < end {
                let colon = self.source.find(from, end, &[":", ","]).unwrap_or(end);
                self.pattern(from, colon);
                from = self.source.find(colon, end, &[","]).unwrap_or(end) + 1;
            }
        }
    }

    /// The pattern from here to one of these signs.
    fn until(&mut self, at: usize, ends: &[&str]) {
        if let Some(end) = self.source.find(at, self.source.len(), ends) {
            self.pattern(at, end);
        }
    }

    /// The pattern of a loop, and not the type of an `impl` or a bound.
    fn loop_pattern(&mut self, at: usize) {
        let end = self.source.find(at, self.source.len(), &["in", "{", ";"]);
        if let Some(end) = end.filter(|end| self.source.at(*end) == "in") {
            self.pattern(at, end);
        }
    }

    fn arms(&mut self, at: usize) {
        let Some(body) = self.source.find(at, self.source.len(), &["{"]) else {
            return;
        };
        let end = self.source.partner(body);
        let mut at = body + 1;
        while let Some(arrow) = self.source.find(at, end, &["=>"]) {
            self.pattern(at, self.source.find(at, arrow, &["if"]).unwrap_or(arrow));
            at = match self.source.at(arrow + 1) {
                "{" => self.source.partner(arrow + 1) + 1,
                _ => self.source.find(arrow, end, &[","]).unwrap_or(end),
            };
            at += usize::from(self.source.at(at) == ",");
        }
    }

    fn begins_closure(&self, at: usize) -> bool {
        let before = self.source.before(at);
        ["(", ",", "=", "=>", "{", ";", "&", "mut", "move", "return"].contains(&before)
    }

    /// All names that stand alone in a pattern.
    fn pattern(&mut self, at: usize, end: usize) {
        let is_name = |at: &usize| {
            let name = self.source.at(*at);
            self.source.is_word(*at)
                && name.starts_with(|c: char| c.is_lowercase() || c == '_')
                && !forms::KEYWORDS.contains(&name)
                && !["::", "."].contains(&self.source.before(*at))
                && !["::", "(", "!", "."].contains(&self.source.at(*at + 1))
        };
        let names = (at..end).filter(is_name).map(|at| self.source.at(at));
        self.bound.extend(names);
    }
}
