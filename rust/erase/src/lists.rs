//! Which values are lists. A list of the kit has calls that Rust's own list has otherwise, and they
//! become calls of other names. The eraser knows no types, so the declaration of a parameter, a
//! field or a binding has to say whether a value is a list. A table of names decides the rest, and
//! what it lacks is refused.

use crate::forms;
use crate::memory::elements;
use crate::source::Fault;
use crate::types::{argument, head, is_function, is_list, path, type_at, Type};
use crate::walk::Walk;

impl Walk<'_> {
    /// A method whose name, or whose trait, is another one for a list: the place after its name, if
    /// it is one.
    pub(crate) fn list_call(&mut self, at: usize, open: usize) -> Result<Option<usize>, Fault> {
        let name = self.source.at(at);
        let arguments = elements(self.source, open).len();
        let is_call = |it: &&forms::ListCall| it.from == name && it.arguments == arguments;
        let Some(call) = forms::LIST_CALLS.iter().find(is_call) else {
            return Ok(None);
        };
        match self.is_list(at - 2) {
            Some(true) => {
                if call.to != name {
                    self.replace(at, at + 1, call.to);
                }
                self.import(at, forms::LIST_TRAIT)?;
                Ok(Some(at + 1))
            }
            Some(false) if arguments == 0 || self.is_used(at, open) => Ok(None),
            Some(false) => {
                // If it were a list, nothing would say so: Rust's own call returns nothing.
                let what = format!("a `{name}` whose result isn't used");
                Err(self.source.fault(at, what))
            }
            None => {
                let what = format!("a `{name}` that may be a list's or a slice's own");
                Err(self.source.fault(at, what))
            }
        }
    }

    /// A path that begins here and makes a list: the name in it that becomes another one.
    pub(crate) fn list_path(&mut self, at: usize) -> Result<(), Fault> {
        if self.source.at(at) != forms::LIST {
            return Ok(());
        }
        let mut last = at + 2;
        if self.source.at(last) == "<" {
            last = self.source.after_angles(last)? + 1;
        }
        let name = self.source.at(last);
        let Some(path) = forms::LIST_PATHS.iter().find(|it| it.0 == name) else {
            return Ok(());
        };
        if last > at + 2 {
            let what = format!("a path of a list with arguments: `{name}`");
            return Err(self.source.fault(last, what));
        }
        self.replace(last, last + 1, path.1);
        self.import(at, forms::LIST_TRAIT)
    }

    /// Whether the result of the method here goes on, to where a list's own would not fit.
    fn is_used(&self, at: usize, open: usize) -> bool {
        let source = self.source;
        let mut begin = at;
        while source.is_word(begin - 1) || [".", "]"].contains(&source.before(begin)) {
            begin = source.partner(begin - 1).min(begin - 1);
        }
        let is_returned = source.at(begin) == "return";
        let is_dropped = source.has(begin - 2, &["_", "="]);
        let is_statement = [";", "{", "}"].contains(&source.before(begin));
        let ends = source.at(source.partner(open) + 1) == ";";
        is_returned || !(ends && (is_dropped || is_statement))
    }

    /// Whether the value whose last token stands here is a list, if that is known.
    fn is_list(&self, last: usize) -> Option<bool> {
        let known = self.type_of(last).and_then(|of| is_list(&of, self.names));
        known.or_else(|| {
            let name = self.source.at(last);
            let table = forms::RECEIVERS.iter().find(|it| it.0 == name);
            table.map(|it| it.1)
        })
    }

    /// The type of the place whose last token stands here.
    fn type_of(&self, last: usize) -> Option<Type> {
        let (source, name) = (self.source, self.source.at(last));
        if name == "]" {
            let open = source.partner(last);
            let is_part = (open..last).any(|at| source.at(at).starts_with(".."));
            return argument(&self.type_of(open - 1).filter(|_| !is_part)?);
        }
        match source.before(last) {
            "::" => None,
            _ if !source.is_word(last) => None,
            "." => self.names.values.field(source.path, name, self.names),
            _ if name == "self" => Some(vec!["Self".to_owned()]),
            _ => self.local(name, last),
        }
    }

    /// The type of what has this name in the function around this place: that of the last
    /// declaration before it.
    fn local(&self, name: &str, at: usize) -> Option<Type> {
        let source = self.source;
        let begin = (0..at).rev().find(|at| is_function(source, *at))?;
        let is_name =
            |at: &usize| source.at(*at) == name && ![".", "::"].contains(&source.before(*at));
        let declared = (begin..at)
            .rev()
            .filter(is_name)
            .find_map(|at| self.declared_at(at));
        declared.flatten()
    }

    /// What the name here is declared as, if here is a declaration of it: its type, if that is
    /// known.
    fn declared_at(&self, at: usize) -> Option<Option<Type>> {
        let source = self.source;
        let begin = at - usize::from(source.before(at) == "mut");
        let (before, after) = (source.before(begin), source.at(at + 1));
        let around = source.at(self.open_around(at)?);
        match after {
            ":" if before == "let" || around == "(" || before == "|" => {
                Some(Some(type_at(source, at + 2)))
            }
            "=" if before == "let" && source.at(at + 2) != "=" => Some(self.type_of_value(at + 2)),
            // `let Ok(name) = ..`
            ")" if source.has(begin - 3, &["let"]) && source.has(at + 2, &["="]) => {
                Some(self.type_of_value(at + 3))
            }
            "," | "}" if around == "{" && self.is_pattern(at) => Some(self.names.values.field(
                source.path,
                source.at(at),
                self.names,
            )),
            "in" if before == "for" => Some(None),
            "|" | "," if before == "|" => Some(None),
            _ => None,
        }
    }

    /// Whether the name here is bound by `let NAME { .. } =`.
    fn is_pattern(&self, at: usize) -> bool {
        let source = self.source;
        let Some(open) = self.open_around(at) else {
            return false;
        };
        source.has(open - 2, &["let"]) && source.at(source.partner(open) + 1) == "="
    }

    /// The type of the value that begins here.
    fn type_of_value(&self, at: usize) -> Option<Type> {
        let source = self.source;
        let mut at = at;
        while ["&", "mut", "match"].contains(&source.at(at)) {
            at += 1;
        }
        let mut end = source.find(at, source.len(), &[";", "else", "{"])?;
        end -= usize::from(source.before(end) == "?");
        while let Some(next) = self.before_unwrapping(at, end) {
            end = next;
        }
        if source.has(at, &["mem", "::", "replace", "(", "&", "mut"]) {
            return self.type_of(source.find(at + 4, end, &[","]).map(|comma| comma - 1)?);
        }
        let is_path = |at: &usize| source.is_word(*at) || source.at(*at) == "::";
        let after = (at..end).find(|at| !is_path(at)).unwrap_or(end);
        let ends = source.at(after) == "(" && source.partner(after) + 1 == end;
        let name = source.before(after);
        if self.names.is_type(name) && (ends || source.at(after) == "{") {
            return Some(vec![name.to_owned()]);
        }
        if ends {
            return self.type_of_call(at, after);
        }
        if after == end || source.at(after) == "." && self.is_place(after, end) {
            return self.type_of(end - 1);
        }
        let open = source.partner(end - 1);
        match source.before(open) {
            _ if source.before(end) != ")" || source.before(open - 1) != "." => None,
            "collect" | "into_bytes" => Some(vec![forms::LIST.to_owned()]),
            name if forms::is_of_std(name) => None,
            name => self.names.values.returned_by_any(name, self.names),
        }
    }

    /// The end of the value before its last call, if that takes it out of a `Result` or an
    /// `Option`.
    fn before_unwrapping(&self, at: usize, end: usize) -> Option<usize> {
        let source = self.source;
        let open = source.partner(end - 1);
        let is_call = source.before(end) == ")" && open > at + 2 && source.at(open - 2) == ".";
        (is_call && ["expect", "unwrap"].contains(&source.before(open))).then(|| open - 2)
    }

    /// Whether there are only names and points between these.
    fn is_place(&self, at: usize, end: usize) -> bool {
        (at..end).all(|at| self.source.is_word(at) || self.source.at(at) == ".")
    }

    /// What a call of the path from `at` to `open` gives.
    fn type_of_call(&self, at: usize, open: usize) -> Option<Type> {
        let source = self.source;
        let (first, name) = (source.at(at), source.at(open - 1));
        let is_kit = |it: &&(&str, &[&str])| it.0 == first && it.1.contains(&name);
        let mut lists = self.names.forms.iter().flat_map(|forms| forms.associated);
        if source.has(at + 1, &["::", name]) && lists.any(|it| is_kit(&it)) {
            return Some(vec![first.to_owned()]);
        }
        // The type before the last name, if one is.
        let before = source.at(open.saturating_sub(3).max(at));
        let is_typed = open >= at + 3 && before.starts_with(|c: char| c.is_uppercase());
        let owner = if is_typed { before } else { "" };
        let of = self
            .names
            .values
            .returned(source.path, &path(owner, name), self.names)?;
        match head(&of) {
            "Self" if is_typed => Some(vec![owner.to_owned()]),
            _ => Some(of),
        }
    }

    /// The bracket that encloses this place.
    fn open_around(&self, at: usize) -> Option<usize> {
        let mut at = at;
        while at > 0 {
            at -= 1;
            match self.source.at(at) {
                "(" | "[" | "{" => return Some(at),
                ")" | "]" | "}" => at = self.source.partner(at),
                _ => {}
            }
        }
        None
    }
}
