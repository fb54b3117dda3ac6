//! The right to allocate, which the result doesn't hand on.

use super::Audit;
use crate::forms;
use crate::lex::Kind;

impl Audit<'_> {
    /// The end of a part of a list that has the right, with the comma that parts it from others,
    /// and of what binds it.
    pub(super) fn right_end(&self) -> Option<usize> {
        let (source, at) = (self.source, self.at);
        if source.has(at, &[",", forms::RIGHT, ">"]) {
            return Some(at + 2);
        }
        if source.at(at) == "let" && self.makes_right(at + 3) == Some(at + 8) {
            return Some(at + 9);
        }
        if source.at(at) == "in" && at > 1 && source.has(at - 2, &["!", "("]) {
            let end = self.right_value(at + 1)?;
            return (source.at(end) == ";").then_some(end + 1);
        }
        if source.at(at) == "," {
            let end = self.right_part(at + 1)?;
            return (source.at(end) != ",").then_some(end);
        }
        if source.at(at) == "pub" {
            let name = if source.at(at + 1) == "(" {
                source.partner(at + 1) + 1
            } else {
                at + 1
            };
            let end = self.right_part(name)?;
            return Some(end + usize::from(source.at(end) == ","));
        }
        let end = self.right_part(at)?;
        let is_last = source.at(end) != ",";
        (!is_last || source.before(at) != ",").then_some(end + usize::from(!is_last))
    }

    /// The end of a part of a list, all of which is the right.
    pub(super) fn right_part(&self, at: usize) -> Option<usize> {
        let source = self.source;
        let is_begin = ["(", ",", "{", "|"].contains(&source.before(at));
        let may_begin = is_begin || ["pub", ")"].contains(&source.before(at));
        let may_go_on = [":", ".", ",", ")", "}", "|"].contains(&source.at(at + 1));
        if !may_begin || !may_go_on || !source.is_word(at) {
            return None;
        }
        let label = self.names.fields.has(source.at(at)) && source.at(at + 1) == ":";
        let is_in_braces = label && source.at(self.open_before(at)?) == "{";
        let is_typed = source.has(at + 1, &[":", forms::RIGHT]);
        let is_passed = is_in_braces && source.at(at + 2) == "_";
        let end = if is_typed || is_passed {
            at + 3
        } else if is_begin && is_in_braces {
            self.right_value(at + 2)?
        } else if is_begin {
            self.right_value(at)?
        } else {
            return None;
        };
        [",", ")", "}", "|"]
            .contains(&source.at(end))
            .then_some(end)
    }

    /// The end of a value that is the right.
    fn right_value(&self, at: usize) -> Option<usize> {
        let source = self.source;
        let is_of_value = source.token(at).kind == Kind::Word && source.at(at + 1) == ".";
        if source.at(at) == forms::RIGHT {
            return Some(at + 1);
        }
        if is_of_value && source.at(at + 3) != "(" && self.names.fields.has(source.at(at + 2)) {
            return Some(at + 3);
        }
        if let Some(end) = self.makes_right(at) {
            return Some(end);
        }
        (source.is_word(at) && self.is_declared_right(at)).then_some(at + 1)
    }

    /// The end of `rt.alloc()`, in a source that may have an `rt` that hands out the right.
    fn makes_right(&self, at: usize) -> Option<usize> {
        let mut forms = self.names.forms.iter();
        let may_make = forms.any(|forms| !forms.hands_out_right.is_empty());
        let is_made = self.source.has(at, &["rt", ".", "alloc", "(", ")"]);
        (may_make && is_made).then_some(at + 5)
    }

    /// Whether the name at this place is declared to have the right, in its function or as a field
    /// of the type before its braces.
    fn is_declared_right(&self, at: usize) -> bool {
        let (source, name) = (self.source, self.source.at(at));
        let is_function = |at: &usize| source.at(*at) == "fn" && source.is_word(*at + 1);
        let Some(begin) = (0..at).rev().find(is_function) else {
            return false;
        };
        (begin..=at).any(|at| {
            let is_bound =
                source.has(at, &["let", name, "="]) && self.makes_right(at + 3).is_some();
            let is_typed = source.has(at, &[name, ":", forms::RIGHT]);
            is_bound || is_typed || source.at(at) == name && self.is_right_of_type(at)
        })
    }

    /// Whether the name stands for a field of the type before the braces around it.
    fn is_right_of_type(&self, at: usize) -> bool {
        let (source, name) = (self.source, self.source.at(at));
        let Some(open) = self.open_before(at) else {
            return false;
        };
        let is_part =
            ["{", ","].contains(&source.before(at)) && [",", "}"].contains(&source.at(at + 1));
        let is_of_type = match source.before(open) {
            "Self" => self.names.fields.has(name),
            owner => self.names.fields.has_of(owner, name),
        };
        is_part && source.at(open) == "{" && is_of_type
    }

    /// The bracket that encloses this place.
    fn open_before(&self, at: usize) -> Option<usize> {
        let mut at = at;
        while at > 0 {
            at -= 1;
            match self.source.at(at) {
                "(" | "[" | "{" => return Some(at),
                ")" | "]" | "}" => at = self.source.partner(at),
                _ => {}
            }
        }
        None
    }
}
