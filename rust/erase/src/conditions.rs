//! Functions with a condition: no more than the package itself may call them.
//!
//! A `requires` clause is a condition, and only proved code is known to meet it.

use crate::forms;
use crate::items::Scope;
use crate::names::{header, Names};
use crate::naming;
use crate::source::{Fault, Source};
use crate::walk::Walk;

/// What `pub` of a function with a condition becomes.
const PACKAGE_ONLY: &str = "(crate)";

/// What a `requires` clause says of a closure `F` that each closure of Rust meets: it may be
/// called.
const CALLABLE: [&str; 2] = [".", "IsAlwaysCallable"];

/// Whether the clause whose braces open at `open` says only that a closure may be called.
fn is_of_a_closure(source: &Source<'_>, open: usize) -> bool {
    source.has(open + 2, &CALLABLE) && source.partner(open) == open + 5
}

/// What a `requires` clause says of commands that the package lends to a system: they are ready.
/// Only proved code makes commands, `System::run` is called with those that are ready, and each
/// call leaves them so. So no caller can have others.
const READY: [&str; 7] = ["IsReady", "S", ".", "serves", "self", ".", "old"];

/// Whether the clause whose braces open at `open` is a condition that each caller meets.
pub(crate) fn is_met(source: &Source<'_>, open: usize) -> bool {
    let is_ready = source.has(open + 1, &READY) && source.partner(open) == open + 8;
    is_ready || is_of_a_closure(source, open)
}

/// Whether the contract of the function whose `fn` stands at `at` has a condition.
pub(crate) fn has_condition(source: &Source<'_>, at: usize) -> bool {
    let mut next = at;
    while let Some(found) = source.find(next, source.len(), &["{", ";", "requires", "ensures"]) {
        if !forms::CLAUSES.contains(&source.at(found)) {
            return false;
        }
        let open = source.find(found, source.len(), &["{"]);
        let open = open.unwrap_or(source.len());
        if source.at(found) == "requires" && !is_met(source, open) {
            return true;
        }
        next = source.partner(open) + 1;
    }
    false
}

/// Whether the function whose `fn` stands at `at` is one that the table has for the package alone:
/// what it gives has no name that a user knows.
pub(crate) fn is_inside(source: &Source<'_>, krate: &str, at: usize) -> bool {
    let block = (0..at).rev().find(|at| source.at(*at) == "impl");
    let owner = block.and_then(|at| header(source, at).ok());
    owner.is_some_and(|it| naming::is_inside(krate, it.of, source.at(at + 1)))
}

impl Walk<'_> {
    /// A function that is `pub` at `visible`, and has a condition, is the package's own from now
    /// on. Returns whether the package may show the function whose `fn` stands at `at`.
    pub(crate) fn narrow(&mut self, visible: usize, at: usize, scope: Scope) -> bool {
        if scope == Scope::Trait {
            return self.is_public_trait;
        }
        if self.source.at(visible) != "pub" || self.source.at(visible + 1) == "(" {
            return false;
        }
        let is_narrow = has_condition(self.source, at) || is_inside(self.source, self.krate, at);
        if is_narrow {
            self.insert_after(visible, PACKAGE_ONLY.to_owned());
        }
        !is_narrow
    }

    /// The same for the import whose `use` stands at `at`: that of a function with a condition.
    pub(crate) fn narrow_import(&mut self, at: usize, end: usize) -> Result<(), Fault> {
        if self.source.before(at) != "pub" {
            return Ok(());
        }
        let conditions: Vec<(usize, Option<bool>)> = imported(self.source, self.names, at + 1, end);
        if let Some((at, _)) = conditions.iter().find(|it| it.1.is_none()) {
            let what = format!(
                "several functions `{}`, of which some have a condition",
                self.source.at(*at)
            );
            return Err(self.source.fault(*at, what));
        }
        let is_narrow = |it: &(usize, Option<bool>)| it.1 == Some(true);
        if !conditions.iter().any(is_narrow) {
            return Ok(());
        }
        if !conditions.iter().all(is_narrow) {
            let what = "a function with a condition needs a `pub use` of its own";
            return Err(self.source.fault(at, what));
        }
        self.insert_after(at - 1, PACKAGE_ONLY.to_owned());
        Ok(())
    }
}

/// The names that the import of the path from `at` to `end` gives, each with whether it is that of
/// a function with a condition. There is no answer if there are several.
pub(crate) fn imported(
    source: &Source<'_>,
    names: &Names,
    at: usize,
    end: usize,
) -> Vec<(usize, Option<bool>)> {
    let is_name = |at: &usize| {
        source.is_word(*at)
            && [",", ";", "}", "as"].contains(&source.at(at + 1))
            && source.before(*at) != "as"
    };
    let condition = |it: usize| {
        let name = source.at(it);
        names.has_condition(&place(source, names, at, name), name)
    };
    (at..end)
        .filter(is_name)
        .map(|it| (it, condition(it)))
        .collect()
}

/// The file that a path of an import leads to from this source, or the folder of the crate if the
/// function is elsewhere in it.
fn place(source: &Source<'_>, names: &Names, at: usize, name: &str) -> String {
    let (mut at, own) = (at, source.path);
    let folder = |krate: &str| format!("crates/{krate}/src");
    let krate = own.split('/').nth(1).unwrap_or_default();
    let root = match source.at(at) {
        "crate" => folder(krate),
        first if names.crates.contains_key(first) => folder(first),
        _ => String::new(),
    };
    let mut path = match root.as_str() {
        "" => own
            .trim_end_matches(".rt")
            .trim_end_matches("/lib")
            .to_owned(),
        root => {
            at += 2;
            root.to_owned()
        }
    };
    while source.at(at + 1) == "::" {
        path = format!("{path}/{}", source.at(at));
        at += 2;
    }
    let file = format!("{path}.rt");
    if names.has_function(&file, name) {
        return file;
    }
    match root.as_str() {
        "" => folder(krate),
        root => root.to_owned(),
    }
}
