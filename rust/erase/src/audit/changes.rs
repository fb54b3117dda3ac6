//! What may stand in the result in place of what.

use super::{has, pieces, Audit};
use crate::forms::{self, Forms, Module, Renamed, OF_RIGHT};
use crate::names::Names;
use crate::walk::OWN_ONLY;

/// Tokens that stand in the result in place of those of the source.
pub(super) struct Change {
    /// Whether it is only where a path begins.
    is_path: bool,
    /// Whether it is only before an argument that is the right to allocate.
    is_of_right: bool,
    from: Vec<String>,
    to: Vec<String>,
}

impl Change {
    fn new(from: &str, to: &str) -> Self {
        Change {
            is_path: false,
            is_of_right: false,
            from: pieces(from),
            to: pieces(to),
        }
    }

    fn of_path(from: &str, to: &str) -> Self {
        Change {
            is_path: true,
            ..Change::new(from, to)
        }
    }
}

/// The list of all that may stand in the result in place of what, but for derives.
pub(super) fn changes(krate: &str, path: &str, names: &Names) -> Vec<Change> {
    let mut changes = vec![
        Change::new("pub(crate)", OWN_ONLY),
        Change::new("fmt<W: fmt::Write>(", "fmt("),
        Change::new("fmt::Formatter<W>", "fmt::Formatter<'_>"),
        Change::new(
            "-> Result<Self, std::alloc::AllocError> { Ok(self.again()) }",
            "-> Self { self.again() }",
        ),
        Change::of_path("crate::", &format!("{}::", names.crates[krate])),
    ];
    for call in forms::LIST_CALLS.iter().filter(|it| it.from != it.to) {
        let method = |name| format!(".{name}(");
        changes.push(Change::new(&method(call.from), &method(call.to)));
    }
    for (from, to) in forms::LIST_PATHS {
        let path = |name| format!("{}::{name}", forms::LIST);
        changes.push(Change::of_path(&path(from), &path(to)));
    }
    if forms::is_padded(krate, path) {
        changes.push(Change::new("write!(", "padded!("));
    }
    for (name, path) in &names.crates {
        changes.push(Change::of_path(&format!("{name}::"), &format!("{path}::")));
    }
    for forms in &names.forms {
        changes.extend(pairs_of_modules(&names.forms));
        for module in forms
            .modules
            .iter()
            .filter(|module| !module.names.is_empty())
        {
            changes.push(Change::of_path(module.path, module.to));
            changes.extend(lists_with_ghosts(module));
        }
        for renamed in forms.renamed {
            changes.extend(renamings(renamed));
        }
        let makes = |runtime| Change::new(&format!("(rt: {runtime})"), "()");
        changes.extend(forms.runtime.map(makes));
    }
    changes
}

/// An import of two modules of std is one of each.
fn pairs_of_modules(forms: &[&'static Forms]) -> Vec<Change> {
    let modules = || forms.iter().flat_map(|forms| forms.modules);
    let named =
        || modules().filter_map(|module| Some((module.path.strip_prefix("std::")?, module)));
    let pairs = named().flat_map(|one| named().map(move |other| (one, other)));
    let change = |((first, one), (second, other)): ((&str, &Module), (&str, &Module))| {
        let from = format!("use std::{{{first}, {second}}};");
        Change::new(&from, &format!("use {}; use {};", one.to, other.to))
    };
    pairs.map(change).collect()
}

/// Of a list of two names one is ghost, so the other one is left.
fn lists_with_ghosts(module: &Module) -> impl Iterator<Item = Change> + '_ {
    let pairs = module
        .names
        .iter()
        .flat_map(|name| module.ghost.iter().map(move |it| (it, name)));
    pairs.flat_map(|(ghost, name)| {
        let lists = [format!("{ghost}, {name}"), format!("{name}, {ghost}")];
        lists.map(|list| {
            let from = format!("{}::{{{list}}}", module.path);
            Change::of_path(&from, &format!("{}::{name}", module.to))
        })
    })
}

/// A method by its other name, before each of its arguments.
fn renamings(renamed: &Renamed) -> impl Iterator<Item = Change> + '_ {
    renamed.arguments.iter().map(|argument| {
        if *argument == OF_RIGHT {
            return Change {
                is_of_right: true,
                ..Change::new(&format!(".{}(", renamed.from), &format!(".{}(", renamed.to))
            };
        }
        let is_any_text = *argument == ["\""];
        let argument = if is_any_text {
            String::new()
        } else {
            argument.concat()
        };
        let from = format!(".{}({argument}", renamed.from);
        Change::new(&from, &format!(".{}({argument}", renamed.to))
    })
}

impl Audit<'_> {
    /// What the source has here and the result in its place, if that is in the list.
    pub(super) fn changed(&self) -> Option<(usize, usize)> {
        let begins_path = !["::", "."].contains(&self.source.before(self.at));
        let fits = |change: &&Change| {
            (begins_path || !change.is_path)
                && (!change.is_of_right || self.right_part(self.at + change.from.len()).is_some())
                && has(self.source, self.at, &change.from)
                && has(self.result, self.out, &change.to)
        };
        let derive = self.derive_change();
        let all = self.changes.iter().chain(derive.as_ref());
        let longest = all.filter(fits).max_by_key(|change| change.from.len())?;
        Some((longest.from.len(), longest.to.len()))
    }

    /// Whether a call here stays, though what the source says of its value tells that it is a list.
    pub(super) fn keeps_call_of_list(&self) -> bool {
        let (source, at) = (self.source, self.at);
        let list = source.before(at);
        let is_call =
            |it: &&forms::ListCall| it.from != it.to && source.has(at, &[".", it.from, "("]);
        if !forms::LIST_CALLS.iter().any(|it| is_call(&it)) {
            return false;
        }
        let is_list = |at: usize| {
            source.has(at, &[list, ":", "&", "mut", forms::LIST])
                || source.has(at, &[list, ":", forms::LIST])
                || source.has(at, &["let", "mut", list, "=", forms::LIST])
        };
        let is_other = |at: usize| source.has(at, &[list, ":"]) && !is_list(at);
        (0..source.len()).any(is_list) && !(0..source.len()).any(is_other)
    }

    /// A derive of which some names stay.
    fn derive_change(&self) -> Option<Change> {
        let (source, at) = (self.source, self.at);
        if !source.has(at, &["#", "[", "derive", "("]) {
            return None;
        }
        let from = (at..source.partner(at + 1) + 1).map(|at| source.at(at).to_owned());
        let kept = self.kept_derives(at + 1).join(", ");
        Some(Change {
            is_path: false,
            is_of_right: false,
            from: from.collect(),
            to: pieces(&format!("#[derive({kept})]")),
        })
    }
}
