//! Paths, in imports and in code.

use crate::forms::{self, Module};
use crate::items::Scope;
use crate::memory::elements;
use crate::names::taken;
use crate::source::Fault;
use crate::walk::{Next, Walk};

/// What is taken from a module.
#[derive(Default)]
pub(crate) struct Taken<'a> {
    /// The names that stay.
    kept: Vec<&'a str>,
    /// Whether there are others, which are ghost.
    has_ghosts: bool,
}

impl<'a> Walk<'a> {
    /// An import whose `use` stands at `at`, and its attributes before it.
    pub(crate) fn use_item(&mut self, start: usize, at: usize, scope: Scope) -> Next {
        let end = self.source.find(at, self.source.len(), &[";"]);
        let end = end.ok_or_else(|| self.source.fault(at, "`;` is missing"))? + 1;
        let first = self.source.at(at + 1);
        let is_list = self.source.has(at + 1, &["std", "::", "{"]);
        if is_list {
            self.import_modules(at)?;
        } else if let Some(module) = self.module_at(at + 1)? {
            let taken = self.taken(at + 1, module)?;
            if taken.has_ghosts && taken.kept.is_empty() {
                self.cut_item(start, end)?;
                return Ok(end);
            }
            self.lead(at + 1, module);
            if taken.has_ghosts {
                self.keep_names(at + 2 + length(module), &taken.kept);
            }
        } else if self.ghost_import(start, at, end)? {
            return Ok(end);
        } else if first == "crate" || self.names.crates.contains_key(first) {
            self.lead_to_crate(at + 1);
        } else if !["super", "self"].contains(&first) && !self.declared.contains(first) {
            return Err(self
                .source
                .fault(at + 1, format!("an unknown crate: `{first}`")));
        }
        if !is_list {
            self.check_import(at + 1, end - 1)?;
        }
        self.narrow_import(at, end)?;
        if scope == Scope::File {
            let begin = self.begin_of_item(start)?;
            self.first_use.get_or_insert(begin);
            self.first_item.get_or_insert(begin);
        }
        Ok(end)
    }

    /// An import of several modules of std becomes one of each.
    fn import_modules(&mut self, at: usize) -> Result<(), Fault> {
        let (open, before) = (at + 3, self.source.before(at));
        if before == "pub" || before == ")" {
            return Err(self.source.fault(at, "an unknown import of modules"));
        }
        let mut imports = Vec::new();
        for (begin, end) in elements(self.source, open) {
            let path = format!("std::{}", self.source.at(begin));
            let known = self.module_of(&path).filter(|_| end == begin + 1);
            let Some(module) = known else {
                let what = format!("an unknown path of std: `{path}`");
                return Err(self.source.fault(begin, what));
            };
            self.modules.insert(self.source.at(begin), module.names);
            imports.push(format!("use {}", module.to));
        }
        let end = self.source.partner(open) + 1;
        self.replace(at, end, imports.join(";\n"));
        Ok(())
    }

    /// The module with this path.
    fn module_of(&self, path: &str) -> Option<&'static Module> {
        let all = self.names.forms.iter().flat_map(|forms| forms.modules);
        all.rev().find(|module| module.path == path)
    }

    /// Whether an import of the sources is that of a ghost trait, which goes.
    fn ghost_import(&mut self, start: usize, at: usize, end: usize) -> Result<bool, Fault> {
        let is_ghost = |at: usize| self.names.ghost_traits.contains(self.source.at(at));
        if (at..end).all(|at| !is_ghost(at)) {
            return Ok(false);
        }
        if self.source.at(end - 2) == "}" || self.source.at(end - 3) == "as" {
            return Err(self.source.fault(at, "an unknown import of a ghost trait"));
        }
        self.cut_item(start, end)?;
        Ok(true)
    }

    /// An import must give no name another meaning, and must name all that it imports. From the
    /// sources it imports only their own names.
    fn check_import(&self, at: usize, end: usize) -> Result<(), Fault> {
        let is_of_std = self.module_at(at)?.is_some();
        for at in at + 1..end {
            let name = self.source.at(at);
            let is_last = self.source.is_word(at) && self.source.at(at + 1) != "::";
            let is_renamed = self.source.before(at) == "as";
            let is_plain =
                is_of_std && !is_renamed || ["as", "crate", "self", "super"].contains(&name);
            if name == "*" {
                let what = "an import of names that it doesn't list";
                return Err(self.source.fault(at, what));
            }
            if is_last && !is_plain && self.names.is_taken(name) {
                return Err(taken(self.source, at));
            }
            let is_own = self.names.has(name) || self.names.crates.contains_key(name);
            if self.source.is_word(at) && !is_plain && !is_renamed && !is_own {
                let what = format!("an import of an unknown name: `{name}`");
                return Err(self.source.fault(at, what));
            }
        }
        Ok(())
    }

    /// A path of code whose first name stands at `at`, before a `::`.
    pub(crate) fn path(&mut self, at: usize) -> Next {
        let first = self.source.at(at);
        if let Some(module) = self.module_at(at)? {
            if self.taken(at, module)?.has_ghosts {
                return Err(self.source.fault(at, "a ghost path in code"));
            }
            let end = at + length(module);
            if self.source.at(end + 2) == "::" {
                self.rest_of_path(end + 1)?;
            }
            self.lead(at, module);
            return Ok(end);
        }
        if first == "crate" || self.names.crates.contains_key(first) {
            self.rest_of_path(at)?;
            self.lead_to_crate(at);
            return Ok(at + 1);
        }
        self.need(at)?;
        self.rest_of_path(at)?;
        self.list_path(at)?;
        Ok(at + 1)
    }

    /// Each name of a path after the one at `at` must be known: as one that its head has, or as one
    /// of the sources.
    fn rest_of_path(&self, at: usize) -> Result<(), Fault> {
        let (mut head, mut next) = (at, self.after_name(at)?);
        if self.source.at(next - 1) == ">" && !self.is_known(self.source.at(at)) {
            return Err(self.unknown_name(at));
        }
        while self.source.at(next - 1) == "::" && self.source.is_word(next) {
            let (first, name) = (self.source.at(head), self.source.at(next));
            let of_std = match self.modules.get(first) {
                Some(known) => Some(*known),
                None => self.associated(first),
            };
            let is_own = ["crate", "self", "super", "Self"].contains(&first)
                || self.names.crates.contains_key(first)
                || !self.names.is_alias(first)
                    && !self.of_std.contains(first)
                    && (self.names.items.contains(first) || self.bound.contains(first));
            let is_known = match of_std {
                Some(known) => known.contains(&name),
                None => {
                    is_own
                        && !forms::COMMON_METHODS.contains(&name)
                        && (name == "super" || self.names.has(name) || forms::GIVEN.contains(&name))
                }
            };
            if !is_known {
                let what = format!("an unknown path: `{first}::{name}`");
                return Err(self.source.fault(next, what));
            }
            (head, next) = (next, self.after_name(next)?);
        }
        Ok(())
    }

    /// The place after a name of a path, after the `::` that follows it, and after parameters
    /// between the two.
    fn after_name(&self, at: usize) -> Next {
        let mut next = at + 1;
        if self.source.at(next) == "::" {
            next += 1;
            if self.source.at(next) == "<" {
                next = self.source.after_angles(next)?;
                next += usize::from(self.source.at(next) == "::");
            }
        }
        Ok(next)
    }

    /// A `::` in code. A path begins with a name, and each parameter of it stands after a `::`.
    pub(crate) fn within_path(&self, at: usize) -> Next {
        let mut begin = at;
        if self.source.before(at) == ">" {
            let mut depth = 0;
            begin = (0..at)
                .rev()
                .find(|at| {
                    depth += match self.source.at(*at) {
                        ">" => 1,
                        "<" => -1,
                        _ => 0,
                    };
                    depth == 0
                })
                .unwrap_or(0);
            begin -= usize::from(self.source.before(begin) == "::");
        }
        let after_name = begin > 0 && self.source.is_word(begin - 1);
        if after_name && (begin == at || self.source.at(begin) == "::") {
            return Ok(at + 1);
        }
        Err(self.source.fault(at, "a path that begins with no name"))
    }

    /// What may be called by a path that begins with this type or module.
    fn associated(&self, first: &str) -> Option<&'static [&'static str]> {
        let first = self.names.aliased(first).unwrap_or(first);
        let all = self.names.forms.iter().flat_map(|forms| forms.associated);
        all.rev()
            .find(|known| known.0 == first)
            .map(|known| known.1)
    }

    /// The module of std or of the kit that the path at this place begins with, the longest one.
    /// Any other path of std is a fault.
    pub(crate) fn module_at(&self, at: usize) -> Result<Option<&'static Module>, Fault> {
        let begins = |module: &&Module| {
            let names = module.path.split("::").enumerate();
            let fits = |(number, name)| self.source.at(at + 2 * number) == name;
            names.into_iter().all(fits)
        };
        let all = self.names.forms.iter().flat_map(|forms| forms.modules);
        let longest = all.filter(begins).max_by_key(|module| module.path.len());
        if longest.is_none() && forms::CRATES.contains(&self.source.at(at)) {
            let path = format!("{}::{}", self.source.at(at), self.source.at(at + 2));
            return Err(self
                .source
                .fault(at, format!("an unknown path of std: `{path}`")));
        }
        Ok(longest)
    }

    /// The names that are taken from the module at this place. If the path ends with the module, it
    /// is known by its name from here on.
    pub(crate) fn taken(&mut self, at: usize, module: &'static Module) -> Result<Taken<'a>, Fault> {
        let end = at + length(module);
        let mut taken = Taken::default();
        if self.source.at(end) != "::" {
            let alias = self.source.at(end) == "as";
            let name = if alias { end + 1 } else { end - 1 };
            self.modules.insert(self.source.at(name), module.names);
            return Ok(taken);
        }
        if self.source.at(end + 2) == "as" {
            let what = "a name of std by another name";
            return Err(self.source.fault(end + 2, what));
        }
        let places = match self.source.at(end + 1) {
            "{" => end + 2..self.source.partner(end + 1),
            _ => end + 1..end + 2,
        };
        for at in places {
            let name = self.source.at(at);
            if name == forms::PHANTOM && self.types.has_no_phantom {
                taken.has_ghosts = true;
            } else if module.ghost.contains(&name) {
                self.ghosts.insert(name);
                taken.has_ghosts = true;
            } else if module.names.contains(&name) {
                self.of_std.insert(name);
                taken.kept.push(name);
            } else if name != "," {
                let what = format!("an unknown path: `{}::{name}`", module.path);
                return Err(self.source.fault(at, what));
            }
        }
        Ok(taken)
    }

    /// Puts what the module leads to in the place of its path.
    fn lead(&mut self, at: usize, module: &Module) {
        self.replace(at, at + length(module), module.to);
    }

    /// Puts these names in the place of the list of names that begins here.
    fn keep_names(&mut self, open: usize, names: &[&str]) {
        let text = match names {
            [name] => (*name).to_owned(),
            _ => format!("{{{}}}", names.join(", ")),
        };
        self.replace(open, self.source.partner(open) + 1, text);
    }

    /// Puts the crate's path in the result in the place of its name.
    fn lead_to_crate(&mut self, at: usize) {
        let name = match self.source.at(at) {
            "crate" => self.krate,
            name => name,
        };
        let path = self.names.crates[name].clone();
        self.replace(at, at + 1, path);
    }
}

/// How many tokens the module's path has.
fn length(module: &Module) -> usize {
    2 * module.path.split("::").count() - 1
}
