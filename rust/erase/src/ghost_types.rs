//! Ghost types. A trait of the sources that has ghost members only says nothing to a program, so it
//! goes, and with it each type parameter that it alone bounds: where it is declared, as an
//! argument, and as what a `PhantomData` is of.

use crate::forms::{BRAND, PHANTOM};
use crate::memory::{elements, fields, function, owners};
use crate::names::{block, parameters_in, Names};
use crate::source::Source;
use std::collections::{BTreeMap, BTreeSet};
use std::ops::Range;

/// Whether the trait that is declared here has ghost members only, and one at least.
pub(crate) fn is_ghost_trait(source: &Source<'_>, at: usize) -> bool {
    if source.at(at + 2) != "{" {
        return false;
    }
    let (mut next, close) = (at + 3, source.partner(at + 2));
    let mut has_member = false;
    while next < close {
        if source.at(next) != "ghost" {
            return false;
        }
        has_member |= source.at(next + 1) != "use";
        next = source.find(next, close, &[";"]).unwrap_or(close) + 1;
    }
    has_member
}

/// Whether a source has ghost imports and ghost traits only.
pub(crate) fn is_ghost(source: &Source<'_>, names: &Names) -> bool {
    let mut at = 0;
    while at < source.len() {
        let item = at + usize::from(source.at(at) == "pub");
        let end = if source.has(at, &["ghost", "use"]) {
            source.find(at, source.len(), &[";"])
        } else if source.at(item) == "trait" && names.ghost_traits.contains(source.at(item + 1)) {
            block(source, item).ok().map(|open| source.partner(open))
        } else {
            None
        };
        match end {
            Some(end) => at = end + 1,
            None => return false,
        }
    }
    at > 0
}

/// The path of the file of the module that is declared in this source.
pub(crate) fn file_of_module(source: &Source<'_>, name: &str) -> String {
    let (folder, file) = source.path.rsplit_once('/').unwrap_or(("", source.path));
    let stem = file.strip_suffix(".rt").unwrap_or(file);
    match stem {
        "lib" | "main" | "mod" => format!("{folder}/{name}.rt"),
        _ => format!("{folder}/{stem}/{name}.rt"),
    }
}

/// The fields of a source that are a `PhantomData` of a ghost type: the names of their structs, and
/// theirs.
pub(crate) fn phantoms(source: &Source<'_>, names: &Names) -> Vec<(String, String)> {
    let types = GhostTypes::parameters_of(source, names);
    let is_phantom = |it: &(usize, usize)| types.is_phantom(source, it.1);
    let found = fields(source).into_iter().filter(is_phantom);
    found
        .map(|(owner, name)| (source.at(owner).to_owned(), source.at(name).to_owned()))
        .collect()
}

/// Whether an argument here is the type that a call passes for a ghost parameter.
fn is_brand(source: &Source<'_>, at: usize) -> bool {
    source.at(at) == BRAND && ["<", ","].contains(&source.before(at)) && source.at(at + 1) == ">"
}

/// The place after `+ Send + Sync`, if it is here: a ghost parameter of what threads share has it
/// too.
pub(crate) fn after_threads(source: &Source<'_>, at: usize) -> usize {
    let threads = ["+", "Send", "+", "Sync"];
    at + if source.has(at, &threads) {
        threads.len()
    } else {
        0
    }
}

/// What is ghost of the types of one source.
#[derive(Default)]
pub(crate) struct GhostTypes<'a> {
    /// The items with ghost parameters, each with one of them.
    parameters: Vec<(Range<usize>, &'a str)>,
    /// The tokens that go, by the first of them: the place after the last one.
    pub(crate) gone: BTreeMap<usize, usize>,
    /// Whether no `PhantomData` is left.
    pub(crate) has_no_phantom: bool,
}

impl<'a> GhostTypes<'a> {
    /// Finds them.
    pub(crate) fn of(source: &'a Source<'a>, names: &Names) -> Self {
        let mut types = GhostTypes::parameters_of(source, names);
        let mut phantoms = BTreeSet::new();
        for at in 0..source.len() {
            if types.is_ghost(source, at) {
                if source.at(at + 1) == ":" && names.ghost_traits.contains(source.at(at + 2)) {
                    types.take(source, at, after_threads(source, at + 3));
                } else {
                    types.take(source, at, at + 1);
                }
            }
            if source.at(at) == "{" && at > 0 {
                types.take_phantoms(source, names, at, &mut phantoms);
            }
            if types.is_phantom(source, at) {
                phantoms.insert(at + 2);
            }
        }
        let is_use = |at: usize| {
            let begin = (0..at)
                .rev()
                .find(|at| [";", "}"].contains(&source.at(*at)));
            source.at(begin.map_or(0, |at| at + 1)) == "use"
        };
        let is_of_import = |at: usize| source.before(at) == "::" || is_use(at);
        let mut all = (0..source.len()).filter(|at| source.at(*at) == PHANTOM);
        types.has_no_phantom =
            !phantoms.is_empty() && all.all(|at| phantoms.contains(&at) || is_of_import(at));
        types
    }

    /// Finds the parameters.
    fn parameters_of(source: &Source<'a>, names: &Names) -> Self {
        let mut types = GhostTypes::default();
        if names.ghost_traits.is_empty() {
            return types;
        }
        for at in 0..source.len() {
            let angles = match source.at(at) {
                "impl" => at + 1,
                "enum" | "fn" | "struct" | "trait" | "type" => at + 2,
                _ => continue,
            };
            if source.at(angles) != "<" {
                continue;
            }
            let (Some(end), Ok(close)) = (end_of_item(source, at), source.after_angles(angles))
            else {
                continue;
            };
            for name in parameters_in(source, angles, close) {
                let end_of_bound = source.at(after_threads(source, name + 3));
                let is_bound = source.at(name + 1) == ":" && [",", ">"].contains(&end_of_bound);
                if is_bound && names.ghost_traits.contains(source.at(name + 2)) {
                    types.parameters.push((at..end, source.at(name)));
                }
            }
        }
        types
    }

    /// Whether a ghost parameter is named here.
    pub(crate) fn is_ghost(&self, source: &Source<'_>, at: usize) -> bool {
        let is_it = |it: &(Range<usize>, &str)| it.1 == source.at(at) && it.0.contains(&at);
        self.parameters.iter().any(is_it) || is_brand(source, at)
    }

    /// Whether a field that is a `PhantomData` of a ghost type begins here.
    pub(crate) fn is_phantom(&self, source: &Source<'_>, at: usize) -> bool {
        source.has(at + 1, &[":", PHANTOM, "<"])
            && self.is_ghost(source, at + 4)
            && source.at(at + 5) == ">"
            && [",", "}"].contains(&source.at(at + 6))
    }

    /// Takes out the places of such fields in the literal or the pattern whose brace is here.
    fn take_phantoms(
        &mut self,
        source: &Source<'_>,
        names: &Names,
        open: usize,
        phantoms: &mut BTreeSet<usize>,
    ) {
        let owner = |name: &str| match name {
            "Self" => {
                let own = owners(source).into_iter().find(|it| it.0.contains(&open));
                own.map_or(String::new(), |it| it.1.to_owned())
            }
            name => name.to_owned(),
        };
        for (begin, end) in elements(source, open) {
            let is_value = [PHANTOM, "_"].contains(&source.at(begin + 2));
            let is_whole = end == begin + 3 && source.at(begin + 1) == ":";
            if !is_value || !is_whole {
                continue;
            }
            let key = (owner(source.before(open)), source.at(begin).to_owned());
            if names.phantoms.contains(&key) {
                phantoms.insert(begin + 2);
                self.take(source, begin, end);
            }
        }
    }

    /// Takes out a part of a list with a comma, or the angles around it if it is the only one.
    fn take(&mut self, source: &Source<'_>, begin: usize, end: usize) {
        let (before, after) = (source.before(begin), source.at(end));
        if before == "<" && after == ">" {
            let from = begin - 1 - usize::from(source.before(begin - 1) == "::");
            self.gone.insert(from, end + 1);
        } else if ["<", ",", "{"].contains(&before) && after == "," {
            self.gone.insert(begin, end + 1);
        } else if before == "," && [">", "}"].contains(&after) {
            self.gone.insert(begin - 1, end);
        } else if before == "{" && after == "}" {
            self.gone.insert(begin, end);
        }
    }
}

/// The place after the item that begins here.
fn end_of_item(source: &Source<'_>, at: usize) -> Option<usize> {
    if source.at(at) == "fn" {
        return function(source, at).map(|it| it.1 + 1);
    }
    let body = source.find(at, source.len(), &["{", ";"])?;
    Some(source.partner(body) + 1)
}
