//! The types that the sources declare: of their fields, and of what their functions return.

use crate::forms;
use crate::memory::{fields, owners};
use crate::names::Names;
use crate::source::Source;
use std::collections::BTreeMap;

/// The tokens of a type.
pub(crate) type Type = Vec<String>;

/// The types that all sources declare.
#[derive(Default)]
pub(crate) struct Types {
    /// Of the fields of each name, each with its file.
    fields: BTreeMap<String, Vec<(String, Type)>>,
    /// What the functions of each name return, each with its file. The name has the type before it
    /// that has the function.
    returned: BTreeMap<String, Vec<(String, Type)>>,
}

impl Types {
    /// Adds those of a source.
    pub(crate) fn add(&mut self, source: &Source<'_>) {
        for (_, at) in fields(source) {
            let of_name = self.fields.entry(source.at(at).to_owned()).or_default();
            of_name.push((source.path.to_owned(), type_at(source, at + 2)));
        }
        let owners = owners(source);
        for at in (0..source.len()).filter(|at| is_function(source, *at)) {
            let owner = owners.iter().find(|it| it.0.contains(&at));
            let name = path(owner.map_or("", |it| it.1), source.at(at + 1));
            if let Some(returned) = returned(source, at) {
                let of_name = self.returned.entry(name).or_default();
                of_name.push((source.path.to_owned(), inner(&returned)));
            }
        }
    }

    /// The type of a field of this name, as a source knows it.
    pub(crate) fn field(&self, path: &str, name: &str, names: &Names) -> Option<Type> {
        nearest(self.fields.get(name)?, path, names)
    }

    /// What the methods of this name return, of whatever type they are, without `Result` and
    /// `Option`.
    pub(crate) fn returned_by_any(&self, name: &str, names: &Names) -> Option<Type> {
        let last = path("", name);
        let all = self.returned.iter().filter(|it| it.0.ends_with(&last));
        agreed(all.flat_map(|it| it.1).map(|it| &it.1), names)
    }

    /// What the function of this name returns, without `Result` and `Option`, as a source knows it.
    pub(crate) fn returned(&self, path: &str, name: &str, names: &Names) -> Option<Type> {
        nearest(self.returned.get(name)?, path, names)
    }
}

/// The type among these that a source knows by their name: those of its own file come first, and
/// then those of its crate.
fn nearest(all: &[(String, Type)], path: &str, names: &Names) -> Option<Type> {
    let krate = |path: &str| path.split('/').nth(1).map(str::to_owned);
    let nearest = [
        all.iter().filter(|it| it.0 == path).collect::<Vec<_>>(),
        all.iter()
            .filter(|it| krate(&it.0) == krate(path))
            .collect(),
        all.iter().collect(),
    ];
    let of = nearest.into_iter().find(|it| !it.is_empty())?;
    agreed(of.into_iter().map(|it| &it.1), names)
}

/// A name with the type before it that has it.
pub(crate) fn path(owner: &str, name: &str) -> String {
    format!("{owner}::{name}")
}

/// The first of these types, if all of them say the same of whether a value is a list.
fn agreed<'a>(types: impl Iterator<Item = &'a Type>, names: &Names) -> Option<Type> {
    let types: Vec<&Type> = types.collect();
    let first = is_list(types.first()?, names)?;
    let agree = types.iter().all(|it| is_list(it, names) == Some(first));
    agree.then(|| types[0].clone())
}

/// Whether a function of a name is declared here.
pub(crate) fn is_function(source: &Source<'_>, at: usize) -> bool {
    source.at(at) == "fn" && source.is_word(at + 1)
}

/// What the function here returns.
fn returned(source: &Source<'_>, at: usize) -> Option<Type> {
    let mut open = at + 2;
    if source.at(open) == "<" {
        open = source.after_angles(open).ok()?;
    }
    let close = source.partner(open);
    (source.at(close + 1) == "->").then(|| type_at(source, close + 2))
}

/// The tokens of the type that begins here.
pub(crate) fn type_at(source: &Source<'_>, at: usize) -> Type {
    let mut end = at;
    while end < source.len() {
        end = match source.at(end) {
            "," | ")" | "]" | "}" | "=" | ";" | "{" | "|" | ">" | "where" => break,
            word if forms::CLAUSES.contains(&word) => break,
            "<" => source.after_angles(end).unwrap_or(source.len()),
            "(" | "[" => source.partner(end) + 1,
            _ => end + 1,
        };
    }
    (at..end).map(|at| source.at(at).to_owned()).collect()
}

/// A type without what borrows it.
fn owned(of: &[String]) -> &[String] {
    let is_borrow =
        |token: &String| ["&", "mut"].contains(&token.as_str()) || token.starts_with('\'');
    let begin = of.iter().position(|token| !is_borrow(token));
    &of[begin.unwrap_or(of.len())..]
}

/// The last name of a type's path, before its arguments; or the sign that it begins with.
pub(crate) fn head(of: &[String]) -> &str {
    let of = owned(of);
    let path = of
        .iter()
        .take_while(|token| !["<", "["].contains(&token.as_str()));
    let first = of.first().map_or("", String::as_str);
    path.last().map_or(first, String::as_str)
}

/// The first argument of a type, or the items of a slice.
pub(crate) fn argument(of: &[String]) -> Option<Type> {
    let of = owned(of);
    let open = of
        .iter()
        .position(|token| ["<", "["].contains(&token.as_str()))?;
    let mut depth = 0;
    let rest = of[open + 1..].iter().take_while(|token| {
        let is_end = depth == 0 && [",", ">", ";", "]"].contains(&token.as_str());
        depth += match token.as_str() {
            "<" | "(" | "[" => 1,
            ">" | ")" | "]" => -1,
            _ => 0,
        };
        !is_end
    });
    Some(rest.cloned().collect())
}

/// What is in a `Result` or an `Option`.
fn inner(of: &[String]) -> Type {
    match head(of) {
        "Result" | "Option" => argument(of).unwrap_or_default(),
        _ => of.to_vec(),
    }
}

/// Whether a value of this type is a list, if that is known. A slice isn't known: it has calls of a
/// list.
pub(crate) fn is_list(of: &[String], names: &Names) -> Option<bool> {
    let head = head(of);
    if head == forms::LIST {
        return Some(true);
    }
    let modules = names.forms.iter().flat_map(|forms| forms.modules);
    let preludes = names.forms.iter().flat_map(|forms| forms.prelude);
    let is_of_kit = modules
        .into_iter()
        .any(|module| module.names.contains(&head))
        || preludes.into_iter().any(|import| import.name == head)
        || ["Option", "Self"].contains(&head)
        || forms::PRIMITIVES.contains(&head);
    let is_own = names.items.contains(head) && names.is_type(head) && !names.is_alias(head);
    (is_of_kit || is_own).then_some(false)
}
