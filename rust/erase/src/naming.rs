//! Names that the package has otherwise: those of crates, and of some items.
//!
//! A result is written with the sources' names. Here each that the table has becomes the package's:
//! where it is declared, wherever a path or an import leads to it, and in docs. So what a user sees
//! has one name.

use crate::edit::{edited, Change, Edit};
use crate::lex::{is_word, Kind, Token};
use crate::names::Names;
use crate::source::{Fault, Source};
use std::collections::{BTreeMap, BTreeSet};
use std::sync::LazyLock;

/// The table.
const TABLE: &str = include_str!("../names.txt");

/// The stand-ins for Rattle's library, as a crate of the table.
const KIT: &str = "kit";

/// Its lines, as words.
static LINES: LazyLock<Vec<Vec<&str>>> = LazyLock::new(|| {
    TABLE
        .lines()
        .map(|line| line.split(' ').collect())
        .collect()
});

/// The names of the package, by those of the sources: each with its crate.
static NAMES: LazyLock<BTreeMap<&str, Vec<(&str, &str)>>> = LazyLock::new(|| {
    let mut names: BTreeMap<&str, Vec<_>> = BTreeMap::new();
    for words in lines("name") {
        names
            .entry(words[1])
            .or_default()
            .push((words[0], words[2]));
    }
    names
});

/// The lines of the table that begin with this word, each as its other words.
fn lines(kind: &str) -> impl Iterator<Item = &'static [&'static str]> + '_ {
    let own = LINES.iter().filter(move |words| words[0] == kind);
    own.map(|words| &words[1..])
}

/// The crates of the package, each with the module that it is, in the order of their declarations.
pub fn modules() -> impl Iterator<Item = (&'static str, &'static str)> {
    lines("module").map(|words| (words[0], words[1]))
}

/// The module that this crate is in the package.
pub fn module_of(krate: &str) -> Option<&'static str> {
    modules().find(|it| it.0 == krate).map(|it| it.1)
}

/// The package's name of what this crate declares by this name.
fn name_of(krate: &str, name: &str) -> Option<&'static str> {
    let mut all = NAMES.get(name)?.iter();
    all.find(|it| it.0 == krate).map(|it| it.1)
}

/// Whether the package alone may call this function of this type of this crate.
pub(crate) fn is_inside(krate: &str, of: &str, name: &str) -> bool {
    let path = format!("{of}::{name}");
    lines("inside").any(|words| words[0] == krate && words[1..].contains(&path.as_str()))
}

/// The package's names of this name, of whatever crate.
fn all_of(name: &str) -> impl Iterator<Item = &'static str> {
    NAMES.get(name).into_iter().flatten().map(|it| it.1)
}

/// A result with the package's names. It must be of the package, or of what uses it by paths of the
/// package.
///
/// # Errors
///
/// The result can't be read.
pub fn named(text: &str, krate: &str, names: &Names) -> Result<String, Fault> {
    let source = Source::read("the result", text)?;
    let mut naming = Naming {
        source: &source,
        krate,
        names,
        imported: BTreeMap::new(),
        members: members(&source),
        edits: Vec::new(),
    };
    naming.declared();
    naming.imports();
    for at in 0..source.len() {
        naming.word(at);
    }
    for token in source.tokens.iter().filter(|it| it.kind == Kind::Comment) {
        let old = &text[token.from..token.to];
        let new = naming.comment(old);
        if new != old {
            naming.edit(token.from, token.to, new);
        }
    }
    Ok(edited(text, naming.edits))
}

/// Tests that two texts differ in names of the table alone.
///
/// # Errors
///
/// The first place at which they differ otherwise.
pub fn differs_by_names(before: &Source<'_>, after: &Source<'_>) -> Result<(), Fault> {
    let (mut at, mut out) = (0, 0);
    while at < before.len() || out < after.len() {
        let (from, to) = (before.at(at), after.at(out));
        // An import by the name that the package gives needs no other name.
        if from == "as" && to != "as" && all_of(before.at(at + 1)).any(|it| it == after.before(out))
        {
            at += 2;
            continue;
        }
        if from != to && all_of(from).all(|it| it != to) {
            let what = format!("the names make `{to}` of `{from}`");
            return Err(before.fault(at, what));
        }
        (at, out) = (at + 1, out + 1);
    }
    let of = |source: &Source<'_>| -> Vec<String> {
        let all = source.tokens.iter().filter(|it| it.kind == Kind::Comment);
        let text = |it: &Token| &source.text[it.from..it.to];
        all.map(|it| without_paths(&by_words(text(it), |word| all_of(word).next())))
            .collect()
    };
    match of(before) == of(after) {
        true => Ok(()),
        false => Err(before.fault(0, "the names change a comment")),
    }
}

struct Naming<'a, 'b> {
    source: &'b Source<'a>,
    krate: &'a str,
    names: &'b Names,
    /// What the file declares or imports, each with its crate and its name there.
    imported: BTreeMap<&'a str, (String, &'a str)>,
    /// The places of variants and of types of traits, where they are declared.
    members: BTreeSet<usize>,
    edits: Vec<Edit>,
}

impl<'a> Naming<'a, '_> {
    fn edit(&mut self, from: usize, to: usize, text: String) {
        let change = Change::Text(text);
        self.edits.push(Edit { from, to, change });
    }

    /// Notes what the file declares.
    fn declared(&mut self) {
        for at in 0..self.source.len() {
            if ["enum", "struct", "trait", "type"].contains(&self.source.at(at)) {
                let name = self.source.at(at + 1);
                self.imported.insert(name, (self.krate.to_owned(), name));
            }
        }
    }

    /// Notes what the file imports, each by the name that it has here.
    fn imports(&mut self) {
        let is_leaf = |at: &usize| {
            self.source.is_word(*at) && ![("::"), ("as")].contains(&self.source.at(*at + 1))
        };
        let mut all = Vec::new();
        for at in (0..self.source.len()).filter(|at| self.source.at(*at) == "use") {
            let end = self.source.find(at, self.source.len(), &[";"]);
            for leaf in (at + 1..end.unwrap_or(at)).filter(is_leaf) {
                let of = leaf - 2 * usize::from(self.source.before(leaf) == "as");
                let krate = self.crate_of_import(at, of);
                all.push((self.source.at(leaf), (krate, self.source.at(of))));
            }
        }
        self.imported.extend(all);
    }

    /// The crate of what is imported at `leaf`, in the import that begins at `at`.
    fn crate_of_import(&self, at: usize, leaf: usize) -> String {
        match self.source.at(at + 1) {
            "crate" if leaf > at + 1 => self.crate_of(self.source.at(at + 3)),
            "alloc" | "core" | "std" => String::new(),
            _ => self.krate.to_owned(),
        }
    }

    /// The crate that is this module of the package.
    fn crate_of(&self, module: &str) -> String {
        let of = modules().chain([(KIT, KIT)]).find(|it| it.1 == module);
        of.map_or("", |it| it.0).to_owned()
    }

    /// A word of the code.
    fn word(&mut self, at: usize) {
        let (source, name) = (self.source, self.source.at(at));
        if all_of(name).next().is_none() || self.members.contains(&at) {
            return;
        }
        let import = (0..at)
            .rev()
            .find(|at| [";", "use"].contains(&source.at(*at)));
        let import = import.filter(|at| source.at(*at) == "use" && source.before(*at) != "ghost");
        let to = match source.before(at) {
            "as" if import.is_some() => name_of(self.krate, name),
            "::" | "{" | "," if import.is_some() => {
                name_of(&self.crate_of_import(import.unwrap_or(at), at), name)
            }
            "::" => self
                .crate_of_path(at)
                .and_then(|krate| name_of(&krate, name)),
            _ => self.here(name),
        };
        let Some(to) = to else { return };
        let token = source.token(at);
        // An import by the name that the package gives needs no other name.
        if source.before(at) == "as" && source.at(at - 2) == to {
            return self.edit(source.token(at - 2).to, token.to, String::new());
        }
        self.edit(token.from, token.to, to.to_owned());
    }

    /// The package's name of what has this name in the file, without a path.
    fn here(&self, name: &str) -> Option<&'static str> {
        let (krate, own) = self.imported.get(name)?;
        match *own == name {
            true => name_of(krate, name),
            false => name_of(self.krate, name),
        }
    }

    /// The crate that the path leads to whose last name stands here, if it leads through modules
    /// alone.
    fn crate_of_path(&self, at: usize) -> Option<String> {
        let mut head = at;
        while self.source.before(head) == "::" && self.source.is_word(head.checked_sub(2)?) {
            head -= 2;
        }
        match self.source.at(head) {
            _ if self.source.before(head) == "::" => None,
            "crate" => Some(self.crate_of(self.source.at(head + 2))),
            name if name.starts_with(|c: char| c.is_uppercase()) => None,
            _ => Some(self.krate.to_owned()),
        }
    }

    /// A comment: the paths of its links, and words that no other crate has.
    fn comment(&self, text: &str) -> String {
        let is_docs = text.starts_with("///") || text.starts_with("//!");
        let text = by_words(text, |word| self.plain(word));
        if !is_docs {
            return text;
        }
        let mut out = String::new();
        let mut rest = text.as_str();
        while let Some(begin) = rest.find('[') {
            let close = rest[begin..].find(']').map_or(rest.len(), |at| begin + at);
            out += &rest[..=begin];
            let shown = rest.get(begin + 1..close).unwrap_or("");
            rest = &rest[begin + 1 + shown.len()..];
            let Some(path) = rest.strip_prefix("](").and_then(|it| it.split(')').next()) else {
                out += &self.code_of_link(shown, shown);
                continue;
            };
            rest = &rest[2 + path.len()..];
            out += &self.code_of_link(shown, path);
            out += "](";
            out += &self.link(path);
        }
        without_paths(&(out + rest))
    }

    /// What a link shows that leads to this path: code with names of the path has them as the path
    /// has them then.
    fn code_of_link(&self, shown: &str, path: &str) -> String {
        let Some(code) = shown.strip_prefix('`').and_then(|it| it.strip_suffix('`')) else {
            return shown.to_owned();
        };
        let path = path.trim_matches('`');
        let led = self.link(path);
        let pairs = || path.split("::").zip(led.split("::"));
        let word = |word: &str| {
            pairs()
                .find(|it| it.0 == word)
                .map_or(word, |it| it.1)
                .to_owned()
        };
        let words: Vec<String> = code.split("::").map(word).collect();
        format!("`{}`", words.join("::"))
    }

    /// The package's name of a word of a comment, if no other crate declares what has this name: it
    /// has two capitals at least, so it is no word of English.
    fn plain(&self, word: &str) -> Option<&'static str> {
        let is_name = word.chars().filter(|c| c.is_uppercase()).count() > 1;
        let to = all_of(word).next().filter(|_| is_name)?;
        (self.names.declaring(word) < 2).then_some(to)
    }

    /// The path of a link.
    fn link(&self, path: &str) -> String {
        let mut words: Vec<&str> = path.split("::").collect();
        if words[0] == "crate" && words.len() > 2 {
            let krate = self.crate_of(words[1]);
            for word in &mut words[2..] {
                *word = name_of(&krate, word).unwrap_or(word);
            }
        } else if let Some(to) = self.here(words[0]) {
            words[0] = to;
        }
        words.join("::")
    }
}

/// The places of all variants of the enums that a text declares, and of the types in its traits and
/// `impl` blocks.
fn members(source: &Source<'_>) -> BTreeSet<usize> {
    let mut members = BTreeSet::new();
    let mut depth = 0;
    for at in 0..source.len() {
        match source.at(at) {
            "{" => depth += 1,
            "}" => depth -= 1,
            "type" if depth > 0 => drop(members.insert(at + 1)),
            _ => {}
        }
    }
    for at in (0..source.len()).filter(|at| source.at(*at) == "enum") {
        let Some(open) = source.find(at, source.len(), &["{"]) else {
            continue;
        };
        let end = source.partner(open);
        let mut next = open + 1;
        while next < end {
            while source.at(next) == "#" {
                next = source.partner(next + 1) + 1;
            }
            members.insert(next);
            next = source.find(next, end, &[","]).unwrap_or(end) + 1;
        }
    }
    members
}

/// Docs in which a link that shows its path has no other path, and none leads to what a user can't
/// see.
fn without_paths(text: &str) -> String {
    let mut parts = text.split("](");
    let mut out = parts.next().unwrap_or("").to_owned();
    for part in parts {
        let begin = out.rfind('[').unwrap_or(out.len());
        let text = out[begin..].strip_prefix("[`");
        let shown = text.and_then(|it| it.strip_suffix('`'));
        match part.split_once(')') {
            Some((path, rest)) if shown == Some(path) => out += &format!("]{rest}"),
            Some((path, rest)) if begin < out.len() && is_plain(path) => {
                out.remove(begin);
                out += rest;
            }
            _ => out += &format!("]({part}"),
        }
    }
    out
}

/// Whether docs name what this path leads to without a link.
fn is_plain(path: &str) -> bool {
    lines("plain").any(|words| {
        let module = module_of(words[0]).unwrap_or(words[0]);
        let paths = words[1..].iter();
        paths
            .map(|it| format!("crate::{module}::{it}"))
            .any(|it| it == path)
    })
}

/// A text with other words in the place of some of its words.
fn by_words(text: &str, to: impl Fn(&str) -> Option<&'static str>) -> String {
    let mut out = String::new();
    let mut rest = text;
    while let Some(begin) = rest.find(is_word) {
        out += &rest[..begin];
        rest = &rest[begin..];
        let end = rest.find(|c| !is_word(c)).unwrap_or(rest.len());
        out += to(&rest[..end]).unwrap_or(&rest[..end]);
        rest = &rest[end..];
    }
    out + rest
}
