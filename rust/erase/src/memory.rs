//! The right to allocate, which the sources hand on as a value of the type `Global`. All memory of
//! a Rust program is its global allocator's, so the right goes: parameters, arguments, fields with
//! their places in literals and in patterns, and what is bound to it.
//!
//! The declaration of a parameter, a field or a binding says whether a name has the right. A place
//! of another form stays, and the walk refuses it.

use crate::forms;
use crate::names::{begins_item, block, header, Names};
use crate::source::{Fault, Source};
use std::collections::{BTreeMap, BTreeSet};
use std::ops::Range;

/// The fields of the sources.
#[derive(Default)]
pub(crate) struct Fields {
    /// For each name of a field that has the right, the structs and variants that have the field.
    of: BTreeMap<String, BTreeSet<String>>,
    /// The names of all other fields, and where one of the name is.
    others: BTreeMap<String, Fault>,
}

impl Fields {
    /// Adds the fields of a source.
    pub(crate) fn add(&mut self, source: &Source<'_>) {
        for (owner, at) in fields(source) {
            let name = source.at(at).to_owned();
            if source.has(at + 1, &[":", forms::RIGHT]) && is_end(source, at + 3) {
                let owners = self.of.entry(name).or_default();
                owners.insert(source.at(owner).to_owned());
            } else {
                let what = format!("a field that has another type elsewhere: `{name}`");
                self.others.entry(name).or_insert(source.fault(at, what));
            }
        }
    }

    /// Checks that the name of a field tells whether it has the right.
    ///
    /// # Errors
    ///
    /// One doesn't.
    pub(crate) fn check(&self) -> Result<(), Fault> {
        match self.of.keys().find_map(|name| self.others.get(name)) {
            Some(fault) => Err(fault.clone()),
            None => Ok(()),
        }
    }

    /// Whether a field of this name has the right.
    pub(crate) fn has(&self, name: &str) -> bool {
        self.of.contains_key(name)
    }

    /// Whether this struct or variant has a field of this name that has the right.
    pub(crate) fn has_of(&self, owner: &str, name: &str) -> bool {
        self.of.get(name).is_some_and(|of| of.contains(owner))
    }
}

/// The named fields of a source's structs and variants: the place of each owner's name, and of the
/// field's.
pub(crate) fn fields(source: &Source<'_>) -> Vec<(usize, usize)> {
    let mut found = Vec::new();
    for at in 0..source.len() {
        let is_enum = source.at(at) == "enum";
        if !is_enum && source.at(at) != "struct" || !source.is_word(at + 1) {
            continue;
        }
        let Some(body) = source.find(at, source.len(), &["{", "(", ";"]) else {
            continue;
        };
        if source.at(body) != "{" {
            continue;
        }
        for (begin, end) in elements(source, body) {
            let name = after_heads(source, begin);
            if is_enum && source.at(name + 1) == "{" {
                let within = elements(source, name + 1);
                found.extend(
                    within
                        .into_iter()
                        .map(|it| (name, after_heads(source, it.0))),
                );
            } else if !is_enum && name < end {
                found.push((at + 1, name));
            }
        }
    }
    found.retain(|(_, name)| source.is_word(*name) && source.at(*name + 1) == ":");
    found
}

/// The place after the attributes and the `pub` of a field.
fn after_heads(source: &Source<'_>, at: usize) -> usize {
    let mut at = at;
    while source.has(at, &["#", "["]) {
        at = source.partner(at + 1) + 1;
    }
    if source.at(at) == "pub" {
        at += 1;
        if source.at(at) == "(" {
            at = source.partner(at) + 1;
        }
    }
    at
}

/// The parts between the commas of the brackets that open here: each with its begin and its end.
pub(crate) fn elements(source: &Source<'_>, open: usize) -> Vec<(usize, usize)> {
    let close = source.partner(open);
    let mut parts = Vec::new();
    let mut begin = open + 1;
    while begin < close {
        let end = source.find(begin, close, &[","]).unwrap_or(close);
        parts.push((begin, end));
        begin = end + 1;
    }
    parts
}

/// Whether a part ends here.
fn is_end(source: &Source<'_>, at: usize) -> bool {
    [",", ")", "}", "|"].contains(&source.at(at))
}

/// What goes from one source.
#[derive(Default)]
pub(crate) struct Rights<'a> {
    /// The tokens that go, by the first of them: the place after the last one. A comma that parted
    /// them from others is one of them.
    pub(crate) gone: BTreeMap<usize, usize>,
    /// The functions, each with the names in it that have the right.
    functions: Vec<(Range<usize>, BTreeSet<&'a str>)>,
}

impl<'a> Rights<'a> {
    /// Finds them. The name of the type may be imported from the kit.
    pub(crate) fn of(source: &'a Source<'a>, names: &Names, is_imported: bool) -> Self {
        let mut rights = Rights::default();
        for at in 0..source.len() {
            let is_type = is_imported && source.has(at, &[",", forms::RIGHT, ">"]);
            if is_type && forms::RIGHT_TYPES.contains(&before_angles(source, at)) {
                rights.gone.insert(at, at + 2);
            }
        }
        let owners = owners(source);
        for at in 0..source.len() {
            if source.at(at) != "fn" || !source.is_word(at + 1) {
                continue;
            }
            let Some((signature, end)) = function(source, at) else {
                continue;
            };
            let own = owners.iter().find(|it| it.0.contains(&at));
            let mut function = Function {
                source,
                names,
                is_imported,
                own: own.map_or("", |it| it.1),
                makes: makes_rights(source, names, at..signature),
                having: BTreeSet::new(),
                gone: BTreeMap::new(),
            };
            function.find(at..end);
            rights.gone.append(&mut function.gone);
            rights.functions.push((at..end, function.having));
        }
        rights
    }

    /// Whether the name at this place has the right. If it can't be told, `None`.
    pub(crate) fn has(&self, source: &Source<'_>, at: usize) -> Option<bool> {
        let name = source.at(at);
        let Some((range, having)) = self.functions.iter().find(|it| it.0.contains(&at)) else {
            return Some(false);
        };
        if having.contains(name) {
            return Some(true);
        }
        let is_typed = |at: usize| {
            source.has(at, &[name, ":"])
                && ["(", ",", "let", "mut", "|"].contains(&source.before(at))
        };
        range.clone().any(is_typed).then_some(false)
    }
}

/// The blocks of `impl`, each with the name of its type.
pub(crate) fn owners<'a>(source: &Source<'a>) -> Vec<(Range<usize>, &'a str)> {
    let blocks =
        (0..source.len()).filter(|at| source.at(*at) == "impl" && begins_item(source, *at));
    let found = blocks.filter_map(|at| {
        let body = block(source, at).ok()?;
        Some((at..source.partner(body), header(source, at).ok()?.of))
    });
    found.collect()
}

/// The word before the `<` whose `>` comes after this place.
fn before_angles<'a>(source: &Source<'a>, at: usize) -> &'a str {
    let mut depth = 1;
    for at in (0..at).rev() {
        match source.at(at) {
            ">" => depth += 1,
            "<" => depth -= 1,
            _ => {}
        }
        if depth == 0 {
            return source.before(at);
        }
    }
    ""
}

/// Where the signature of the function at this place ends, and the function itself.
pub(crate) fn function(source: &Source<'_>, at: usize) -> Option<(usize, usize)> {
    let ends = ["{", ";", forms::CLAUSES[0], forms::CLAUSES[1]];
    let signature = source.find(at, source.len(), &ends)?;
    let mut end = signature;
    while forms::CLAUSES.contains(&source.at(end)) {
        let open = source.find(end, source.len(), &["{"])?;
        end = source.partner(open) + 1;
    }
    (end < source.len()).then(|| (signature, source.partner(end).max(end)))
}

/// Whether the function of this signature has an `rt` that hands out the right.
fn makes_rights(source: &Source<'_>, names: &Names, signature: Range<usize>) -> bool {
    let is_bound = signature.clone().any(|at| source.has(at, &["rt", ":"]));
    let lists = names.forms.iter().flat_map(|forms| forms.hands_out_right);
    let known: Vec<&&str> = lists.collect();
    let is_made = |at: usize| known.contains(&&source.at(at));
    is_bound && signature.into_iter().any(is_made)
}

/// One function.
struct Function<'a, 'b> {
    source: &'a Source<'a>,
    names: &'b Names,
    is_imported: bool,
    /// The type of its `impl` block.
    own: &'a str,
    /// Whether its `rt` hands out the right.
    makes: bool,
    /// The names in it that have the right.
    having: BTreeSet<&'a str>,
    gone: BTreeMap<usize, usize>,
}

impl<'a> Function<'a, '_> {
    fn find(&mut self, range: Range<usize>) {
        let source = self.source;
        for at in range.clone() {
            if self.is_parameter(at) {
                self.having.insert(source.at(at));
                self.take(at, at + 3);
            } else if self.is_bound(at) {
                self.having.insert(source.at(at + 1));
                self.gone.insert(at, at + 9);
            } else if source.at(at) == "{" {
                for (begin, end) in elements(source, at) {
                    if end == begin + 1 && self.is_field(at, begin) {
                        self.having.insert(source.at(begin));
                    }
                }
            }
        }
        self.having.remove("_");
        for at in range {
            match source.at(at) {
                "(" if self.is_call(at) => self.arguments(at),
                "(" if self.is_handed(at) => drop(self.gone.insert(at + 1, at + 4)),
                "{" => self.parts(at),
                _ => {}
            }
        }
    }

    /// Whether a parameter that has the right is here.
    fn is_parameter(&self, at: usize) -> bool {
        self.is_imported
            && ["(", ",", "|"].contains(&self.source.before(at))
            && self.source.is_word(at)
            && self.source.has(at + 1, &[":", forms::RIGHT])
            && is_end(self.source, at + 3)
            && self.source.at(at + 3) != "}"
    }

    /// Whether `let NAME = rt.alloc();` is here.
    fn is_bound(&self, at: usize) -> bool {
        self.makes
            && self.source.at(at) == "let"
            && self.source.is_word(at + 1)
            && self
                .source
                .has(at + 2, &["=", "rt", ".", "alloc", "(", ")", ";"])
    }

    /// Whether a field that has the right begins at `at`, in the literal or the pattern whose brace
    /// is at `open`.
    fn is_field(&self, open: usize, at: usize) -> bool {
        let owner = match self.source.before(open) {
            "Self" => self.own,
            name => name,
        };
        self.names.fields.has_of(owner, self.source.at(at))
    }

    /// Whether the bracket here opens the arguments of a function. The name of a variant has a
    /// capital.
    fn is_call(&self, open: usize) -> bool {
        let before = self.source.before(open);
        let is_name = before.starts_with(|c: char| c.is_lowercase() || c == '_');
        before == ">" || is_name && !forms::KEYWORDS.contains(&before)
    }

    /// Whether the bracket here opens what a macro takes, and that begins with `in alloc;`.
    fn is_handed(&self, open: usize) -> bool {
        self.source.before(open) == "!"
            && self.source.at(open + 1) == "in"
            && self.source.at(open + 3) == ";"
            && self.is_right(open + 2, open + 3)
    }

    fn arguments(&mut self, open: usize) {
        for (begin, end) in elements(self.source, open) {
            if self.is_right(begin, end) {
                self.take(begin, end);
            }
        }
    }

    fn parts(&mut self, open: usize) {
        for (begin, end) in elements(self.source, open) {
            let is_whole = end == begin + 1;
            let has_value = || {
                self.source.at(begin + 1) == ":"
                    && (end == begin + 3 && self.source.at(begin + 2) == "_"
                        || self.is_right(begin + 2, end))
            };
            if self.is_field(open, begin) && (is_whole || has_value()) {
                self.take(begin, end);
            }
        }
    }

    /// Whether these tokens are the right: a name that has it, a field that has it, or what hands
    /// it out.
    fn is_right(&self, begin: usize, end: usize) -> bool {
        let source = self.source;
        match end - begin {
            1 => source.at(begin) == forms::RIGHT || self.having.contains(source.at(begin)),
            3 => {
                source.is_word(begin)
                    && source.at(begin + 1) == "."
                    && self.names.fields.has(source.at(begin + 2))
            }
            5 => self.makes && source.has(begin, &["rt", ".", "alloc", "(", ")"]),
            _ => false,
        }
    }

    /// Takes out a part with a comma: the one after it, or else the one before.
    fn take(&mut self, begin: usize, end: usize) {
        if self.source.at(end) == "," {
            self.gone.insert(begin, end + 1);
        } else if self.source.before(begin) == "," {
            self.gone.insert(begin - 1, end);
        } else {
            self.gone.insert(begin, end);
        }
    }
}
