//! What the sources declare, and what they may not.
//!
//! The eraser acts on names: `Drop` is a bound, an `impl` of `Model` goes, `itoa` is a crate,
//! `.len()` of a list is that of its slice. So no source may give one of these names another
//! meaning, and a method must be the same one however it is looked up.

use crate::conditions::has_condition;
use crate::forms::{self, Forms};
use crate::ghost_types;
use crate::memory::Fields;
use crate::source::{Fault, Source};
use crate::types::Types;
use std::collections::{BTreeMap, BTreeSet};

/// The type of no value, as a header names it.
const UNIT: &str = "()";

/// What all sources together declare, and where the result has it.
#[derive(Default)]
pub struct Names {
    /// The crates, with their paths in the result, such as `crate::proved::ent_alloc`.
    pub crates: BTreeMap<String, String>,
    /// Their items.
    pub items: BTreeSet<String>,
    /// What else a path may lead to: their variants, and what belongs to their types and traits.
    pub belonging: BTreeSet<String>,
    /// Their structs and enums, each with the files that declare one of this name.
    types: BTreeMap<String, BTreeSet<String>>,
    /// Their other names for types, which may be types of std, each with the word that the type
    /// begins with.
    aliases: BTreeMap<String, BTreeSet<String>>,
    /// Their traits.
    pub traits: BTreeSet<String>,
    /// Those of them that have ghost members only.
    pub(crate) ghost_traits: BTreeSet<String>,
    /// Their structs with a field that is a `PhantomData` of a ghost type, and the field.
    pub(crate) phantoms: BTreeSet<(String, String)>,
    /// The paths of those of them in which all is ghost.
    pub(crate) ghost_files: BTreeSet<String>,
    /// Their functions that take a `self`. For each name, whether all functions of that name only
    /// look at it.
    pub methods: BTreeMap<String, bool>,
    /// The ghost members that their traits declare.
    pub members: BTreeSet<String>,
    /// Their free functions, by file and name: whether those of that name have a condition.
    conditions: BTreeMap<(String, String), BTreeSet<bool>>,
    /// Their fields.
    pub(crate) fields: Fields,
    /// The types that they declare.
    pub(crate) values: Types,
    /// The names of std and of the kit that they may use.
    pub forms: Vec<&'static Forms>,
    /// For each trait, by its name and its crate, what it has.
    of_traits: BTreeMap<(String, String), BTreeSet<String>>,
    /// Their `impl` blocks.
    blocks: Vec<Block>,
}

/// An `impl` block.
struct Block {
    /// The type, with its file. If several may be meant, the block counts for each.
    of: (String, String),
    /// The trait, if it implements one.
    implemented: Option<String>,
    /// Whether the type has no parameters.
    is_plain: bool,
    /// The type's arguments that aren't parameters of the block: for each the sources' own type
    /// with which it begins.
    arguments: Vec<Option<String>>,
    /// What it has: how a function takes its `self`, if it does, and the error if the function may
    /// not be there.
    methods: BTreeMap<String, (Option<String>, Fault)>,
}

impl Block {
    /// Whether no type is one of both blocks, which are of no trait: an argument of the one is
    /// another type than that of the other.
    fn is_apart_from(&self, other: &Block) -> bool {
        let differ = |(one, other): (&Option<String>, &Option<String>)| {
            one.is_some() && other.is_some() && one != other
        };
        let mut both = self.arguments.iter().zip(&other.arguments);
        self.implemented.is_none() && other.implemented.is_none() && both.any(differ)
    }
}

impl Names {
    /// No crate yet, and the names that crates may use.
    pub fn new(forms: &[&'static Forms]) -> Self {
        Names {
            forms: forms.to_vec(),
            ..Names::default()
        }
    }

    /// Adds what a source declares. The crates must be known before.
    ///
    /// # Errors
    ///
    /// A name has another meaning for the eraser, or an `impl` is for a type that isn't the
    /// sources' own.
    pub fn add(&mut self, source: &Source<'_>) -> Result<(), Fault> {
        let mut members = BTreeSet::new();
        self.fields.add(source);
        self.values.add(source);
        for at in 0..source.len() {
            match source.at(at) {
                "trait" | "impl" if begins_item(source, at) => {
                    let own = members_of(source, at)?;
                    if source.at(at) == "trait" {
                        self.check_members(source, None, &own)?;
                        let names = own.iter().map(|at| source.at(at + 1).to_owned());
                        let key = (source.at(at + 1).to_owned(), krate(source).to_owned());
                        self.of_traits.entry(key).or_default().extend(names);
                    }
                    members.extend(own);
                }
                "enum" if source.is_word(at + 1) => self.add_variants(source, at)?,
                "use" if source.before(at) == "pub" => self.add_other_names(source, at)?,
                "ghost" if is_declared_member(source, at) => {
                    self.members.insert(source.at(at + 1).to_owned());
                }
                _ => {}
            }
            let is_named = forms::DECLARING.contains(&source.at(at))
                && source.is_word(at + 1)
                && source.at(at + 1) != "fn"
                && !["<", ",", "*"].contains(&source.before(at));
            if is_named {
                self.declare(source, at, members.contains(&at))?;
            }
            if is_named || source.at(at) == "impl" {
                self.check_parameters(source, at + 1 + usize::from(is_named))?;
            }
        }
        Ok(())
    }

    /// The parameters of an item, if angles begin here.
    fn check_parameters(&self, source: &Source<'_>, at: usize) -> Result<(), Fault> {
        if source.at(at) != "<" {
            return Ok(());
        }
        let declared = parameters_in(source, at, source.after_angles(at)?);
        match declared.iter().find(|at| self.is_taken(source.at(**at))) {
            Some(at) => Err(taken(source, *at)),
            None => Ok(()),
        }
    }

    /// Adds one declared name. A member of a trait or of an `impl` is found by its type alone.
    fn declare(&mut self, source: &Source<'_>, at: usize, is_member: bool) -> Result<(), Fault> {
        let (kind, name) = (source.at(at), source.at(at + 1));
        let is_taken = if is_member {
            let mut renamed = self.forms.iter().flat_map(|forms| forms.renamed);
            kind == "fn" && renamed.any(|it| it.from == name)
        } else {
            self.is_taken(name)
        };
        if is_taken {
            return Err(taken(source, at + 1));
        }
        if ["const", "static"].contains(&kind) && name.contains(char::is_lowercase) {
            let what = format!("a constant that looks like a variable: `{name}`");
            return Err(source.fault(at + 1, what));
        }
        match kind {
            "struct" | "enum" => {
                let renamed = forms::RENAMED_FUNCTIONS.iter().find(|it| it.of == name);
                if renamed.is_some_and(|it| it.krate != krate(source)) {
                    return Err(taken(source, at + 1));
                }
                let files = self.types.entry(name.to_owned()).or_default();
                files.insert(source.path.to_owned());
            }
            "trait" => {
                let is_ghost = ghost_types::is_ghost_trait(source, at);
                let is_new = self.traits.insert(name.to_owned());
                if !is_new && (is_ghost || self.ghost_traits.contains(name)) {
                    return Err(taken(source, at + 1));
                }
                if is_ghost {
                    self.ghost_traits.insert(name.to_owned());
                }
            }
            "type" if !is_member && source.at(at + 2) == "=" => {
                let of = self.aliases.entry(name.to_owned()).or_default();
                of.insert(source.at(at + 3).to_owned());
            }
            "type" if !is_member => {
                let of = self.aliases.entry(name.to_owned()).or_default();
                of.insert(String::new());
            }
            "fn" => {
                if !is_member {
                    let key = (source.path.to_owned(), name.to_owned());
                    let all = self.conditions.entry(key).or_default();
                    all.insert(has_condition(source, at));
                }
                if let Some(receiver) = receiver(source, at) {
                    // A slice's method takes a range without an end.
                    let end = source.find(at, source.len(), &["{", ";"]).unwrap_or(at);
                    let is_generic = (at..end).any(|at| source.at(at) == "impl");
                    if name == "get" && (is_generic || source.at(at + 2) == "<") {
                        return Err(taken(source, at + 1));
                    }
                    let looks = !receiver.contains(&"mut");
                    let only_look = self.methods.entry(name.to_owned()).or_insert(true);
                    *only_look &= looks && receiver.first() == Some(&"&");
                }
            }
            _ => {}
        }
        let known = if is_member {
            &mut self.belonging
        } else {
            &mut self.items
        };
        known.insert(name.to_owned());
        Ok(())
    }

    /// Adds the other names under which a source passes on items of another crate.
    fn add_other_names(&mut self, source: &Source<'_>, at: usize) -> Result<(), Fault> {
        let end = source.find(at, source.len(), &[";"]).unwrap_or(at);
        if !self.crates.contains_key(source.at(at + 1)) {
            return Ok(());
        }
        for at in at..end {
            if source.before(at) == "as" {
                if self.is_taken(source.at(at)) {
                    return Err(taken(source, at));
                }
                self.items.insert(source.at(at).to_owned());
            }
        }
        Ok(())
    }

    fn add_variants(&mut self, source: &Source<'_>, at: usize) -> Result<(), Fault> {
        let body = block(source, at)?;
        let end = source.partner(body);
        let mut at = body + 1;
        while at < end {
            while source.at(at) == "#" {
                at = source.partner(at + 1) + 1;
            }
            self.belonging.insert(source.at(at).to_owned());
            at = source.find(at, end, &[","]).unwrap_or(end) + 1;
        }
        Ok(())
    }

    /// Adds the `impl` blocks of a source, when all types and traits are known.
    ///
    /// # Errors
    ///
    /// One is for a type that isn't the sources' own, or of a trait that isn't known.
    pub fn add_blocks(&mut self, source: &Source<'_>) -> Result<(), Fault> {
        self.phantoms.extend(ghost_types::phantoms(source, self));
        if ghost_types::is_ghost(source, self) {
            self.ghost_files.insert(source.path.to_owned());
        }
        for at in 0..source.len() {
            if source.at(at) != "impl" || !begins_item(source, at) {
                continue;
            }
            let header = header(source, at)?;
            if header
                .implemented
                .is_some_and(|name| self.is_ghost_trait(name))
            {
                continue;
            }
            let is_own =
                self.types.contains_key(header.of) || forms::OPEN_TYPES.contains(&header.of);
            if !is_own || header.parameters.contains(header.of) {
                let what = format!(
                    "an impl for `{}`, which isn't a type of the sources",
                    header.of
                );
                return Err(source.fault(at, what));
            }
            if header.refers {
                // The look-up of a receiver would decide which of the two a call finds.
                return Err(source.fault(at, "an impl for a reference"));
            }
            let members = members_of(source, at)?;
            self.check_members(source, header.implemented, &members)?;
            let fault = |at| source.fault(at, "a method of this name is also found in another way");
            let written = members.into_iter().map(|at| {
                let receiver = receiver(source, at).map(|how| how.join(" "));
                (source.at(at + 1).to_owned(), (receiver, fault(at)))
            });
            let mut methods: BTreeMap<String, (Option<String>, Fault)> = written.collect();
            let of_trait = header.implemented.and_then(|name| {
                let krate = self.crate_of(source, name);
                self.of_traits.get(&(name.to_owned(), krate.to_owned()))
            });
            for name in of_trait.into_iter().flatten() {
                let unwritten = || (Some("as the trait says".to_owned()), fault(at));
                methods.entry(name.clone()).or_insert_with(unwritten);
            }
            let is_type =
                |name: &str| self.types.contains_key(name) && !header.parameters.contains(name);
            let arguments = header.arguments.iter();
            let arguments: Vec<_> = arguments
                .map(|name| is_type(name).then(|| (*name).to_owned()))
                .collect();
            let no_file = || BTreeSet::from([String::new()]);
            let files = self.types.get(header.of).cloned().unwrap_or_else(no_file);
            let is_here = files.contains(source.path);
            // A type of this crate hides those of the same name of the crates below.
            let of_crate = |file: &String| file.split('/').nth(1) == Some(krate(source));
            let is_of_crate = files.iter().any(of_crate);
            let meant = files
                .into_iter()
                .filter(|file| !is_here || file == source.path)
                .filter(|file| !is_of_crate || of_crate(file));
            self.blocks.extend(meant.map(|file| Block {
                of: (file, header.of.to_owned()),
                implemented: header.implemented.map(str::to_owned),
                is_plain: header.is_plain,
                arguments: arguments.clone(),
                methods: methods.clone(),
            }));
        }
        Ok(())
    }

    /// The crate from which the source has this name.
    fn crate_of<'a>(&self, source: &Source<'a>, name: &str) -> &'a str {
        let mut at = 0;
        while let Some(import) = source.find(at, source.len(), &["use"]) {
            let end = source.find(import, source.len(), &[";"]).unwrap_or(import);
            let is_other = self.crates.contains_key(source.at(import + 1));
            if is_other && (import..end).any(|at| source.at(at) == name) {
                return source.at(import + 1);
            }
            at = end + 1;
        }
        krate(source)
    }

    /// An `impl` of a trait of std must have no method with a default: it may be one that Rust
    /// calls and the kit doesn't.
    fn check_members(
        &self,
        source: &Source<'_>,
        implemented: Option<&str>,
        members: &[usize],
    ) -> Result<(), Fault> {
        let known = implemented.and_then(forms::kept_trait);
        for at in members {
            let name = source.at(at + 1);
            let is_unknown = known.is_some_and(|known| !known.members.contains(&name));
            let is_of_std = known.is_none() && forms::COMMON_METHODS.contains(&name);
            if receiver(source, *at).is_some() && is_of_std || is_unknown {
                let what = format!("a method of std: `{name}`");
                return Err(source.fault(at + 1, what));
            }
        }
        Ok(())
    }

    /// Checks that each method of a type is the only one of its name, so that the order of look-up
    /// doesn't matter. Methods of types that differ in an argument are those of several types.
    ///
    /// # Errors
    ///
    /// The first method that isn't: it is in two blocks, or a trait of std gives it to the type
    /// too.
    pub fn check(&self) -> Result<(), Fault> {
        self.fields.check()?;
        let mut found = BTreeMap::new();
        let iterators: BTreeSet<_> = self
            .blocks
            .iter()
            .filter(|block| block.implemented.as_deref() == Some("Iterator"))
            .map(|block| &block.of)
            .collect();
        for block in &self.blocks {
            let implemented = block.implemented.as_deref();
            let is_of_std = implemented.is_some_and(|name| forms::kept_trait(name).is_some());
            for (name, (receiver, fault)) in &block.methods {
                let before: &mut Vec<(&Block, _)> = found.entry((&block.of, name)).or_default();
                // If both take `self` in the same way, the type's own comes before that of a trait.
                let is_other = before.iter().any(|(earlier, how)| {
                    let other = earlier.implemented.as_deref();
                    let is_one_own = other.is_none() != implemented.is_none();
                    let is_same = other == implemented && other.is_some();
                    // No source calls it by a point.
                    let are_texts = forms::are_texts(other, implemented);
                    let is_own_first = is_one_own && block.is_plain && *how == receiver;
                    !(is_same || are_texts || is_own_first || earlier.is_apart_from(block))
                });
                before.push((block, receiver));
                let is_iterator = iterators.contains(&block.of) && !is_of_std;
                if is_other || is_iterator && receiver.is_some() && forms::is_of_std(name) {
                    let mut fault = fault.clone();
                    fault.what = format!("{}: `{name}`", fault.what);
                    return Err(fault);
                }
            }
        }
        Ok(())
    }

    /// Whether this crate declares a struct or an enum of this name.
    pub fn has_type(&self, krate: &str, name: &str) -> bool {
        let folder = format!("crates/{krate}/");
        let mut files = self.types.get(name).into_iter().flatten();
        files.any(|file| file.starts_with(&folder))
    }

    /// How many crates declare a struct or an enum of this name.
    pub(crate) fn declaring(&self, name: &str) -> usize {
        let files = self.types.get(name).into_iter().flatten();
        let crates: BTreeSet<_> = files.map(|file| file.split('/').nth(1)).collect();
        crates.len()
    }

    /// Whether each `impl` of the trait is ghost as a whole.
    pub(crate) fn is_ghost_trait(&self, name: &str) -> bool {
        forms::GHOST_TRAITS.contains(&name) || self.ghost_traits.contains(name)
    }

    /// Whether this is another name for a type, which may be a type of std.
    pub fn is_alias(&self, name: &str) -> bool {
        self.aliases.contains_key(name) && !self.types.contains_key(name)
    }

    /// The word that the type begins with that this other name stands for, if it stands for no
    /// other.
    pub fn aliased(&self, name: &str) -> Option<&str> {
        let of = self.aliases.get(name).filter(|of| of.len() == 1)?;
        let is_own = self.types.contains_key(name);
        of.first().filter(|_| !is_own).map(String::as_str)
    }

    /// Whether the free functions of this name have a condition, those of this file, or of all
    /// files of this folder. There is no answer if some have one and others don't.
    pub(crate) fn has_condition(&self, place: &str, name: &str) -> Option<bool> {
        let is_there = |path: &str| path == place || path.starts_with(&format!("{place}/"));
        let all = self.conditions.iter();
        let all = all.filter(|((path, own), _)| own == name && is_there(path));
        let all: BTreeSet<bool> = all.flat_map(|(_, all)| all).copied().collect();
        (all.len() < 2).then(|| all.contains(&true))
    }

    /// Whether a file of the sources has a free function of this name.
    pub(crate) fn has_function(&self, path: &str, name: &str) -> bool {
        let key = (path.to_owned(), name.to_owned());
        self.conditions.contains_key(&key)
    }

    /// Whether the sources declare a type of this name.
    pub fn is_type(&self, name: &str) -> bool {
        self.types.contains_key(name)
    }

    /// Whether a path may lead to the name.
    pub fn has(&self, name: &str) -> bool {
        self.items.contains(name) || self.belonging.contains(name)
    }

    /// Whether the eraser or Rust's prelude gives the name a meaning.
    pub fn is_taken(&self, name: &str) -> bool {
        let is_of = |forms: &&Forms| {
            let heads = forms
                .modules
                .iter()
                .filter_map(|module| module.path.split("::").next());
            let imports = forms.prelude.iter().map(|import| import.name);
            let types = forms.associated.iter().map(|it| it.0);
            heads.chain(imports).chain(types).any(|it| it == name)
        };
        forms::PRELUDE.contains(&name)
            || forms::PRIMITIVES.contains(&name)
            || forms::CRATES.contains(&name)
            || forms::GHOST_TRAITS.contains(&name)
            || name == forms::RIGHT
            || forms::kept_trait(name).is_some()
            || self.crates.contains_key(name)
            || self.forms.iter().any(is_of)
    }
}

/// The crate of a source, by its path.
fn krate<'a>(source: &Source<'a>) -> &'a str {
    source.path.split('/').nth(1).unwrap_or_default()
}

/// The error for a name to which the eraser gives a meaning.
pub(crate) fn taken(source: &Source<'_>, at: usize) -> Fault {
    let what = format!("a name that has another meaning: `{}`", source.at(at));
    source.fault(at, what)
}

/// Whether an `impl` or a `trait` here is an item, and not a type.
pub(crate) fn begins_item(source: &Source<'_>, at: usize) -> bool {
    ["", "}", "{", ";", "]", "pub", ")"].contains(&source.before(at))
}

/// The place of the `{` that begins the block of the item here.
pub(crate) fn block(source: &Source<'_>, at: usize) -> Result<usize, Fault> {
    let body = source.find(at, source.len(), &["{", ";"]);
    body.filter(|body| source.at(*body) == "{")
        .ok_or_else(|| source.fault(at, "a block is missing"))
}

/// The first line of an `impl` block.
pub(crate) struct Header<'a> {
    /// The last name of the trait that it implements, if it implements one.
    pub(crate) implemented: Option<&'a str>,
    /// The last name of its type, without `&`.
    pub(crate) of: &'a str,
    /// Whether the type has no parameters.
    is_plain: bool,
    /// Whether it is for a reference to the type.
    refers: bool,
    /// Its parameters.
    parameters: BTreeSet<&'a str>,
    /// The first word of each argument of its type.
    arguments: Vec<&'a str>,
}

/// The header of the `impl` at this place.
pub(crate) fn header<'a>(source: &Source<'a>, at: usize) -> Result<Header<'a>, Fault> {
    let body = block(source, at)?;
    let (mut next, mut last, mut implemented) = (at + 1, "", None);
    let mut refers = false;
    let (mut parameters, mut arguments) = (BTreeSet::new(), Vec::new());
    if source.at(next) == "<" {
        let end = source.after_angles(next)?;
        let declared = parameters_in(source, next, end);
        parameters.extend(declared.into_iter().map(|at| source.at(at)));
        next = end;
    }
    while next < body && source.at(next) != "where" {
        match source.at(next) {
            "<" => {
                let end = source.after_angles(next)?;
                let given = parameters_in(source, next, end);
                arguments = given.into_iter().map(|at| source.at(at)).collect();
                next = end;
                continue;
            }
            "for" => {
                (implemented, last) = (Some(last), "");
                arguments.clear();
            }
            _ if source.is_word(next) => last = source.at(next),
            "&" => refers = true,
            "::" => {}
            "(" if source.at(next + 1) == ")" => (last, next) = (UNIT, next + 1),
            // No type of the sources begins like this.
            _ if source.token(next).kind == crate::lex::Kind::Lifetime => {}
            other => last = other,
        }
        next += 1;
    }
    Ok(Header {
        implemented,
        of: last,
        is_plain: source.is_word(next - 1),
        refers,
        parameters,
        arguments,
    })
}

/// The places of the parameters that the angles from `at` to `end` declare.
pub(crate) fn parameters_in(source: &Source<'_>, at: usize, end: usize) -> Vec<usize> {
    let mut depth = 0;
    let is_declared = |at: &usize| {
        depth += match source.at(*at) {
            "<" => 1,
            ">" => -1,
            _ => 0,
        };
        let begins = ["<", ",", "const"].contains(&source.before(*at));
        depth == 1 && begins && source.is_word(*at) && source.at(*at) != "const"
    };
    (at..end).filter(is_declared).collect()
}

/// The places of each `fn`, `type` and `const` that is a member of a trait or an `impl`.
fn members_of(source: &Source<'_>, at: usize) -> Result<Vec<usize>, Fault> {
    let body = block(source, at)?;
    let end = source.partner(body);
    let mut members = Vec::new();
    let mut at = body + 1;
    while let Some(found) = source.find(at, end, &["fn", "type", "const"]) {
        // Not the `fn` of a function's type, nor the `const` of `const fn`.
        if source.is_word(found + 1) && source.at(found + 1) != "fn" {
            members.push(found);
        }
        at = found + 1;
    }
    Ok(members)
}

/// How the function here takes its `self`, if it does: the tokens before the word.
fn receiver<'a>(source: &'a Source<'_>, at: usize) -> Option<Vec<&'a str>> {
    let mut open = at + 2;
    if source.at(at) != "fn" {
        return None;
    }
    if source.at(open) == "<" {
        open = source.after_angles(open).ok()?;
    }
    let end = source.find(open + 1, source.len(), &[",", ":", ")"])?;
    (source.before(end) == "self").then(|| (open + 1..end - 1).map(|at| source.at(at)).collect())
}

/// Whether the `ghost` here begins `ghost NAME: { .. };`, or the same with a default, as in a
/// trait.
fn is_declared_member(source: &Source<'_>, at: usize) -> bool {
    source.has(at + 2, &[":", "{"]) && [";", "="].contains(&source.at(source.partner(at + 3) + 1))
}
