//! Tests of a result that it is the source less what is ghost.
//!
//! It knows nothing of how the result was written. It goes through the tokens of both texts side by
//! side. Where they differ, the source's have to be ghost, or one of the two has to be in the short
//! list of what is put in place of what. So nothing can be lost, as code that went into a comment,
//! nor be added. Then it does the same with the comments: those of the result are those of the
//! source, but for what stood at ghost items, and the clauses. A clause in docs is one of the next
//! function. And no more than the package itself may call a function with a condition.

mod changes;
mod comments;
mod docs;
mod ghost_types;
mod messages;
mod rights;
mod visible;

use crate::forms;
use crate::lex::Kind;
use crate::names::Names;
use crate::source::{Fault, Source};
use changes::{changes, Change};

/// Tests a result.
///
/// # Errors
///
/// The first place of the source at which the result is another one.
pub fn audit(
    source: &Source<'_>,
    result: &Source<'_>,
    krate: &str,
    names: &Names,
) -> Result<(), Fault> {
    let mut audit = Audit {
        source,
        result,
        krate,
        names,
        changes: changes(krate, source.path, names),
        at: 0,
        out: 0,
        is_ghost: vec![false; source.len()],
        is_clause: vec![false; source.len()],
        contracts: Vec::new(),
    };
    while audit.at < source.len() || audit.out < result.len() {
        audit.step()?;
    }
    audit.comments()
}

struct Audit<'a> {
    source: &'a Source<'a>,
    result: &'a Source<'a>,
    krate: &'a str,
    names: &'a Names,
    /// All that may stand in the result in place of what.
    changes: Vec<Change>,
    /// The next token of the source.
    at: usize,
    /// The next token of the result.
    out: usize,
    /// The tokens of the source before which a comment is ghost too.
    is_ghost: Vec<bool>,
    /// Those of them that are clauses.
    is_clause: Vec<bool>,
    /// For each clause its first token, and the token of the result that comes after it.
    contracts: Vec<(usize, usize)>,
}

impl Audit<'_> {
    /// Goes on in one of the texts or in both.
    fn step(&mut self) -> Result<(), Fault> {
        if let Some(end) = self.ghost_end() {
            // Comments above an attribute or a clause stay.
            let stay = self.source.at(self.at) == "#" || self.is_clause[self.at];
            self.is_ghost[self.at..end].fill(true);
            self.is_ghost[self.at] = !stay;
            self.at = end;
            return Ok(());
        }
        if let Some(end) = self.added_end()? {
            self.out = end;
            return Ok(());
        }
        if self.has_to_be_narrow() {
            return self.narrowed();
        }
        if let Some(len) = self.renamed(self.out) {
            self.at += len;
            self.out += len;
            return Ok(());
        }
        if let Some((from, to)) = self.changed() {
            self.at += from;
            self.out += to;
            return Ok(());
        }
        let (from, to) = (self.source.at(self.at), self.result.at(self.out));
        if from == to && self.keeps_call_of_list() {
            let what = format!(
                "a call of a list that stays: `{}`",
                self.source.at(self.at + 1)
            );
            return Err(self.source.fault(self.at, what));
        }
        if from == to {
            self.at += 1;
            self.out += 1;
            return Ok(());
        }
        let what = format!("the result has `{to}` where the source has `{from}`");
        Err(self.source.fault(self.at, what))
    }

    /// The end of what is ghost in the source here, if something is.
    fn ghost_end(&mut self) -> Option<usize> {
        let (source, at) = (self.source, self.at);
        let starts = |tokens: &[&str]| source.has(at, tokens);
        if let Some(end) = self.ghost_type_end() {
            return Some(end);
        }
        match source.at(at) {
            "pub" if starts(&["pub", "ghost"]) => self.ghost_item_end(),
            "ghost" => self.ghost_item_end(),
            word if forms::CLAUSES.contains(&word) => {
                let open = source.find(at, source.len(), &["{"])?;
                let end = source.partner(open) + 1;
                self.is_clause[at..end].fill(true);
                self.contracts.push((at, self.out));
                Some(end)
            }
            "impl" => self.ghost_impl_end(),
            "#" => self.ghost_attribute_end(),
            "use" => self.ghost_import_end(),
            "where" if source.has(at + 2, &[":", "Drop", ","]) => {
                let next = source.at(at + 5);
                let is_only = next == "{" || forms::CLAUSES.contains(&next);
                is_only.then_some(at + 5)
            }
            ":" if starts(&[":", "Drop", "+"]) => None,
            ":" if starts(&[":", "Drop", "{"]) && source.before(at - 1) != "trait" => None,
            ":" | "+" if starts(&[":", "Drop"]) || starts(&["+", "Drop"]) => Some(at + 2),
            "Drop" if starts(&["Drop", "+"]) => Some(at + 2),
            _ => self.right_end(),
        }
    }

    /// The end of an import, a member or a field.
    fn ghost_item_end(&self) -> Option<usize> {
        let end = self.source.find(self.at, self.source.len(), &[";", ","])?;
        Some(end + 1)
    }

    /// The end of an import of one ghost name.
    fn ghost_import_end(&self) -> Option<usize> {
        let modules = self.names.forms.iter().flat_map(|forms| forms.modules);
        let names = modules.flat_map(|module| module.ghost.iter().map(|name| (module.path, name)));
        names
            .map(|(path, name)| pieces(&format!("use {path}::{name};")))
            .find(|import| has(self.source, self.at, import))
            .map(|import| self.at + import.len())
    }

    /// The end of an `impl` of a ghost trait, or of one that is derived in the result.
    fn ghost_impl_end(&self) -> Option<usize> {
        if let Some(end) = self.equality_end() {
            return Some(end);
        }
        let open = self.source.find(self.at, self.source.len(), &["{"])?;
        let header = self.at..open;
        let is_of = |at: usize| {
            forms::GHOST_TRAITS.contains(&self.source.at(at)) && self.source.at(at + 1) == "for"
        };
        header
            .into_iter()
            .any(is_of)
            .then(|| self.source.partner(open) + 1)
    }

    /// The end of an `impl` of the equality of a struct in whose place the result has a derive.
    /// Beside ghost members it has nothing, or the comparison of the field.
    fn equality_end(&self) -> Option<usize> {
        let own = forms::COMPARED.iter().filter(|it| it.krate == self.krate);
        let mut ends = own.filter_map(|it| {
            let trait_at = forms::EQUALITY.iter().position(|name| {
                let header = pieces(&format!("impl {name} for {} {{", it.name));
                has(self.source, self.at, &header)
            });
            let close = self.source.partner(self.at + 4);
            let mut next = self.at + 5;
            while trait_at.is_some() && self.source.at(next) == "ghost" {
                next = self.source.find(next, close, &[";"])? + 1;
            }
            let body = pieces(&it.body());
            let is_same = match forms::EQUALITY[trait_at?] {
                "PartialEq" => has(self.source, next, &body) && next + body.len() == close,
                _ => next == close,
            };
            is_same.then_some(close + 1)
        });
        ends.next()
    }

    /// The end of an attribute for the prover, of a message, or of a derive of which nothing stays.
    fn ghost_attribute_end(&self) -> Option<usize> {
        let open = self.at + 1 + usize::from(self.source.at(self.at + 1) == "!");
        let word = self.source.at(open + 1);
        let is_ghost = match word {
            "derive" => self.kept_derives(open).is_empty(),
            "error" => true,
            _ => forms::GHOST_ATTRIBUTES.contains(&word),
        };
        is_ghost.then(|| self.source.partner(open) + 1)
    }

    /// What stays of the derive whose `[` stands here in the source, and what comes to it.
    fn kept_derives(&self, open: usize) -> Vec<&str> {
        let names = (open + 3..self.source.partner(open)).map(|at| self.source.at(at));
        let mut end = self.source.partner(open) + 1;
        while self.source.at(end) == "#" {
            end = self.source.partner(end + 1) + 1;
        }
        let name = end + 1 + usize::from(self.source.at(end) == "pub");
        let (word, name) = (self.source.at(name - 1), self.source.at(name));
        let is_compared = word == "struct" && forms::compared(self.krate, name).is_some();
        let kept = names.filter(|it| forms::KEPT_DERIVES.contains(it));
        let added = match word {
            _ if is_compared => forms::EQUALITY,
            "struct" | "enum" => forms::derived_more(self.krate, name),
            _ => &[],
        };
        kept.chain(added.iter().copied()).collect()
    }

    /// The end of what was added to the result here, if something was.
    fn added_end(&self) -> Result<Option<usize>, Fault> {
        let (result, out) = (self.result, self.out);
        let inline = ["#", "[", "inline", "]"];
        if result.has(out, &inline) && !self.source.has(self.at, &inline) {
            let heads = ["pub", "(", "super", "crate", ")", "const"];
            let next = (out + 4..result.len()).find(|at| !heads.contains(&result.at(*at)));
            let is_function = next.is_some_and(|at| result.at(at) == "fn");
            return Ok(is_function.then_some(out + 4));
        }
        if self.is_added_const() {
            return Ok(Some(out + 1));
        }
        if let Some(len) = self.added_layout() {
            return Ok(Some(out + len));
        }
        if let Some(len) = self.added_default() {
            return Ok(Some(out + len));
        }
        if let Some(len) = self.added_import() {
            return Ok(Some(out + len));
        }
        let is_program = result.has(out, &["pub", "fn", "main"]) && self.source.at(self.at) == "fn";
        if is_program && self.names.forms.iter().any(|forms| forms.runtime.is_some()) {
            return Ok(Some(out + 1));
        }
        let runtimes = self.names.forms.iter().filter_map(|forms| forms.runtime);
        let mut made = runtimes.map(|runtime| pieces(&format!("let rt = {runtime};")));
        if let Some(made) = made.find(|made| has(result, out, made)) {
            return Ok((result.before(out) == "{").then_some(out + made.len()));
        }
        if result.has(out, &["impl", "core", "::", "fmt", "::", "Display", "for"]) {
            return self.added_messages().map(Some);
        }
        Ok(None)
    }

    /// How many tokens a function's name takes with the `fn` or the type before it, if the result
    /// has the package's name of it at this place.
    fn renamed(&self, out: usize) -> Option<usize> {
        let (source, at) = (self.source, self.at);
        let mut all = forms::RENAMED_FUNCTIONS.iter();
        let is_renamed = |it: &&forms::RenamedFunction| {
            if ![source.at(at + 1), source.at(at + 2)].contains(&it.from) {
                return false;
            }
            let of = (0..at).rev().find(|at| source.at(*at) == "impl");
            let is_own = it.krate == self.krate && of.is_some_and(|of| source.at(of + 1) == it.of);
            let owner = source.at(at);
            is_own && source.has(at, &["fn", it.from]) && self.result.has(out, &["fn", it.to])
                || (owner == it.of || is_own && owner == "Self")
                    && source.has(at + 1, &["::", it.from])
                    && self.result.has(out, &[owner, "::", it.to])
        };
        let renamed = all.find(is_renamed);
        renamed.map(|_| if source.at(at) == "fn" { 2 } else { 3 })
    }

    /// Whether the result has a `const` here, before a function that is `const` in the package
    /// alone.
    fn is_added_const(&self) -> bool {
        let (name, path) = (self.source.at(self.at + 1), self.source.path);
        self.source.at(self.at) == "fn"
            && (self.result.has(self.out, &["const", "fn", name])
                || self.result.at(self.out) == "const" && self.renamed(self.out + 1).is_some())
            && forms::is_constant(self.krate, path, name)
    }

    /// The length of the attribute that the result has here, right above a type whose layout the
    /// package chooses.
    fn added_layout(&self) -> Option<usize> {
        let (result, out) = (self.result, self.out);
        let own = forms::LAYOUTS.iter().filter(|it| it.krate == self.krate);
        let mut lengths = own.filter_map(|layout| {
            let attribute = pieces(layout.attribute);
            let next = out + attribute.len();
            let at = next + usize::from(result.at(next) == "pub");
            let is_above = has(result, out, &attribute) && result.has(at, &["struct", layout.name]);
            is_above.then_some(attribute.len())
        });
        lengths.next()
    }

    /// The length of the default that the result has here, of one of a trait's last two parameters.
    fn added_default(&self) -> Option<usize> {
        let source = self.source;
        let is_last = |words: &usize| {
            let is_once = self.result.before(self.out) == forms::LAST_TWO[words - 1];
            is_once && self.at >= *words && source.has(self.at - words, forms::LAST_TWO)
        };
        let (_, default) = forms::DEFAULTS.iter().find(|(words, _)| is_last(words))?;
        let default = pieces(default);
        if !has(self.result, self.out, &default) {
            return None;
        }
        let of = (0..self.at).rev().find(|at| source.at(*at) == "trait")?;
        let is_of = source.find(of, self.at, &["{", "}", ";"]).is_none();
        let is_known = forms::is_defaulted(self.krate, source.at(of + 1));
        (is_of && is_known).then_some(default.len())
    }

    /// The length of an import from the kit that the result has here.
    fn added_import(&self) -> Option<usize> {
        let imports = self.names.forms.iter().flat_map(|forms| {
            let named = forms
                .prelude
                .iter()
                .chain(forms.macros)
                .map(|import| import.path);
            named.chain(forms.renamed.iter().map(|renamed| renamed.import))
        });
        let padding = forms::is_padded(self.krate, self.source.path).then_some(forms::PADDING);
        imports
            .chain(padding)
            .chain([forms::LIST_TRAIT])
            .map(|path| pieces(&format!("use {path};")))
            .find(|line| has(self.result, self.out, line))
            .map(|line| line.len())
    }
}

/// The tokens of a text without blanks and comments.
fn pieces(text: &str) -> Vec<String> {
    let tokens = crate::lex::tokens(text).unwrap_or_default();
    let code = tokens
        .iter()
        .filter(|it| !matches!(it.kind, Kind::Blank | Kind::Comment));
    code.map(|it| text[it.from..it.to].to_owned()).collect()
}

/// Whether the code goes on with these tokens.
fn has(source: &Source<'_>, at: usize, tokens: &[String]) -> bool {
    (at..).zip(tokens).all(|(at, token)| source.at(at) == token)
}
