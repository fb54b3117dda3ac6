//! A walk through the code of one source, which collects what has to change.

use crate::contracts::Words;
use crate::edit::{Change, Edit};
use crate::forms;
use crate::ghost_types::GhostTypes;
use crate::lex::Kind;
use crate::memory::Rights;
use crate::names::Names;
use crate::scope::bound;
use crate::source::{Fault, Source};
use std::collections::{BTreeMap, BTreeSet};

/// What `pub(crate)` becomes in a file of a crate that is a module: the crate's module sees it, and
/// nothing else does.
pub const OWN_ONLY: &str = "pub(super)";

/// The changes of one source so far.
pub struct Walk<'a> {
    pub(crate) source: &'a Source<'a>,
    /// The crate that the source is of.
    pub(crate) krate: &'a str,
    pub(crate) names: &'a Names,
    pub(crate) edits: Vec<Edit>,
    /// The paths that have to be imported.
    pub(crate) imports: BTreeSet<&'static str>,
    /// Modules of std that are imported, by the names that they have here, with the names in them
    /// that are known.
    pub(crate) modules: BTreeMap<&'a str, &'static [&'static str]>,
    /// The modules, types and traits that the source declares.
    pub(crate) declared: BTreeSet<&'a str>,
    /// The names that it imports from std and from the kit.
    pub(crate) of_std: BTreeSet<&'a str>,
    /// The ghost names that it imports from the kit.
    pub(crate) ghosts: BTreeSet<&'a str>,
    /// The ghost types.
    pub(crate) types: GhostTypes<'a>,
    /// Where the right to allocate goes.
    pub(crate) rights: Rights<'a>,
    /// The names that it binds or imports.
    pub(crate) bound: BTreeSet<&'a str>,
    /// What the names of its contracts lead to.
    pub(crate) words: Words<'a>,
    /// Whether the place is in a signature or a header, where `Drop` is a bound.
    pub(crate) is_signature: bool,
    /// Whether the place is in a module within the file.
    pub(crate) is_module: bool,
    /// Whether the place is in a trait that the package may show.
    pub(crate) is_public_trait: bool,
    /// Where imports may go: the first byte of the first `use` that stays.
    pub(crate) first_use: Option<usize>,
    /// The first byte of the first item that stays.
    pub(crate) first_item: Option<usize>,
}

/// What a step of the walk gives: the place in the code after what was read.
pub(crate) type Next = Result<usize, Fault>;

impl<'a> Walk<'a> {
    /// Begins a walk.
    pub fn new(source: &'a Source<'a>, krate: &'a str, names: &'a Names) -> Self {
        let is_declaration = |at: &usize| {
            ["mod", "struct", "enum", "trait", "type"].contains(&source.at(*at))
                && source.is_word(at + 1)
        };
        let declarations = (0..source.len()).filter(is_declaration);
        let mut walk = Walk {
            source,
            krate,
            names,
            edits: Vec::new(),
            imports: BTreeSet::new(),
            modules: BTreeMap::new(),
            declared: declarations.map(|at| source.at(at + 1)).collect(),
            of_std: BTreeSet::new(),
            ghosts: BTreeSet::new(),
            types: GhostTypes::of(source, names),
            rights: Rights::default(),
            bound: bound(source),
            words: Words::of(source, krate),
            is_signature: false,
            is_module: false,
            is_public_trait: false,
            first_use: None,
            first_item: None,
        };
        // An import may come after its uses. A fault in it is found later, at its place.
        for at in (0..source.len()).filter(|at| source.at(*at) == "use") {
            if let Ok(Some(module)) = walk.module_at(at + 1) {
                let _ = walk.taken(at + 1, module);
            }
        }
        walk.rights = Rights::of(source, names, walk.ghosts.contains(forms::RIGHT));
        walk
    }

    /// The code's token at this place has to be this one.
    pub(crate) fn expect(&self, at: usize, token: &str) -> Next {
        if self.source.at(at) == token {
            return Ok(at + 1);
        }
        Err(self.source.fault(at, format!("`{token}` is missing")))
    }

    /// Puts a text in place of these tokens of the code.
    pub(crate) fn replace(&mut self, from: usize, end: usize, text: impl Into<String>) {
        self.edits.push(Edit {
            from: self.source.token(from).from,
            to: self.source.token(end - 1).to,
            change: Change::Text(text.into()),
        });
    }

    /// Takes out these tokens of the code with the blanks up to the next one.
    pub(crate) fn take_out(&mut self, from: usize, end: usize) {
        self.edits.push(Edit {
            from: self.source.token(from).from,
            to: self.source.token(end).from,
            change: Change::Text(String::new()),
        });
    }

    /// Takes out these tokens of the code with the blanks after the token before them.
    pub(crate) fn take_out_after(&mut self, from: usize, end: usize) {
        self.edits.push(Edit {
            from: self.source.token(from - 1).to,
            to: self.source.token(end - 1).to,
            change: Change::Text(String::new()),
        });
    }

    /// The place after what goes here with the right to allocate or with a ghost type, if something
    /// does.
    pub(crate) fn gone_end(&self, at: usize) -> Option<usize> {
        let (rights, types) = (&self.rights.gone, &self.types.gone);
        rights.get(&at).or_else(|| types.get(&at)).copied()
    }

    /// Takes out a part of a list with its comma. No blanks stay where it was the last one.
    pub(crate) fn take_out_part(&mut self, from: usize, end: usize) {
        let closes = [")", "}", ">", "|"].contains(&self.source.at(end));
        let opens = ["(", "{", "<", "|"].contains(&self.source.before(from));
        match (opens, closes) {
            _ if ["<", "::"].contains(&self.source.at(from)) => self.take_out_after(from, end),
            (true, true) => self.edits.push(Edit {
                from: self.source.token(from - 1).to,
                to: self.source.token(end).from,
                change: Change::Text(String::new()),
            }),
            (false, true) => self.take_out_after(from, end),
            _ => self.take_out(from, end),
        }
    }

    /// Puts a text before the code's token at this place.
    pub(crate) fn insert(&mut self, at: usize, text: String) {
        let from = self.source.token(at).from;
        self.insert_at(from, text);
    }

    /// Puts a text after the code's token at this place.
    pub(crate) fn insert_after(&mut self, at: usize, text: String) {
        let to = self.source.token(at).to;
        self.insert_at(to, text);
    }

    fn insert_at(&mut self, at: usize, text: String) {
        self.edits.push(Edit {
            from: at,
            to: at,
            change: Change::Text(text),
        });
    }

    /// Takes out the lines of these tokens of the code, with the comments above that belong to
    /// them. The lines have no other code.
    pub(crate) fn cut_item(&mut self, from: usize, end: usize) -> Result<(), Fault> {
        let from_byte = self.begin_of_item(from)?;
        self.cut(from, from_byte, end)
    }

    /// Takes out the lines of these tokens of the code.
    pub(crate) fn cut_lines(&mut self, from: usize, end: usize) -> Result<(), Fault> {
        let from_byte = self.begin_of_line(from)?;
        self.cut(from, from_byte, end)
    }

    fn cut(&mut self, first: usize, from: usize, end: usize) -> Result<(), Fault> {
        let last = self.source.token(end - 1).to;
        let rest = self.source.text[last..].split('\n').next().unwrap_or("");
        let rest_is_code = !rest.trim().is_empty() && !rest.trim_start().starts_with("//");
        if rest_is_code {
            return Err(self
                .source
                .fault(first, "what is ghost shares its last line with code"));
        }
        self.edits.push(Edit {
            from,
            to: (last + rest.len() + 1).min(self.source.text.len()),
            change: Change::Lines,
        });
        Ok(())
    }

    /// The byte at which the line of this token of the code begins, of which it has to be the
    /// first.
    pub(crate) fn begin_of_line(&self, at: usize) -> Result<usize, Fault> {
        let from = self.source.token(at).from;
        let line = self.source.text[..from].rfind('\n').map_or(0, |at| at + 1);
        if self.source.text[line..from].trim().is_empty() {
            return Ok(line);
        }
        Err(self.source.fault(at, "this has to begin its line"))
    }

    /// The byte at which the first line of the item begins whose first token stands at this place.
    /// The comments above belong to it, up to a blank line.
    pub(crate) fn begin_of_item(&self, at: usize) -> Result<usize, Fault> {
        let mut begin = self.begin_of_line(at)?;
        let mut token = self.source.code[at];
        while token >= 2 {
            let (comment, blank) = (self.source.tokens[token - 2], self.source.tokens[token - 1]);
            let text = &self.source.text[comment.from..comment.to];
            let gap = &self.source.text[blank.from..blank.to];
            let belongs = comment.kind == Kind::Comment
                && blank.kind == Kind::Blank
                && gap.matches('\n').count() == 1
                && !text.starts_with("//!");
            let line = self.source.text[..comment.from]
                .rfind('\n')
                .map_or(0, |at| at + 1);
            if !belongs || !self.source.text[line..comment.from].trim().is_empty() {
                break;
            }
            begin = line;
            token -= 2;
        }
        Ok(begin)
    }

    /// The blanks before this token of the code, which begins its line.
    pub(crate) fn indent(&self, at: usize) -> Result<&'a str, Fault> {
        let line = self.begin_of_line(at)?;
        Ok(&self.source.text[line..self.source.token(at).from])
    }
}
