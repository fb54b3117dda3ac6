//! Contracts in docs: those of the functions that the package shows.
//!
//! A contract is folded, below the prose. It is a paragraph of Markdown, in which each name of a
//! definition is a link to the page that has it. The pages are those of `forgeni::contracts`, which
//! `.ci/contracts.py` makes. As a block of code it would have no links, and in HTML they would
//! depend on the page that shows them.

use crate::edit::{Change, Edit};
use crate::lex::{is_word, Kind};
use crate::plan::PROGRAM_CRATES;
use crate::source::{Fault, Source};
use crate::walk::{Next, Walk};
use std::collections::{BTreeMap, BTreeSet};

/// The lines of docs before the clauses of a function.
pub const BEGIN: [&str; 4] = [
    "",
    "<details><summary>Contract</summary>",
    "",
    "<code style=\"display: block; tab-size: 4; white-space: pre-wrap\">// In the words of [contracts](forgeni::contracts):",
];

/// The lines of docs after the clauses.
pub const END: [&str; 3] = ["</code>", "", "</details>"];

/// Four blanks at the beginning of a line, and one. Markdown drops those that are only blanks.
const BLANKS: [(&str, &str); 2] = [("    ", "&#9;"), (" ", "&#32;")];

/// What has a meaning in Markdown, and none after a backslash.
const SIGNS: &str = "\\`*_[]<>&~'\"|";

/// What the names of a source's contracts lead to.
#[derive(Clone, Default)]
pub(crate) struct Words<'a> {
    /// Whether the package shows the crate.
    is_shown: bool,
    /// For each name its page, and its name there.
    names: BTreeMap<&'a str, (String, String)>,
    /// For each name of a module the page, and what names on it begin with.
    modules: BTreeMap<&'a str, (String, String)>,
}

impl<'a> Words<'a> {
    /// Those that a source of this crate imports. The package doesn't show the crates of the
    /// programs.
    pub(crate) fn of(source: &Source<'a>, krate: &str) -> Self {
        let mut words = Words {
            is_shown: !PROGRAM_CRATES.contains(&krate),
            ..Words::default()
        };
        words.import(source.text, "");
        words
    }

    /// These, and those that the block imports in which the source ends here.
    fn within(&self, source: &'a str) -> Self {
        let mut words = self.clone();
        let heads = ["\nimpl", "\ntrait", "\npub trait"];
        let block = heads.iter().filter_map(|head| source.rfind(head)).max();
        if let Some(block) = block {
            words.import(&source[block..], "    ");
        }
        words
    }

    /// Adds what the lines of a text import that have this margin.
    fn import(&mut self, text: &'a str, margin: &str) {
        let lines = text.lines().filter(|_| self.is_shown);
        let imports = lines.filter_map(|line| line.strip_prefix(margin));
        for import in imports.filter_map(|line| line.strip_prefix("ghost use Rattle.")) {
            if let Some((path, names)) = import.split_once(".{") {
                let Some((page, begin)) = page(path) else {
                    continue;
                };
                for name in names.trim_end_matches("};").split(", ") {
                    let (there, here) = name.split_once(" as ").unwrap_or((name, name));
                    let there = format!("{begin}{there}");
                    self.names.insert(here, (page.clone(), there));
                }
            } else if let Some((path, here)) = import.trim_end_matches(';').split_once(" as ") {
                self.modules.extend(page(path).map(|page| (here, page)));
            }
        }
    }

    /// The page of a word, and its name there, if it is a definition's. Of `map.empty` it is one
    /// word.
    fn target(&self, word: &str) -> Option<(&str, String)> {
        if let Some((page, name)) = self.names.get(word) {
            return Some((page, name.clone()));
        }
        let (module, name) = word.split_once('.')?;
        let (page, begin) = self.modules.get(module)?;
        Some((page, format!("{begin}{name}")))
    }

    /// A line of a contract as Markdown. These names are bound in it.
    fn shown(&self, line: &str, bound: &BTreeSet<&str>) -> String {
        let text = line.trim_start_matches(' ');
        let mut out = line[..line.len() - text.len()].to_owned();
        for (blanks, entity) in BLANKS {
            out = out.replace(blanks, entity);
        }
        if text.is_empty() {
            out.push_str(BLANKS[1].1);
        }
        let (mut rest, is_comment) = (text, text.starts_with("//"));
        while let Some(sign) = rest.chars().next() {
            let len = rest.find(|c| !is_word(c) && c != '.' && c != '\'');
            let word = &rest[..len.unwrap_or(rest.len())];
            let word = word.trim_end_matches('.');
            if word.is_empty() {
                if SIGNS.contains(sign) {
                    out.push('\\');
                }
                out.push(sign);
                rest = &rest[sign.len_utf8()..];
                continue;
            }
            rest = &rest[word.len()..];
            // The name of a clause is its own.
            let is_name = ["ensures ", "requires "].contains(&out.as_str());
            out.push_str(&self.word(word, is_comment || is_name, bound));
        }
        out
    }

    /// A word of a contract as Markdown: a link if it is a definition's, or if its first part is.
    fn word(&self, word: &str, is_comment: bool, bound: &BTreeSet<&str>) -> String {
        let head = word.split('.').next().unwrap_or("");
        if !is_comment && !bound.contains(head) {
            for text in [word, head] {
                if let Some((page, name)) = self.target(text) {
                    let rest = escaped(&word[text.len()..]);
                    return format!(
                        "[{}](forgeni::contracts::{page}#{name}){rest}",
                        escaped(text)
                    );
                }
            }
        }
        escaped(word)
    }
}

/// A word, in which nothing has a meaning in Markdown. Between letters a low line has none.
fn escaped(word: &str) -> String {
    let word = word.replace('\'', "\\'");
    if word.starts_with('_') || word.ends_with('_') {
        return word.replace('_', "\\_");
    }
    word
}

/// The page of a module, and what names on it begin with. The library of Rattle has one page.
fn page(path: &str) -> Option<(String, String)> {
    let (krate, module) = path.split_once(".specs.")?;
    if module.starts_with("declared.") || module.starts_with("contracts.") {
        return None;
    }
    if !krate.starts_with("ent_") {
        let begin = match module {
            "FinMap" | "FinSet" => format!("{module}."),
            _ => String::new(),
        };
        return Some(("logic".to_owned(), begin));
    }
    let mut page = String::new();
    for (at, sign) in module.replace('.', "").char_indices() {
        if at > 0 && sign.is_uppercase() {
            page.push('_');
        }
        page.extend(sign.to_lowercase());
    }
    Some((format!("{krate}::{page}"), String::new()))
}

/// The names that a contract binds: those between `λ` and a point, and those before the colon of
/// `(name : Type)`.
fn bound(clauses: &str) -> BTreeSet<&str> {
    let mut found = BTreeSet::new();
    for part in clauses.split('λ').skip(1) {
        found.extend(part.split('.').next().unwrap_or("").split_whitespace());
    }
    for part in clauses.split('(').skip(1) {
        let (names, _) = part.split_once(" : ").unwrap_or_default();
        if names.chars().all(|c| is_word(c) || c == ' ') {
            found.extend(names.split(' '));
        }
    }
    found
}

/// A line of docs with a contract as its source has it: without links and escapes.
pub fn without_links(line: &str) -> String {
    let mut line = line.to_owned();
    for (blanks, entity) in BLANKS {
        line = line.replace(entity, blanks);
    }
    let (mut out, mut rest) = (String::new(), line.as_str());
    while let Some(sign) = rest.chars().next() {
        rest = &rest[sign.len_utf8()..];
        match sign {
            '\\' => {
                let sign = rest.chars().next();
                out.extend(sign);
                rest = &rest[sign.map_or(0, char::len_utf8)..];
            }
            '[' => {}
            ']' => rest = rest.split_once(')').map_or("", |(_, rest)| rest),
            sign => out.push(sign),
        }
    }
    out
}

impl Walk<'_> {
    /// Whether the item whose first token stands at this place has docs.
    pub(crate) fn is_documented(&self, start: usize) -> bool {
        let above = self.source.code[start].checked_sub(2);
        above.is_some_and(|at| {
            let comment = self.source.tokens[at];
            let text = &self.source.text[comment.from..comment.to];
            comment.kind == Kind::Comment && text.starts_with("///")
        })
    }

    /// All clauses of a contract, of which the first begins at `at`. They go to the docs above
    /// `item`. The place after them is that of the body, or of a `;`.
    pub(crate) fn shown_contract(&mut self, item: usize, at: usize, has_bounds: bool) -> Next {
        let end = self.after_clauses(at)?;
        let from = self.source.token(at - 1).to;
        let body = self.source.token(end).from;
        let clauses = self.source.text[from..body].trim_end();
        let docs = self.docs(item, at, clauses)?;
        let line = self.begin_of_line(item)?;
        let change = |from, to, text| Edit {
            from,
            to,
            change: Change::Text(text),
        };
        let gap = match self.source.at(end) {
            ";" => String::new(),
            _ if has_bounds => format!("\n{}", self.indent(item)?),
            _ => " ".to_owned(),
        };
        self.edits.push(change(line, line, docs));
        self.edits.push(change(from, body, gap));
        Ok(end)
    }

    /// The lines of docs above `item` that show these clauses, of which the first stands at `at`.
    fn docs(&self, item: usize, at: usize, clauses: &str) -> Result<String, Fault> {
        let margin = " ".repeat(self.first_column(at));
        let own = |line: &str| {
            let line = line.strip_prefix(margin.as_str());
            line.map(|line| line.trim_end().to_owned())
        };
        let bound = bound(clauses);
        let words = self
            .words
            .within(&self.source.text[..self.source.token(item).from]);
        let lines = clauses.trim_start_matches(' ').trim_start_matches('\n');
        let lines = lines.lines().map(|line| {
            let line = own(line).unwrap_or_else(|| line.trim().to_owned());
            words.shown(&line, &bound)
        });
        let indent = self.indent(item)?;
        let all = BEGIN.into_iter().map(str::to_owned).chain(lines);
        let all = all.chain(END.map(str::to_owned));
        Ok(all
            .map(|line| format!("{indent}{}\n", format!("/// {line}").trim_end()))
            .collect())
    }
}
