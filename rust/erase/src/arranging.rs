//! The order in which the package shows things: a page has the `impl` blocks of a type in the order
//! of the sources.
//!
//! The table says which modules of a crate come first, and how the functions of a type are parted
//! into topics, each a block of its own below a heading. No function changes.

use crate::edit::{edited, Change, Edit};
use crate::source::{Fault, Source};
use std::collections::BTreeMap;

/// The table.
const TABLE: &str = include_str!("../topics.txt");

/// The topics of a type in a file: of each its heading and its functions.
fn topics_of(file: &str) -> BTreeMap<&'static str, Vec<(&'static str, Vec<&'static str>)>> {
    let mut topics: BTreeMap<&str, Vec<_>> = BTreeMap::new();
    let mut of = None;
    for line in TABLE.lines() {
        if let Some(rest) = line.strip_prefix("impl ") {
            of = rest
                .split_once(' ')
                .filter(|it| it.0 == file)
                .map(|it| it.1);
        } else if let (Some(of), Some((heading, functions))) = (
            of,
            line.strip_prefix("- ").and_then(|it| it.split_once(": ")),
        ) {
            let functions = functions.split(' ').collect();
            topics.entry(of).or_default().push((heading, functions));
        }
    }
    topics
}

/// The modules of this crate that come first.
fn first_modules(krate: &str) -> Vec<&'static str> {
    let mut lines = TABLE
        .lines()
        .filter_map(|line| line.strip_prefix("modules "));
    let own = lines.find_map(|line| line.strip_prefix(krate)?.strip_prefix(' '));
    own.map_or(Vec::new(), |names| names.split(' ').collect())
}

/// A result in the order of the table. `file` is its crate and its file there.
///
/// # Errors
///
/// The result can't be read, or lacks what the table has.
pub fn arranged(text: &str, file: &str) -> Result<String, Fault> {
    let (krate, name) = file.split_once('/').unwrap_or((file, ""));
    if name == "mod.rs" {
        return Ok(with_modules(text, &first_modules(krate)));
    }
    let topics = topics_of(file);
    let source = Source::read(file, text)?;
    let mut edits = Vec::new();
    for (of, topics) in topics {
        let mut headers: Vec<String> = Vec::new();
        let mut blocks: Vec<Vec<(usize, usize)>> = Vec::new();
        for at in (0..source.len()).filter(|at| source.at(*at) == "impl") {
            let Some(open) = source.find(at, source.len(), &["{"]) else {
                continue;
            };
            let is_own = (at..open).all(|at| source.at(at) != "for")
                && (at..open).any(|at| source.at(at) == of);
            if !is_own {
                continue;
            }
            let header = text[source.token(at).from..source.token(open).to].to_owned();
            let place = headers.iter().position(|it| *it == header);
            let place = place.unwrap_or_else(|| {
                headers.push(header);
                blocks.push(Vec::new());
                blocks.len() - 1
            });
            blocks[place].push((at, open));
        }
        for (header, places) in headers.iter().zip(blocks) {
            let mut members: Vec<_> = places
                .iter()
                .flat_map(|(_, open)| members(&source, *open))
                .collect();
            let mut groups = Vec::new();
            for (heading, functions) in &topics {
                let mut own = Vec::new();
                for function in functions {
                    if let Some(at) = members.iter().position(|it| it.0 == *function) {
                        own.push(members.remove(at).1);
                    }
                }
                groups.push((Some(*heading), own));
            }
            groups.push((None, members.into_iter().map(|it| it.1).collect()));
            groups.retain(|it| !it.1.is_empty());
            let texts: Vec<String> = groups
                .iter()
                .map(|(heading, members)| {
                    let heading = heading.map_or(String::new(), |it| format!("/// # {it}\n"));
                    format!("{heading}{header}\n{}\n}}", members.join("\n\n"))
                })
                .collect();
            let mut all = Some(texts.join("\n\n"));
            for (at, open) in places {
                let (from, to) = (source.token(at).from, source.token(source.partner(open)).to);
                let change = match all.take() {
                    Some(text) => Change::Text(text),
                    None => Change::Lines,
                };
                let to = to + usize::from(change == Change::Lines);
                edits.push(Edit { from, to, change });
            }
        }
    }
    Ok(edited(text, edits))
}

/// The functions and constants of a block, each with its name and its text from its docs on.
fn members<'a>(source: &Source<'a>, open: usize) -> Vec<(&'a str, &'a str)> {
    let end = source.partner(open);
    let mut members = Vec::new();
    let (mut begin, mut at) = (source.token(open).to, open + 1);
    while let Some(last) = source.find(at, end, &["{", ";"]) {
        let name = (at..last)
            .find(|at| ["fn", "const"].contains(&source.at(*at)) && source.at(at + 1) != "fn");
        let mut last = source.partner(last);
        // The value of a constant may have braces.
        if name.is_some_and(|at| source.at(at) == "const") {
            last = source.find(last, end, &[";"]).unwrap_or(last);
        }
        let to = source.token(last).to;
        let text = source.text[begin..to].trim_start_matches('\n');
        members.push((name.map_or("", |at| source.at(at + 1)), text));
        (begin, at) = (to, last + 1);
    }
    members
}

/// The same with these modules first.
fn with_modules(text: &str, first: &[&str]) -> String {
    let module = |line: &str| {
        let line = line.strip_prefix("pub ").unwrap_or(line);
        line.strip_prefix("mod ")?
            .strip_suffix(';')
            .map(str::to_owned)
    };
    let lines: Vec<&str> = text.lines().collect();
    let mut modules: Vec<&str> = lines
        .iter()
        .copied()
        .filter(|line| module(line).is_some())
        .collect();
    modules.sort_by_key(|line| {
        let name = module(line).unwrap_or_default();
        first
            .iter()
            .position(|it| *it == name)
            .unwrap_or(first.len())
    });
    let mut modules = modules.into_iter();
    let mut arranged = String::new();
    for line in &lines {
        let line = module(line).and_then(|_| modules.next()).unwrap_or(line);
        arranged = arranged + line + "\n";
    }
    arranged
}

/// Tests that a result in the order of the table has the lines that it had before, and none but
/// headings, and the first and last lines of blocks, besides.
///
/// # Errors
///
/// It hasn't.
pub fn has_the_same_lines(before: &Source<'_>, after: &Source<'_>) -> Result<(), Fault> {
    let is_own = |line: &&str| {
        let is_block = line.starts_with("impl") || *line == "}" || line.is_empty();
        !is_block && !line.starts_with("/// # ")
    };
    let of = |text| {
        let mut lines: Vec<&str> = str::lines(text).filter(is_own).collect();
        lines.sort_unstable();
        lines
    };
    match of(before.text) == of(after.text) {
        true => Ok(()),
        false => Err(before.fault(0, "the order of the package changes a line")),
    }
}
