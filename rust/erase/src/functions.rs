//! Functions: their signatures, their contracts and their bodies.

use crate::edit::{Change, Edit};
use crate::forms::{self, RenamedFunction};
use crate::items::Scope;
use crate::memory::owners;
use crate::source::Fault;
use crate::walk::{Next, Walk};

/// Words of a type after which its next word may follow.
const TYPE_WORDS: [&str; 6] = ["as", "const", "dyn", "for", "impl", "mut"];

/// `fmt` in the kit, which writes to the writer that it is given.
const KIT_FMT: &[&str] = &[
    "<",
    "W",
    ":",
    "fmt",
    "::",
    "Write",
    ">",
    "(",
    "&",
    "self",
    ",",
    "f",
    ":",
    "&",
    "mut",
    "fmt",
    "::",
    "Formatter",
    "<",
    "W",
    ">",
    ")",
];

/// `clone` in the kit, from its parameters to the end of its body. It may run out of memory, and
/// this one isn't.
const KIT_CLONE: &[&str] = &[
    "(",
    "&",
    "self",
    ")",
    "->",
    "Result",
    "<",
    "Self",
    ",",
    "std",
    "::",
    "alloc",
    "::",
    "AllocError",
    ">",
    "{",
    "Ok",
    "(",
    "self",
    ".",
    "again",
    "(",
    ")",
    ")",
    "}",
];

impl Walk<'_> {
    /// The function whose `fn` stands at `at`. Its attributes begin at `start`, and what makes it
    /// visible at `visible`.
    pub(crate) fn function(
        &mut self,
        start: usize,
        visible: usize,
        at: usize,
        scope: Scope,
    ) -> Next {
        let mut next = at + 2;
        if self.source.at(at + 1) == "fmt" {
            self.fmt_signature(next)?;
        }
        if self.source.at(at + 1) == "clone" {
            return self.clone_of_itself(start, visible, next);
        }
        if self.source.at(next) == "<" {
            let end = self.source.after_angles(next)?;
            self.signature(next, end)?;
            next = end;
        }
        self.expect(next, "(")?;
        let close = self.source.partner(next);
        if !self.test_runtime(start, visible, next)? {
            self.signature(next + 1, close)?;
        }
        let is_shown = self.narrow(visible, at, scope) && self.is_documented(start);
        let end = self.rest_of_function(close + 1, is_shown.then_some(start))?;
        let has_body = self.source.before(end) == "}";
        if has_body && scope != Scope::Trait && !self.has_inline(start, visible) {
            let indent = self.indent(visible)?;
            self.insert(visible, format!("#[inline]\n{indent}"));
        }
        if self.source.before(at) != "const" && self.is_constant(at) {
            self.insert(at, "const ".to_owned());
        }
        self.rename_function(at, scope);
        if self.is_program(at, scope) {
            self.insert(at, "pub ".to_owned());
        }
        Ok(end)
    }

    /// Puts the package's name of the function in the place of its name, if they differ.
    fn rename_function(&mut self, at: usize, scope: Scope) {
        let mut all = forms::RENAMED_FUNCTIONS.iter();
        let renamed = all.find(|it| it.krate == self.krate && it.from == self.source.at(at + 1));
        let Some(renamed) = renamed.filter(|it| scope == Scope::Impl && self.own_type(at) == it.of)
        else {
            return;
        };
        self.replace(at + 1, at + 2, renamed.to);
    }

    /// Puts the package's name in the place of the name here, if it is the last one of the path of
    /// such a function.
    pub(crate) fn rename_call(&mut self, at: usize) {
        let mut all = forms::RENAMED_FUNCTIONS.iter();
        let is_of = |it: &&RenamedFunction| match self.source.before(at - 1) {
            "Self" => self.own_type(at) == it.of,
            name => name == it.of,
        };
        let name = self.source.at(at);
        let is_last = at > 1 && self.source.before(at) == "::";
        if let Some(renamed) = all.find(|it| is_last && it.from == name && is_of(it)) {
            self.replace(at, at + 1, renamed.to);
        }
    }

    /// The type of the `impl` around this place.
    fn own_type(&self, at: usize) -> &str {
        let owner = owners(self.source)
            .into_iter()
            .find(|it| it.0.contains(&at));
        owner.map_or("", |it| it.1)
    }

    /// Whether the function is `const` in the package.
    fn is_constant(&self, at: usize) -> bool {
        forms::is_constant(self.krate, self.source.path, self.source.at(at + 1))
    }

    /// Whether the function is the `main` of a program. As a module it is called by a test.
    fn is_program(&self, at: usize, scope: Scope) -> bool {
        let is_handed_runtime = self.names.forms.iter().any(|forms| forms.runtime.is_some());
        is_handed_runtime && scope == Scope::File && self.source.at(at + 1) == "main"
    }

    /// If the function is a test that is handed the runtime, it makes one instead.
    fn test_runtime(&mut self, start: usize, visible: usize, open: usize) -> Result<bool, Fault> {
        let mut runtimes = self.names.forms.iter().filter_map(|forms| forms.runtime);
        let fits = |runtime: &&str| self.source.has(open, &["(", "rt", ":", runtime, ")"]);
        let is_test = (start..visible).any(|at| self.source.has(at, &["#", "[", "test", "]"]));
        let Some(runtime) = runtimes.find(fits).filter(|_| is_test) else {
            return Ok(false);
        };
        let body = self.source.find(open + 5, self.source.len(), &["{", ";"]);
        let body = body.ok_or_else(|| self.source.fault(open, "a body is missing"))?;
        let indent = self.indent(visible)?;
        self.need(open + 3)?;
        self.take_out(open + 1, open + 4);
        self.insert_after(body, format!("\n{indent}    let rt = {runtime};"));
        Ok(true)
    }

    /// Whether one of these attributes says what is to be inlined, or the function is a test.
    fn has_inline(&self, start: usize, visible: usize) -> bool {
        (start..visible).any(|at| ["inline", "cold", "test"].contains(&self.source.at(at)))
    }

    /// The `clone` of an `impl Clone`, from its parameters on: it calls `again` of the type, which
    /// takes no memory.
    fn clone_of_itself(&mut self, start: usize, visible: usize, at: usize) -> Next {
        if !self.source.has(at, KIT_CLONE) {
            return Err(self.source.fault(at, "another `clone` than by `again`"));
        }
        if !self.has_inline(start, visible) {
            let indent = self.indent(visible)?;
            self.insert(visible, format!("#[inline]\n{indent}"));
        }
        self.take_out(at + 5, at + 7);
        self.take_out_after(at + 8, at + 15);
        self.take_out(at + 16, at + 18);
        self.take_out_after(at + 23, at + 24);
        Ok(at + KIT_CLONE.len())
    }

    /// The signature of `fmt` from its generics on.
    fn fmt_signature(&mut self, at: usize) -> Result<(), Fault> {
        if self.source.has(at, KIT_FMT) {
            self.replace(at, at + 7, "");
            self.replace(at + 19, at + 20, "'_");
            return Ok(());
        }
        Err(self
            .source
            .fault(at, "another signature of `fmt` than the kit's"))
    }

    /// What a function returns, its bounds, its contract, and its body or `;`. The docs above
    /// `item` show the contract, if that is there.
    fn rest_of_function(&mut self, at: usize, item: Option<usize>) -> Next {
        let mut at = at;
        let mut has_bounds = false;
        loop {
            let token = self.source.at(at);
            if token == ";" {
                return Ok(at + 1);
            }
            if token == "{" {
                self.refuse_clause_like(at)?;
                let close = self.source.partner(at);
                self.code(at + 1, close)?;
                return Ok(close + 1);
            }
            if token.is_empty() {
                return Err(self.source.fault(at, "a body is missing"));
            }
            if forms::CLAUSES.contains(&token) {
                at = match item {
                    Some(item) => self.shown_contract(item, at, has_bounds)?,
                    None => self.contract(at)?,
                };
                if !["{", ";", ""].contains(&self.source.at(at)) {
                    return Err(self.unknown_clause(at));
                }
                continue;
            }
            if self.source.is_word(at) && token != "where" && self.is_after_type(at) {
                return Err(self.unknown_clause(at));
            }
            has_bounds |= token == "where" && !self.source.has(at + 2, &[":", "Drop", ","]);
            let end = match token {
                "(" | "[" => self.source.partner(at) + 1,
                _ => at + 1,
            };
            at = self.signature(at, end)?;
        }
    }

    fn unknown_clause(&self, at: usize) -> Fault {
        let word = self.source.at(at);
        self.source
            .fault(at, format!("an unknown clause: `{word}`"))
    }

    /// Whether a type, or a list of parameters, ends before this place.
    fn is_after_type(&self, at: usize) -> bool {
        let before = self.source.before(at);
        let ends = [">", ")", "]"].contains(&before);
        ends || self.source.is_word(at - 1) && !TYPE_WORDS.contains(&before) && before != "where"
    }

    /// A word after a comma, right before the body, is no bound.
    fn refuse_clause_like(&self, at: usize) -> Result<(), Fault> {
        let is_clause = self.source.is_word(at - 1) && self.source.before(at - 1) == ",";
        if is_clause {
            return Err(self.unknown_clause(at - 1));
        }
        Ok(())
    }

    /// All clauses of a contract, of which the first begins here. They become comments. The place
    /// after them is that of the body, or of a `;`, which goes up to the signature.
    pub(crate) fn contract(&mut self, at: usize) -> Next {
        let end = self.after_clauses(at)?;
        let from = self.source.token(at - 1).to;
        let mut to = self.source.token(end - 1).to;
        let mut text = String::new();
        if self.source.at(end) == ";" {
            text.push(';');
            to = self.source.token(end).to;
        }
        let clauses = &self.source.text[from..self.source.token(end - 1).to];
        text.push_str(&commented(clauses, self.first_column(at)));
        let rest = &self.source.text[to..];
        if !rest.starts_with('\n') {
            to += rest.len() - rest.trim_start_matches(' ').len();
            text.push('\n');
            text.push_str(&" ".repeat(self.first_column(at - 1)));
        }
        self.edits.push(Edit {
            from,
            to,
            change: Change::Text(text),
        });
        Ok(end)
    }

    /// The place after the clauses of which the first begins here.
    pub(crate) fn after_clauses(&self, at: usize) -> Next {
        let mut end = at;
        while forms::CLAUSES.contains(&self.source.at(end)) {
            end = self.after_clause(end)?;
        }
        Ok(end)
    }

    /// The place after the clause that begins here: `requires NAME { .. }`, perhaps with a star or
    /// without a name.
    fn after_clause(&self, at: usize) -> Next {
        let mut next = at + 1;
        if self.source.at(next) == "*" {
            next += 1;
        }
        if self.source.is_word(next) {
            next += 1;
        }
        let unknown = || self.source.fault(at, "a clause of an unknown form");
        self.source.after_term(next)?.ok_or_else(unknown)
    }

    /// How many blanks stand before the first code of the line of this token.
    pub(crate) fn first_column(&self, at: usize) -> usize {
        let from = self.source.token(at).from;
        let line = self.source.text[..from].rfind('\n').map_or(0, |at| at + 1);
        let text = &self.source.text[line..];
        text.len() - text.trim_start_matches(' ').len()
    }
}

/// The lines of clauses as comments. A line keeps its place, and so does what it is indented by
/// beyond the column of the clauses.
fn commented(clauses: &str, column: usize) -> String {
    let margin = " ".repeat(column);
    let mut lines = clauses.lines();
    let first = lines.next().unwrap_or("").trim();
    let mut text = String::new();
    if !first.is_empty() {
        let mark = if first.starts_with("//") { " " } else { "\n" };
        text.push_str(mark);
        text.push_str(&comment(first, &margin, mark == "\n"));
    }
    for line in lines {
        text.push('\n');
        if line.trim().is_empty() {
            continue;
        }
        let beyond = line
            .strip_prefix(margin.as_str())
            .unwrap_or(line.trim_start());
        text.push_str(&comment(beyond, &margin, true));
    }
    text
}

/// A line as a comment, unless it is one.
fn comment(line: &str, margin: &str, is_whole: bool) -> String {
    let margin = if is_whole { margin } else { "" };
    let mark = if line.trim_start().starts_with("//") {
        ""
    } else {
        "// "
    };
    format!("{margin}{mark}{line}")
}

#[cfg(test)]
mod tests {
    use super::commented;

    #[test]
    fn lines_keep_their_indentation() {
        let clauses = "\n    requires a { b\n        ≡ c }\n\n    // Why.\n    ensures { d }";
        let wanted =
            "\n    // requires a { b\n    //     ≡ c }\n\n    // Why.\n    // ensures { d }";
        assert_eq!(commented(clauses, 4), wanted);
    }

    #[test]
    fn clauses_in_the_line_of_the_signature_go_below_it() {
        assert_eq!(commented(" requires { a }", 4), "\n    // requires { a }");
    }
}
