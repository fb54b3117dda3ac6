//! Code within items: types, bounds, expressions and patterns.

use crate::forms::{self, Forms, Import, Renamed};
use crate::items::Scope;
use crate::lex::Kind;
use crate::memory::{fields, owners};
use crate::names::header;
use crate::source::Fault;
use crate::walk::{Next, Walk};

/// Words of Rust that may begin a statement whose block follows at once, or after one word.
const STATEMENT_WORDS: [&str; 14] = [
    "else", "enum", "for", "if", "impl", "let", "loop", "match", "mod", "move", "return", "struct",
    "trait", "while",
];

impl Walk<'_> {
    /// The code from this place up to, not including, `end`.
    pub(crate) fn code(&mut self, at: usize, end: usize) -> Result<(), Fault> {
        let mut at = at;
        while at < end {
            at = self.code_token(at)?;
        }
        Ok(())
    }

    /// The code of a signature or of a header from this place to `end`. `Drop` is a bound there.
    pub(crate) fn signature(&mut self, at: usize, end: usize) -> Next {
        let before = std::mem::replace(&mut self.is_signature, true);
        let mut at = at;
        while at < end {
            at = self.code_token(at)?;
        }
        self.is_signature = before;
        Ok(at)
    }

    /// One token of code, and what belongs to it.
    pub(crate) fn code_token(&mut self, at: usize) -> Next {
        if let Some(end) = self.gone_end(at) {
            self.take_out_part(at, end);
            return Ok(end);
        }
        let token = self.source.at(at);
        match self.source.token(at).kind {
            Kind::Word => return self.word(at),
            Kind::Number if token.contains('.') && self.source.before(at) != "." => {
                return Err(self.source.fault(at, "a number with a point"));
            }
            Kind::Sign => {}
            _ => return Ok(at + 1),
        }
        match token {
            "." if self.source.is_word(at + 1) => self.method(at + 1),
            "#" => {
                let end = self.after_attribute(at)?;
                let is_ghost = forms::GHOST_ATTRIBUTES.contains(&self.source.at(at + 2));
                if !is_ghost && !["#", "const", "fn", "pub", "use"].contains(&self.source.at(end)) {
                    return Err(self.source.fault(at, "an attribute of code"));
                }
                self.attribute(at, end, false, &[])?;
                Ok(end)
            }
            ".." => self.range(at),
            "::" => self.within_path(at),
            _ if !token.is_ascii() => Err(self
                .source
                .fault(at, format!("an unknown sign in code: `{token}`"))),
            _ => Ok(at + 1),
        }
    }

    /// A `..`: in a pattern, in a range, or before the rest of a value.
    fn range(&self, at: usize) -> Next {
        let (before, after) = (self.source.before(at), self.source.at(at + 1));
        let has_begin = !["(", "[", "{", ",", "@", "|"].contains(&before);
        if has_begin && !self.begins_value(at + 1) && !self.is_of_slice(at) {
            let what = "a range without an end, which ends sooner in the kit";
            return Err(self.source.fault(at, what));
        }
        let closes = [")", "]", "}", ",", "|", "=>", "="].contains(&after);
        if ["{", ","].contains(&before) && !closes {
            // No code of the rest may run: the kit doesn't run it if no field is taken from it.
            let end = (at + 1..self.source.len())
                .find(|at| !self.source.is_word(*at) && self.source.at(*at) != ".");
            if end.is_none_or(|end| self.source.at(end) != "}") {
                return Err(self
                    .source
                    .fault(at, "the rest of a value that isn't a place"));
            }
        }
        Ok(at + 1)
    }

    /// Whether a value begins here.
    fn begins_value(&self, at: usize) -> bool {
        let token = self.source.at(at);
        match self.source.token(at).kind {
            Kind::Word => !["as", "else", "if", "in"].contains(&token),
            Kind::Number | Kind::Literal => true,
            _ => ["(", "&", "*", "-", "!"].contains(&token),
        }
    }

    /// Whether the `..` here, which has no end, takes a part of a slice: in `x[a..]` or in
    /// `x.get(a..)`.
    fn is_of_slice(&self, at: usize) -> bool {
        let close = at + 1;
        let open = self.source.partner(close);
        if open > at {
            return false;
        }
        let before = self.source.before(open);
        match self.source.at(open) {
            "[" => {
                self.source.is_word(open - 1) && !forms::KEYWORDS.contains(&before)
                    || [")", "]"].contains(&before)
            }
            // A constant's, whose type is written: no range.
            "(" if before == "get" && self.source.before(open - 1) == "." => {
                let receiver = self.source.before(open - 2);
                receiver.starts_with(|c: char| c.is_uppercase())
            }
            _ => false,
        }
    }

    fn word(&mut self, at: usize) -> Next {
        let word = self.source.at(at);
        if forms::CLAUSES.contains(&word) {
            return self.closure_contract(at);
        }
        let refusal = match word {
            _ if !word.is_ascii() => "an unknown word in code",
            "ghost" => "an unknown ghost form in code",
            _ if forms::REFUSED_WORDS.contains(&word) => "an unknown form",
            _ if self.is_unknown_block(at) => "an unknown block",
            _ if self.is_item(at) => "an item in a body",
            _ => "",
        };
        if !refusal.is_empty() {
            return Err(self.source.fault(at, format!("{refusal}: `{word}`")));
        }
        match word {
            forms::DROP if self.source.before(at) != "::" => self.drop_bound(at),
            "use" => self.use_item(at, at, Scope::Module),
            "fn" if self.source.is_word(at + 1) => self.function(at, at, at, Scope::Trait),
            "pub" => {
                self.visibility(at, Scope::File)?;
                self.after_visibility(at)
            }
            _ if self.is_macro(at) => self.macro_call(at),
            _ if self.source.at(at + 1) == "::" && self.source.before(at) != "::" => self.path(at),
            _ => self.name(at),
        }
    }

    /// The contract of a closure, and then its body, which is a block.
    fn closure_contract(&mut self, at: usize) -> Next {
        let end = self.contract(at)?;
        if self.source.at(end) == "{" {
            return Ok(end);
        }
        Err(self.source.fault(at, "a contract without a body"))
    }

    /// Whether a block of a kind begins here that isn't known, as `proof { .. }`. No value has a
    /// name of small letters before a brace, but in a condition.
    fn is_unknown_block(&self, at: usize) -> bool {
        let (word, before) = (self.source.at(at), self.source.before(at));
        if !word.starts_with(|c: char| c.is_lowercase()) || STATEMENT_WORDS.contains(&word) {
            return false;
        }
        let has_block = self.source.at(at + 1) == "{";
        let has_named_block = self.source.is_word(at + 1) && self.source.at(at + 2) == "{";
        match before {
            ";" | "{" | "}" => has_block || has_named_block,
            "(" | "," | "=>" | "|" | "return" => has_block,
            // Not of `==`, `<=`, ..
            "=" => has_block && self.source.is_word(at - 2) && !self.is_condition(at),
            _ => false,
        }
    }

    /// Whether the place is in the condition of `if let` or `while let`.
    fn is_condition(&self, at: usize) -> bool {
        let ends = [";", "{", "}", "if", "while"];
        let begin = (0..at).rev().find(|at| ends.contains(&self.source.at(*at)));
        begin.is_some_and(|at| ["if", "while"].contains(&self.source.at(at)))
    }

    /// Whether an item begins at this word, in the body of a function.
    fn is_item(&self, at: usize) -> bool {
        let begins = ["{", "}", ";", "pub"].contains(&self.source.before(at));
        begins && forms::ITEM_WORDS.contains(&self.source.at(at))
    }

    /// Whether the bounds of a `where` end before this place.
    fn is_only_bound(&self, at: usize) -> bool {
        let next = self.source.at(at);
        next == "{" || forms::CLAUSES.contains(&next)
    }

    /// The bound `Drop` goes, and with it the sign that binds it, or the `where` that has no other.
    fn drop_bound(&mut self, at: usize) -> Next {
        let (before, after) = (self.source.before(at), self.source.at(at + 1));
        match (before, after) {
            (":", ";") if self.source.before(at - 2) == "type" => {
                self.take_out_after(at - 1, at + 1)
            }
            _ if !self.is_signature => return Err(self.source.fault(at, "`Drop` in code")),
            ("+" | ":" | "impl", "+") => self.take_out(at, at + 2),
            ("+", _) => self.take_out_after(at - 1, at + 1),
            (":", ">" | "," | "=") if self.source.before(at - 2) != "where" => {
                self.take_out_after(at - 1, at + 1)
            }
            (":", "{") if self.source.before(at - 2) == "trait" => {
                self.take_out_after(at - 1, at + 1)
            }
            (":", ",") if self.is_only_bound(at + 2) => self.take_out_after(at - 3, at + 2),
            _ => return Err(self.source.fault(at, "an unknown form of the bound `Drop`")),
        }
        Ok(at + 1 + usize::from(after == "+"))
    }

    fn is_macro(&self, at: usize) -> bool {
        self.source.at(at + 1) == "!" && ["(", "[", "{"].contains(&self.source.at(at + 2))
    }

    fn macro_call(&mut self, at: usize) -> Next {
        let name = self.source.at(at);
        let mut lists = self.names.forms.iter();
        if name == "write" && forms::is_padded(self.krate, self.source.path) {
            self.replace(at, at + 1, "padded");
            self.import(at, forms::PADDING)?;
        } else if let Some(import) = lists.find_map(|forms| imported(forms.macros, name)) {
            self.import(at, import)?;
        } else if !self
            .names
            .forms
            .iter()
            .any(|forms| forms.kept_macros.contains(&name))
        {
            return Err(self
                .source
                .fault(at, format!("an unknown macro: `{name}!`")));
        }
        if name.starts_with("prove") {
            self.only_looks(at + 3, self.source.partner(at + 2))?;
        }
        Ok(at + 2)
    }

    /// The code in a proof isn't run in a release. So it may only look: at places, and by methods
    /// that are known only to look.
    fn only_looks(&self, at: usize, end: usize) -> Result<(), Fault> {
        let looks = |at: usize| {
            let token = self.source.at(at);
            match self.source.token(at).kind {
                Kind::Number | Kind::Literal => true,
                Kind::Word if self.source.at(at + 1) == "(" => {
                    let is_known = forms::LOOKING.contains(&token)
                        && self.names.methods.get(token) == Some(&true);
                    is_known && self.source.before(at) == "." && self.source.at(at + 2) == ")"
                }
                Kind::Word => {
                    !forms::KEYWORDS.contains(&token) || ["self", "true", "false"].contains(&token)
                }
                _ if token == "(" => self.source.is_word(at - 1),
                _ => [")", ".", ",", "::"].contains(&token),
            }
        };
        match (at..end).find(|at| !looks(*at)) {
            Some(at) => {
                let what = format!(
                    "what may do more than look, in a proof: `{}`",
                    self.source.at(at)
                );
                Err(self.source.fault(at, what))
            }
            None => Ok(()),
        }
    }

    /// A name without a path. It must be the sources' own, or known.
    fn name(&mut self, at: usize) -> Next {
        let name = self.source.at(at);
        if !["::", "."].contains(&self.source.before(at)) {
            self.check_right(at)?;
            let is_ghost = self.names.ghost_traits.contains(name);
            if is_ghost || self.types.is_ghost(self.source, at) {
                let what = format!("an unknown form of a ghost type: `{name}`");
                return Err(self.source.fault(at, what));
            }
            self.need(at)?;
            let is_field = self.source.at(at + 1) == ":";
            // What a bound says of an associated type of the trait.
            let is_bound = self.source.before(at) == "<" && self.source.at(at + 1) == "=";
            if !is_field && !is_bound && !self.is_known(name) {
                return Err(self.unknown_name(at));
            }
        }
        self.rename_call(at);
        Ok(at + 1)
    }

    /// The right to allocate is handed on in known forms alone.
    fn check_right(&self, at: usize) -> Result<(), Fault> {
        let name = self.source.at(at);
        let has_right = match self.rights.has(self.source, at) {
            _ if name == forms::RIGHT => true,
            None => self.names.fields.has(name) || name == "alloc",
            Some(has_right) => has_right,
        };
        if has_right {
            let what = format!("an unknown form of the right to allocate: `{name}`");
            return Err(self.source.fault(at, what));
        }
        Ok(())
    }

    pub(crate) fn unknown_name(&self, at: usize) -> Fault {
        let what = format!("an unknown name: `{}`", self.source.at(at));
        self.source.fault(at, what)
    }

    /// Whether a name without a path is known.
    pub(crate) fn is_known(&self, name: &str) -> bool {
        let prelude = self.names.forms.iter().flat_map(|forms| forms.prelude);
        let mut bare = self.names.forms.iter().flat_map(|forms| forms.bare);
        forms::KEYWORDS.contains(&name)
            || bare.any(|known| *known == name)
            || forms::BARE.contains(&name)
            || self.bound.contains(name)
            || self.names.items.contains(name)
            || prelude.into_iter().any(|import| import.name == name)
    }

    /// A name of the kit's prelude has to be imported.
    pub(crate) fn need(&mut self, at: usize) -> Result<(), Fault> {
        let word = self.source.at(at);
        let mut lists = self.names.forms.iter();
        if let Some(import) = lists.find_map(|forms| imported(forms.prelude, word)) {
            self.import(at, import)?;
        } else if forms::REFUSED_NAMES.contains(&word) {
            return Err(self
                .source
                .fault(at, format!("an unknown name of the kit: `{word}`")));
        }
        Ok(())
    }

    /// What follows a point: a field, or a method with its arguments.
    fn method(&mut self, at: usize) -> Next {
        let mut open = at + 1;
        if self.source.has(open, &["::", "<"]) {
            open = self.source.after_angles(open + 1)?;
        }
        let name = self.source.at(at);
        if self.source.at(open) != "(" {
            if self.names.fields.has(name) {
                let what = format!("an unknown form of the right to allocate: `.{name}`");
                return Err(self.source.fault(at, what));
            }
            return Ok(at + 1);
        }
        if let Some(renamed) = self.renamed(name, open + 1) {
            self.replace(at, at + 1, renamed.to);
            self.import(at, renamed.import)?;
            return Ok(at + 1);
        }
        if let Some(end) = self.list_call(at, open)? {
            return Ok(end);
        }
        let is_known = |forms: &&Forms| forms.methods.contains(&name);
        if self.names.forms.iter().any(is_known) {
            return Ok(at + 1);
        }
        if self.names.methods.contains_key(name) {
            // If std has a method of the name too, the receiver tells whose it is.
            let before = self.source.before(at - 1);
            let is_own = |it: &&(&str, &[&str])| it.0 == name && it.1.contains(&before);
            if !forms::is_of_std(name) || forms::OWN_CALLS.iter().any(|it| is_own(&it)) {
                return Ok(at + 1);
            }
        }
        if name == "fmt" && self.is_of_a_parameter(at) {
            return Ok(at + 1);
        }
        Err(self
            .source
            .fault(at, format!("an unknown method, or form of it: `{name}`")))
    }

    /// Whether `self.FIELD.fmt(f)` at its `fmt` writes a field whose type is a parameter of the
    /// `impl`, bounded by the trait that this implements. So no other `fmt` is looked at.
    fn is_of_a_parameter(&self, at: usize) -> bool {
        let source = self.source;
        if at < 5 || !source.has(at - 4, &["self", "."]) {
            return false;
        }
        let field = source.at(at - 2);
        let own = owners(source)
            .into_iter()
            .find(|(range, _)| range.contains(&at));
        let Some((range, of)) = own else { return false };
        let Ok(Some(implemented)) = header(source, range.start).map(|it| it.implemented) else {
            return false;
        };
        let is_bounded = |parameter: &str| {
            let bound = [parameter, ":", "fmt", "::", implemented];
            let is_only = |at: usize| source.has(at, &bound) && source.at(at + 5) != "+";
            range.clone().any(is_only)
        };
        let mut fields = fields(source).into_iter();
        fields.any(|(owner, name)| {
            let is_field = source.at(owner) == of && source.at(name) == field;
            is_field && source.at(name + 3) == "," && is_bounded(source.at(name + 2))
        })
    }

    /// An import from the kit goes to the top of the file, so a module within the file must have
    /// none.
    pub(crate) fn import(&mut self, at: usize, path: &'static str) -> Result<(), Fault> {
        if self.is_module {
            let what = format!(
                "a name of the kit in a module within a file: `{}`",
                self.source.at(at)
            );
            return Err(self.source.fault(at, what));
        }
        self.imports.insert(path);
        Ok(())
    }

    /// What a method is renamed to whose arguments begin here.
    fn renamed(&self, name: &str, at: usize) -> Option<&'static Renamed> {
        let fits = |argument: &&[&str]| match argument {
            ["\""] => self.source.at(at).starts_with('"'),
            _ if *argument == forms::OF_RIGHT => self.rights.gone.contains_key(&at),
            _ => self.source.has(at, argument),
        };
        let mut all = self.names.forms.iter().flat_map(|forms| forms.renamed);
        all.find(|it| it.from == name && it.arguments.iter().any(fits))
    }
}

/// The path of a name that has to be imported, if it is one of these.
fn imported(imports: &[Import], name: &str) -> Option<&'static str> {
    imports
        .iter()
        .find(|import| import.name == name)
        .map(|import| import.path)
}
