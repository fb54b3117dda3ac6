//! Items: what stands in a file, in an `impl` block and in a trait.

use crate::forms;
use crate::ghost_types::file_of_module;
use crate::names::{block, header};
use crate::source::Fault;
use crate::walk::{Next, Walk};

/// Where an item stands.
#[derive(Clone, Copy, Debug, PartialEq, Eq)]
pub(crate) enum Scope {
    /// In a file.
    File,
    /// In a module within a file.
    Module,
    /// In an `impl` block.
    Impl,
    /// In a trait.
    Trait,
}

impl Walk<'_> {
    /// The items from this place of the code up to, not including, `end`.
    pub(crate) fn items(&mut self, at: usize, end: usize, scope: Scope) -> Result<(), Fault> {
        let mut at = at;
        while at < end {
            at = self.item(at, scope)?;
        }
        Ok(())
    }

    fn item(&mut self, start: usize, scope: Scope) -> Next {
        if self.source.has(start, &["#", "!"]) {
            let end = self.after_attribute(start)?;
            self.attribute(start, end, false, &[])?;
            return Ok(end);
        }
        let mut at = start;
        while self.source.at(at) == "#" {
            at = self.after_attribute(at)?;
        }
        let visible = at;
        if self.source.at(at) == "pub" {
            at = self.after_visibility(at)?;
        }
        if let Some(end) = self.ghost_item(at, scope)? {
            self.cut_item(start, end)?;
            return Ok(end);
        }
        let added = match self.source.at(at) {
            "struct" if self.check_compared(at, scope)? => forms::EQUALITY,
            "struct" | "enum" => forms::derived_more(self.krate, self.source.at(at + 1)),
            _ => &[],
        };
        let derives_error = self.attributes(start, visible, added)?;
        self.visibility(visible, scope)?;
        let end = match self.source.at(at) {
            "use" => return self.use_item(start, at, scope),
            "mod" => self.module(at)?,
            "const" if self.source.at(at + 1) == "fn" => {
                self.function(start, visible, at + 1, scope)?
            }
            "const" | "type" => self.declaration(at)?,
            "static" if self.may_have_static(at, scope) => self.declaration(at)?,
            "fn" => self.function(start, visible, at, scope)?,
            "struct" | "enum" => {
                self.layout(visible, at, scope)?;
                self.type_item(start, at, derives_error)?
            }
            "trait" => self.block_item(at, Scope::Trait)?,
            "impl" => self.block_item(at, Scope::Impl)?,
            other => return Err(self.source.fault(at, format!("an unknown item: `{other}`"))),
        };
        if scope == Scope::File {
            let begin = self.begin_of_item(start)?;
            self.first_item.get_or_insert(begin);
        }
        Ok(end)
    }

    /// Whether a `static` that nothing changes may stand here.
    fn may_have_static(&self, at: usize, scope: Scope) -> bool {
        let is_known = self.names.forms.iter().any(|forms| forms.statics);
        is_known && scope == Scope::File && self.source.at(at + 1) != "mut"
    }

    /// The place after the item that stands here, after its attributes, if it is ghost.
    fn ghost_item(&self, at: usize, scope: Scope) -> Result<Option<usize>, Fault> {
        match self.source.at(at) {
            "ghost" => self.ghost(at, scope).map(Some),
            "trait" if self.names.ghost_traits.contains(self.source.at(at + 1)) => {
                let open = block(self.source, at)?;
                let (mut next, close) = (open + 1, self.source.partner(open));
                while next < close {
                    next = self.ghost(next, Scope::Trait)?;
                }
                Ok(Some(close + 1))
            }
            "mod" if self.source.at(at + 2) == ";" => {
                let file = file_of_module(self.source, self.source.at(at + 1));
                Ok(self.names.ghost_files.contains(&file).then_some(at + 3))
            }
            "impl" => {
                if let Some(end) = self.derived_equality(at)? {
                    return Ok(Some(end));
                }
                let of = header(self.source, at)?.implemented;
                let Some(name) = of.filter(|name| self.names.is_ghost_trait(name)) else {
                    return Ok(None);
                };
                if !self.ghosts.contains(name) && !self.names.ghost_traits.contains(name) {
                    let what = format!("`{name}`, which isn't imported from the kit");
                    return Err(self.source.fault(at, what));
                }
                Ok(Some(self.source.partner(block(self.source, at)?) + 1))
            }
            _ => Ok(None),
        }
    }

    /// The place after an `impl` here that is printed as a derive: it must be that of the derive.
    fn derived_equality(&self, at: usize) -> Result<Option<usize>, Fault> {
        let (implemented, name) = (self.source.at(at + 1), self.source.at(at + 3));
        let Some(compared) = forms::compared(self.krate, name) else {
            return Ok(None);
        };
        let begins = self.source.has(at + 2, &["for", name, "{"]);
        if !begins || !forms::EQUALITY.contains(&implemented) {
            return Ok(None);
        }
        let close = self.source.partner(at + 4);
        let mut next = at + 5;
        while self.source.at(next) == "ghost" {
            next = self.ghost(next, Scope::Impl)?;
        }
        let code: String = (next..close).map(|at| self.source.at(at)).collect();
        let body = compared.body().replace(' ', "");
        let wanted = if implemented == "Eq" { "" } else { &body };
        if code == wanted {
            return Ok(Some(close + 1));
        }
        let what = format!("an impl of `{implemented}` that isn't that of the derive");
        Err(self.source.fault(at, what))
    }

    /// Checks that a struct whose equality is derived has the one field, and the impls that become
    /// the derives.
    fn check_compared(&self, at: usize, scope: Scope) -> Result<bool, Fault> {
        let name = self.source.at(at + 1);
        let Some(compared) = forms::compared(self.krate, name).filter(|_| scope == Scope::File)
        else {
            return Ok(false);
        };
        let fields = at + 3..self.source.partner(at + 2);
        let has_field = self.source.has(at + 2, &["{", compared.field, ":"]);
        let is_only = self.source.find(fields.start, fields.end, &[","]) == Some(fields.end - 1);
        let has = |implemented: &str| {
            let header = ["impl", implemented, "for", name, "{"];
            (0..self.source.len()).any(|at| self.source.has(at, &header))
        };
        if has_field && is_only && forms::EQUALITY.iter().all(|it| has(it)) {
            return Ok(true);
        }
        let what = format!("`{name}` isn't a struct of one field that is compared");
        Err(self.source.fault(at, what))
    }

    /// A ghost import or a ghost member.
    fn ghost(&self, at: usize, scope: Scope) -> Next {
        let name = self.source.at(at + 1);
        if name == "use" {
            return self.after_ghost_use(at + 2);
        }
        let is_known = forms::GHOST_MEMBERS.contains(&name) || self.names.members.contains(name);
        let end = match scope {
            Scope::Trait => self.after_declared_member(at + 2)?,
            Scope::Impl if is_known => self.after_member_value(at + 2)?,
            _ => None,
        };
        let unknown = format!("an unknown ghost form: `ghost {name}`");
        end.ok_or_else(|| self.source.fault(at, unknown))
    }

    /// `: { .. };`, or `: { .. } = { .. };` of a member with a default.
    fn after_declared_member(&self, at: usize) -> Result<Option<usize>, Fault> {
        if self.source.at(at) != ":" {
            return Ok(None);
        }
        match self.source.after_term(at + 1)? {
            Some(end) if self.source.at(end) == ";" => Ok(Some(end + 1)),
            Some(end) => self.after_member_value(end),
            None => Ok(None),
        }
    }

    /// `= { .. };`
    fn after_member_value(&self, at: usize) -> Result<Option<usize>, Fault> {
        if self.source.at(at) != "=" {
            return Ok(None);
        }
        let end = self.source.after_term(at + 1)?;
        Ok(end
            .filter(|end| self.source.at(*end) == ";")
            .map(|end| end + 1))
    }

    /// `ghost use PATH.{NAMES};` or `ghost use PATH as NAME;`.
    fn after_ghost_use(&self, at: usize) -> Next {
        let end = self.source.find(at, self.source.len(), &[";"]);
        let end = end.ok_or_else(|| self.source.fault(at, "`;` is missing"))?;
        let is_path = |at: usize| self.source.is_word(at) || self.source.at(at) == ".";
        let names = (at..end).find(|at| !is_path(*at)).unwrap_or(end);
        let is_known =
            names == end || self.source.has(names, &["{"]) && self.source.partner(names) + 1 == end;
        if is_known {
            return Ok(end + 1);
        }
        Err(self.source.fault(names, "an unknown form of `ghost use`"))
    }

    /// A module of a file of its own, or within this file.
    fn module(&mut self, at: usize) -> Next {
        if self.source.at(at + 2) == ";" {
            return Ok(at + 3);
        }
        let body = self.expect(at + 2, "{")? - 1;
        let end = self.source.partner(body);
        let before = std::mem::replace(&mut self.is_module, true);
        self.items(body + 1, end, Scope::Module)?;
        self.is_module = before;
        Ok(end + 1)
    }

    /// A constant or another name of a type.
    fn declaration(&mut self, at: usize) -> Next {
        let end = self.source.find(at, self.source.len(), &[";"]);
        let end = end.ok_or_else(|| self.source.fault(at, "`;` is missing"))?;
        self.code(at + 2, end)?;
        Ok(end + 1)
    }

    /// A trait, or an `impl` of one or of a type.
    fn block_item(&mut self, at: usize, scope: Scope) -> Next {
        let body = block(self.source, at)?;
        if scope == Scope::Impl {
            if let Some(name) = header(self.source, at)?.implemented {
                let is_known =
                    forms::kept_trait(name).is_some() || self.names.traits.contains(name);
                if !is_known {
                    let what = format!("an impl of an unknown trait: `{name}`");
                    return Err(self.source.fault(at, what));
                }
            }
        }
        self.signature(at + 1, body)?;
        if scope == Scope::Trait && forms::is_defaulted(self.krate, self.source.at(at + 1)) {
            self.defaults(at, body)?;
        }
        let end = self.source.partner(body);
        self.is_public_trait = scope == Scope::Trait && self.source.before(at) == "pub";
        self.items(body + 1, end, scope)?;
        Ok(end + 1)
    }

    /// The defaults of a trait's last two parameters.
    fn defaults(&mut self, at: usize, body: usize) -> Result<(), Fault> {
        let first = body + 1 - forms::LAST_TWO.len();
        if !self.source.has(first, forms::LAST_TWO) {
            let what = "a trait whose last parameters aren't the source and the error";
            return Err(self.source.fault(at, what));
        }
        for (words, default) in forms::DEFAULTS {
            self.insert_after(first + words - 1, (*default).to_owned());
        }
        Ok(())
    }

    /// The attribute of a type whose layout the package chooses.
    fn layout(&mut self, visible: usize, at: usize, scope: Scope) -> Result<(), Fault> {
        let layout = forms::layout_of(self.krate, self.source.at(at + 1));
        if let Some(layout) = layout.filter(|_| scope == Scope::File) {
            let indent = self.indent(visible)?;
            self.insert(visible, format!("{}\n{indent}", layout.attribute));
        }
        Ok(())
    }

    /// A struct or an enum.
    fn type_item(&mut self, start: usize, at: usize, derives_error: bool) -> Next {
        let is_enum = self.source.at(at) == "enum";
        let body = self.source.find(at, self.source.len(), &["{", "(", ";"]);
        let body = body.ok_or_else(|| self.source.fault(at, "a body is missing"))?;
        self.signature(at + 1, body)?;
        let close = self.source.partner(body);
        let end = match self.source.at(body) {
            "{" if is_enum => {
                self.variants(body + 1, close, derives_error)?;
                close + 1
            }
            "{" => {
                self.fields(body + 1, close)?;
                close + 1
            }
            "(" => {
                self.fields(body + 1, close)?;
                self.expect(close + 1, ";")?
            }
            _ => body + 1,
        };
        if derives_error {
            let text = self.error_impls(start, at, body, end)?;
            self.insert_after(end - 1, text);
        }
        Ok(end)
    }

    /// Fields, with names or without.
    fn fields(&mut self, at: usize, end: usize) -> Result<(), Fault> {
        let mut at = at;
        while at < end {
            let mut comma = self.source.find(at, end, &[","]).unwrap_or(end);
            while let Some(next) = self.gone_end(comma) {
                comma = self.source.find(next, end, &[","]).unwrap_or(end);
            }
            let start = at;
            while self.source.at(at) == "#" {
                at = self.after_attribute(at)?;
            }
            let visible = at;
            if self.source.at(at) == "pub" {
                at = self.after_visibility(at)?;
            }
            if self.source.at(at) == "ghost" {
                self.ghost_field(at, comma)?;
                self.cut_item(start, (comma + 1).min(end))?;
            } else if self.is_right(at, comma) || self.types.is_phantom(self.source, at) {
                self.cut_item(start, (comma + 1).min(end))?;
            } else {
                self.attributes(start, visible, &[])?;
                self.visibility(visible, Scope::File)?;
                self.code(at, comma)?;
            }
            at = comma + 1;
        }
        Ok(())
    }

    /// Whether the field that begins here, up to the comma, has the right to allocate.
    fn is_right(&self, at: usize, comma: usize) -> bool {
        let is_imported = self.ghosts.contains(forms::RIGHT);
        is_imported && comma == at + 3 && self.source.has(at + 1, &[":", forms::RIGHT])
    }

    /// `ghost NAME: { .. }` or `ghost NAME: { .. } by { .. }`, up to the comma.
    fn ghost_field(&self, at: usize, comma: usize) -> Result<(), Fault> {
        let unknown = || self.source.fault(at, "an unknown form of a ghost field");
        if !self.source.is_word(at + 1) || self.source.at(at + 2) != ":" {
            return Err(unknown());
        }
        let mut next = self.source.after_term(at + 3)?.ok_or_else(unknown)?;
        if self.source.at(next) == "by" {
            next = self.source.after_term(next + 1)?.ok_or_else(unknown)?;
        }
        if next == comma {
            return Ok(());
        }
        Err(unknown())
    }

    fn variants(&mut self, at: usize, end: usize, derives_error: bool) -> Result<(), Fault> {
        let mut at = at;
        while at < end {
            let start = at;
            while self.source.at(at) == "#" {
                at = self.after_attribute(at)?;
            }
            self.variant_attributes(start, at, derives_error)?;
            let comma = self.source.find(at, end, &[","]).unwrap_or(end);
            match self.source.at(at + 1) {
                "{" | "(" => self.fields(at + 2, self.source.partner(at + 1))?,
                _ => self.code(at + 1, comma)?,
            }
            at = comma + 1;
        }
        Ok(())
    }
}
