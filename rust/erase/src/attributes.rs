//! Attributes and visibilities.

use crate::forms;
use crate::items::Scope;
use crate::source::Fault;
use crate::walk::{Next, Walk, OWN_ONLY};

impl Walk<'_> {
    /// The place after the attribute whose `#` stands here.
    pub(crate) fn after_attribute(&self, at: usize) -> Next {
        let open = at + 1 + usize::from(self.source.at(at + 1) == "!");
        self.expect(open, "[")?;
        Ok(self.source.partner(open) + 1)
    }

    /// The attributes of an item, of which a derive gets these names more. Returns whether the
    /// item's error messages are derived.
    pub(crate) fn attributes(
        &mut self,
        at: usize,
        end: usize,
        added: &[&str],
    ) -> Result<bool, Fault> {
        let mut at = at;
        let mut derives_error = false;
        while at < end {
            let next = self.after_attribute(at)?;
            derives_error |= self.attribute(at, next, derives_error, added)?;
            at = next;
        }
        Ok(derives_error)
    }

    /// The attributes of a variant.
    pub(crate) fn variant_attributes(
        &mut self,
        at: usize,
        end: usize,
        derives_error: bool,
    ) -> Result<(), Fault> {
        let mut at = at;
        while at < end {
            let next = self.after_attribute(at)?;
            self.attribute(at, next, derives_error, &[])?;
            at = next;
        }
        Ok(())
    }

    /// One attribute. Returns whether it derives error messages.
    pub(crate) fn attribute(
        &mut self,
        at: usize,
        end: usize,
        derives_error: bool,
        added: &[&str],
    ) -> Result<bool, Fault> {
        let name = at + 2 + usize::from(self.source.at(at + 1) == "!");
        let word = self.source.at(name);
        if forms::GHOST_ATTRIBUTES.contains(&word) {
            self.cut_lines(at, end)?;
            return Ok(false);
        }
        if word == "derive" {
            return self.derive(at, name, end, added);
        }
        if word == "error" && derives_error {
            self.cut_lines(at, end)?;
            return Ok(false);
        }
        let text: String = (name..end - 1).map(|at| self.source.at(at)).collect();
        // `must_use` may say why.
        let says_why = self.source.at(name) == "must_use" && self.source.at(name + 1) == "=";
        if forms::KEPT_ATTRIBUTES.contains(&text.as_str()) || says_why {
            return Ok(false);
        }
        Err(self
            .source
            .fault(at, format!("an unknown attribute: `{text}`")))
    }

    /// `#[derive(..)]`, with the word at `name`, which gets these names more. Returns whether it
    /// derives error messages.
    fn derive(
        &mut self,
        at: usize,
        name: usize,
        end: usize,
        added: &[&str],
    ) -> Result<bool, Fault> {
        self.expect(name + 1, "(")?;
        let names: Vec<&str> = (name + 2..self.source.partner(name + 1))
            .map(|at| self.source.at(at))
            .filter(|token| *token != ",")
            .collect();
        for name in &names {
            let is_known = forms::KEPT_DERIVES.contains(name)
                || [forms::DROP, forms::ERROR_DERIVE].contains(name);
            if !is_known {
                return Err(self
                    .source
                    .fault(at, format!("an unknown derive: `{name}`")));
            }
        }
        if names.contains(&"Clone") && !names.contains(&"Copy") && !self.is_of_copies(end) {
            let what = "`Clone` without `Copy`, which may fail in the kit and not in Rust";
            return Err(self.source.fault(at, what));
        }
        let kept = names
            .iter()
            .filter(|name| forms::KEPT_DERIVES.contains(name));
        let kept: Vec<&str> = kept.chain(added).copied().collect();
        if kept.is_empty() {
            self.cut_lines(at, end)?;
        } else if kept.len() != names.len() || !added.is_empty() {
            self.replace(at, end, format!("#[derive({})]", kept.join(", ")));
        }
        Ok(names.contains(&forms::ERROR_DERIVE))
    }

    /// Whether each field of the type that comes after this place can be copied.
    fn is_of_copies(&self, at: usize) -> bool {
        let of = self.type_after(at);
        forms::OF_COPIES
            .iter()
            .any(|it| it.0 == self.krate && Some(it.1) == of)
    }

    /// The name of the type that comes after this place.
    fn type_after(&self, at: usize) -> Option<&str> {
        let mut words = (at..).take_while(|at| self.source.at(*at) != "{");
        words
            .find(|at| ["struct", "enum"].contains(&self.source.at(*at)))
            .map(|at| self.source.at(at + 1))
    }

    /// The place after the visibility that begins here.
    pub(crate) fn after_visibility(&self, at: usize) -> Next {
        match self.source.at(at + 1) {
            "(" => Ok(self.source.partner(at + 1) + 1),
            _ => Ok(at + 1),
        }
    }

    /// The visibility that stands here, if one does.
    pub(crate) fn visibility(&mut self, at: usize, scope: Scope) -> Result<(), Fault> {
        if !self.source.has(at, &["pub", "("]) {
            return Ok(());
        }
        if self.source.has(at + 2, &["super", ")"]) {
            return Ok(());
        }
        if !self.source.has(at + 2, &["crate", ")"]) {
            return Err(self.source.fault(at, "an unknown form of visibility"));
        }
        if forms::OPENED
            .iter()
            .any(|file| self.source.path.ends_with(file))
        {
            return Ok(());
        }
        // Only right below the crate's module are its files what `super` says.
        let is_below =
            self.source.path.split("/src/").last().is_some_and(|file| {
                file != "lib.rt" && !file.contains('/') && scope != Scope::Module
            });
        if !is_below {
            return Err(self
                .source
                .fault(at, "`pub(crate)` in another place than a file of `src`"));
        }
        self.replace(at, at + 4, OWN_ONLY);
        Ok(())
    }
}
