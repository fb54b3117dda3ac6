// Made of crates/ent_script/src/names.rt by rust/erase. It isn't edited by hand.

use alloc::vec::Vec;
use crate::kit::vec::FallibleVec;
use crate::handles::OutOfMemory;
use crate::kit::collections::BTreeMap;

/// Whether the text is 1 to 32 letters from `a` to `z`, digits and `_`.
#[inline]
pub(super) fn is_name(text: &str) -> bool
    // ensures { result ≡ is_name text.now }
{
    1 <= text.len() && text.len() <= 32 && are_name_bytes(text.as_bytes())
}

#[inline]
fn are_name_bytes(bytes: &[u8]) -> bool
    // ensures { result ≡ list_all is_name_byte bytes.now }
{
    bytes.iter().all(|byte| byte.is_ascii_lowercase() || byte.is_ascii_digit() || *byte == b'_')
}

/// Different names in order, each found in logarithmic time. The last one is found at once, since
/// most names are used soon after they are bound.
pub(super) struct Names<'a> {
    list: Vec<&'a str>,
    numbers: BTreeMap<&'a str, usize>,
    last: Option<&'a str>,
}

impl<'a> Names<'a> {
    /// No names. It doesn't allocate.
    #[inline]
    pub(super) fn new() -> Self
        // ensures { result ≡ [] }
    {
        Names {
            list: Vec::new(),
            numbers: BTreeMap::new(),
            last: None,
        }
    }

    /// How many there are.
    #[inline]
    pub(super) fn len(&self) -> usize
        // ensures { result ≡ length self.now }
    {
        self.list.len()
    }

    /// The number of a name.
    #[inline]
    pub(super) fn find(&self, name: &str) -> Option<usize>
        // ensures value { result ≡ number_among name.now self.now }
        // ensures within { IfSome result (λ number. number < length self.now) }
    {
        if self.is_last(name) {
            return Some(self.list.len() - 1);
        }
        self.numbers.get(name).copied()
    }

    /// Whether it is the last name.
    #[inline]
    fn is_last(&self, name: &str) -> bool
        // ensures last { IsTrue result → number_among name.now self.now ≡ Some (length self.now - 1) }
        // ensures some { IsTrue result → 0 < length self.now }
    {
        match self.last {
            Some(last) => last == name,
            None => false,
        }
    }

    /// Puts the name last, unless it is there.
    #[inline]
    pub(super) fn add(&mut self, name: &'a str) -> Result<(), OutOfMemory>
        // ensures ok { OnOk result (self.new ≡ with_name self.old name.now) }
    {
        if self.is_last(name) || self.numbers.contains_key(name) {
            return Ok(());
        }
        self.list.reserve_fallibly(1)?;
        let number = self.list.as_slice().len();
        self.numbers.insert(name, number)?;
        self.list.push_reserved(name);
        self.last = Some(name);
        Ok(())
    }

    /// The names.
    #[inline]
    pub(super) fn as_slice(&self) -> &[&'a str]
        // ensures { map (λ name. name.now) result.now ≡ self.now }
    {
        &self.list
    }
}
