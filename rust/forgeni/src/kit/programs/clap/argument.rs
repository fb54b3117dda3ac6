//! Options.

use crate::kit::alloc::AllocError;
use crate::kit::programs::clap::similar::similar;
use crate::kit::programs::string::String;
use core::fmt;
use core::ops::RangeInclusive;

/// A range of numbers.
#[derive(Clone, Copy, Debug)]
pub struct Numbers {
    first: i64,
    last: i64,
}

/// All numbers.
pub const fn numbers() -> Numbers {
    Numbers {
        first: i64::MIN,
        last: i64::MAX,
    }
}

impl Numbers {
    /// The contract: the numbers of the range.
    pub fn range(self, range: RangeInclusive<i64>) -> Self {
        Numbers {
            first: *range.start(),
            last: *range.end(),
        }
    }
}

/// What reads the values of a type.
macro_rules! value_parser {
    (u32) => {
        $crate::kit::programs::clap::numbers()
    };
}
pub(crate) use value_parser;

/// Which values an option takes.
#[derive(Clone, Copy, Debug)]
pub enum Values<'a> {
    /// All texts.
    Texts,
    /// Whole numbers of a range.
    Numbers(Numbers),
    /// These names.
    Names(&'a [&'a str]),
}

impl From<Numbers> for Values<'_> {
    fn from(numbers: Numbers) -> Self {
        Values::Numbers(numbers)
    }
}

impl<'a> From<&'a [&'a str]> for Values<'a> {
    fn from(names: &'a [&'a str]) -> Self {
        Values::Names(names)
    }
}

impl<'a, const N: usize> From<&'a [&'a str; N]> for Values<'a> {
    fn from(names: &'a [&'a str; N]) -> Self {
        Values::Names(names)
    }
}

/// What an option does.
#[derive(Clone, Copy, Debug)]
pub enum ArgAction {
    /// It takes one value.
    Set,
}

/// An option with a value.
#[derive(Clone, Copy, Debug)]
pub struct Arg<'a> {
    pub(super) name: &'a str,
    pub(super) value_name: &'a str,
    pub(super) values: Values<'a>,
    pub(super) default: Option<&'a str>,
    pub(super) help: &'a str,
}

impl<'a> Arg<'a> {
    /// The contract: an option of this name.
    pub const fn new(name: &'a str) -> Self {
        Arg {
            name,
            value_name: name,
            values: Values::Texts,
            default: None,
            help: "",
        }
    }

    /// Each option here takes one value.
    pub const fn action(self, _action: ArgAction) -> Self {
        self
    }

    /// The contract: it is written with two dashes and this name.
    pub const fn long(self, name: &'a str) -> Self {
        Arg { name, ..self }
    }

    /// The contract: texts have this name for its value.
    pub const fn value_name(self, value_name: &'a str) -> Self {
        Arg { value_name, ..self }
    }

    /// The contract: it takes these values alone.
    pub fn value_parser(self, values: impl Into<Values<'a>>) -> Self {
        let values = values.into();
        Arg { values, ..self }
    }

    /// The contract: it has this value where none is given.
    pub const fn default_value(self, default: &'a str) -> Self {
        let default = Some(default);
        Arg { default, ..self }
    }

    /// The contract: what the help says of it.
    pub const fn help(self, help: &'a str) -> Self {
        Arg { help, ..self }
    }

    /// What is wrong with a value, if something is.
    pub(super) fn fault_of(&self, value: &str) -> Result<Option<String>, AllocError> {
        match self.values {
            Values::Texts => Ok(None),
            Values::Numbers(numbers) => self.fault_of_number(numbers, value),
            Values::Names(names) if names.contains(&value) => Ok(None),
            Values::Names(names) => self.fault_of_name(names, value).map(Some),
        }
    }

    /// What is wrong if it has no value.
    pub(super) fn fault_of_none(&self) -> Result<String, AllocError> {
        let mut fault =
            super::super::format!("a value is required for '{self}' but none was supplied")?;
        self.add_names(&mut fault)?;
        Ok(fault)
    }

    fn fault_of_number(&self, range: Numbers, value: &str) -> Result<Option<String>, AllocError> {
        let Numbers { first, last } = range;
        let mut fault = super::super::format!("invalid value '{value}' for '{self}': ")?;
        match value.parse::<i64>() {
            Ok(number) if (first..=last).contains(&number) => return Ok(None),
            Ok(number) => write!(fault, "{number} is not in {first}..={last}")?,
            Err(error) => write!(fault, "{error}")?,
        }
        Ok(Some(fault))
    }

    fn fault_of_name(&self, names: &[&str], value: &str) -> Result<String, AllocError> {
        let mut fault = if value.is_empty() {
            self.fault_of_none()?
        } else {
            let mut fault = super::super::format!("invalid value '{value}' for '{self}'")?;
            self.add_names(&mut fault)?;
            fault
        };
        if let Some(name) = similar(value, names.iter().copied())?.last() {
            write!(fault, "\n\n  tip: a similar value exists: '{name}'")?;
        }
        Ok(fault)
    }

    /// Adds a line with the names that it takes, if it takes names.
    fn add_names(&self, text: &mut String) -> Result<(), AllocError> {
        match self.values {
            Values::Texts | Values::Numbers(_) => Ok(()),
            Values::Names(names) => {
                text.push_str("\n  [possible values: ")?;
                add_list(text, names.iter().copied(), ", ")?;
                text.push_str("]")
            }
        }
    }

    /// Adds what the help says of it.
    pub(super) fn add_help(&self, text: &mut String) -> Result<(), AllocError> {
        text.push_str(self.help)?;
        if let Some(default) = self.default {
            write!(text, " [default: {default}]")?;
        }
        if let Values::Names(names) = self.values {
            text.push_str(" [possible values: ")?;
            add_list(text, names.iter().copied(), ", ")?;
            text.push_str("]")?;
        }
        Ok(())
    }
}

/// How it is written in texts.
impl fmt::Display for Arg<'_> {
    fn fmt(&self, f: &mut fmt::Formatter<'_>) -> fmt::Result {
        write!(f, "--{} <{}>", self.name, self.value_name)
    }
}

/// Adds these words, and this text between each two.
pub(super) fn add_list<'n>(
    text: &mut String,
    words: impl Iterator<Item = &'n str>,
    between: &str,
) -> Result<(), AllocError> {
    for (at, word) in words.enumerate() {
        if at > 0 {
            text.push_str(between)?;
        }
        text.push_str(word)?;
    }
    Ok(())
}
