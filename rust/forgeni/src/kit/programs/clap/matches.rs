//! What words give.

use super::argument::Arg;
use super::command::Command;
use super::Error;
use crate::kit::alloc::AllocError;
use crate::kit::vec::FallibleVec;
use ::alloc::vec::Vec;

/// Where an option has its value from.
#[derive(Clone, Copy, Debug, PartialEq, Eq)]
pub enum ValueSource {
    /// It is the default.
    DefaultValue,
    /// It is in the words.
    CommandLine,
}

/// What words give: the values of the options, and the subcommand with its own.
#[derive(Debug)]
pub struct ArgMatches<'a> {
    values: Vec<(&'a str, Option<&'a str>)>,
    /// The numbers of the options that are in the words, in their order.
    used: Vec<usize>,
    /// The subcommand's name and what its words give. There is one at most.
    subcommand: Vec<(&'a str, ArgMatches<'a>)>,
}

impl<'a> ArgMatches<'a> {
    /// What no words give.
    pub(super) fn of(command: &Command<'a>) -> Result<Self, AllocError> {
        let mut values = Vec::with_capacity_fallibly(command.arguments.len())?;
        for Arg { name, default, .. } in &command.arguments {
            values.push_fallibly((*name, *default))?;
        }
        Ok(ArgMatches {
            values,
            used: Vec::new(),
            subcommand: Vec::new(),
        })
    }

    pub(super) fn used(&self) -> impl Iterator<Item = usize> {
        self.used.iter().copied()
    }

    pub(super) fn is_used(&self, number: usize) -> bool {
        self.used.contains(&number)
    }

    /// Gives the option its value.
    pub(super) fn set(&mut self, number: usize, value: &'a str) -> Result<(), AllocError> {
        self.used.push_fallibly(number)?;
        self.values[number].1 = Some(value);
        Ok(())
    }

    /// Gives what the words after a subcommand give.
    pub(super) fn choose(&mut self, name: &'a str, inner: ArgMatches<'a>) -> Result<(), Error> {
        Ok(self.subcommand.push_fallibly((name, inner))?)
    }

    /// The contract: the subcommand that the words name, with what its words give.
    pub fn subcommand(&self) -> Option<(&'a str, &ArgMatches<'a>)> {
        let (name, inner) = self.subcommand.first()?;
        Some((*name, inner))
    }

    /// The contract: the value of the option with this name, which is its default if the words give
    /// none.
    pub fn get_str(&self, name: &str) -> Option<&'a str> {
        self.values.iter().find(|it| it.0 == name)?.1
    }

    /// The contract: where that value comes from, if there is one.
    pub fn value_source(&self, name: &str) -> Option<ValueSource> {
        let number = self.values.iter().position(|it| it.0 == name)?;
        self.values[number].1?;
        Some(if self.is_used(number) {
            ValueSource::CommandLine
        } else {
            ValueSource::DefaultValue
        })
    }

    /// The contract: that value as a number. Its range is that of the option.
    pub fn get_one<T: core::str::FromStr>(&self, name: &str) -> Option<T> {
        self.get_str(name)?.parse().ok()
    }
}
