//! Words, read one after the other.

use super::command::{Command, Flag};
use super::matches::ArgMatches;
use super::Error;
use crate::kit::alloc::AllocError;
use crate::kit::programs::string::{AsStr, String};
use crate::kit::vec::CollectIn;
use ::alloc::vec::Vec;

/// What a word is.
enum Word<'w> {
    /// `--`: no word after it is an option.
    Dashes,
    /// `--NAME` or `--NAME=VALUE`.
    Long(&'w str, Option<&'w str>),
    /// `-X`, with the letter.
    Short(char),
    /// One of the two with a flag of the command, and the value of the first form.
    Flag(Flag, Option<&'w str>),
    /// Another word.
    Plain,
}

impl<'w> Word<'w> {
    /// What the word is for this command.
    fn of(word: &'w str, command: &Command<'_>) -> Self {
        let found = Word::of_letters(word);
        let flag = command.flags().find(|it| match found {
            Word::Long(name, _) => name == it.long(),
            Word::Short(letter) => letter == it.short(),
            _ => false,
        });
        match (flag, found) {
            (Some(flag), Word::Long(_, value)) => Word::Flag(flag, value),
            (Some(flag), _) => Word::Flag(flag, None),
            (None, found) => found,
        }
    }

    fn of_letters(word: &'w str) -> Self {
        if word == "--" {
            return Word::Dashes;
        }
        if let Some(long) = word.strip_prefix("--") {
            return match long.split_once('=') {
                Some((name, value)) => Word::Long(name, Some(value)),
                None => Word::Long(long, None),
            };
        }
        match word.strip_prefix('-').and_then(|rest| rest.chars().next()) {
            Some(letter) => Word::Short(letter),
            None => Word::Plain,
        }
    }
}

impl<'a> Command<'a> {
    /// The contract: what the words give. An `Err` is of memory, or of the first fault in the
    /// words, or they ask for help.
    pub fn try_get_matches_from<S: AsStr>(self, words: &'a [S]) -> Result<ArgMatches<'a>, Error> {
        let words: Vec<&'a str> = words.iter().map(AsStr::as_str).collect_in()?;
        self.read(&words)
    }

    fn read(&self, words: &[&'a str]) -> Result<ArgMatches<'a>, Error> {
        let mut matches = ArgMatches::of(self)?;
        // The option whose value is next.
        let mut pending = None;
        for (at, word) in words.iter().enumerate() {
            let rest = &words[at + 1..];
            match Word::of(word, self) {
                Word::Dashes => {
                    // After it nothing may come, and an option that waits for its value has none.
                    if let Some(next) = rest.first() {
                        return Err(self.unexpected_after_dashes(next)?);
                    }
                }
                Word::Flag(flag, Some(value)) => {
                    return Err(self.flag_with(flag, value, &matches)?);
                }
                Word::Flag(flag, None) => {
                    self.end(&mut matches, pending, None)?;
                    return Err(self.answer(flag));
                }
                Word::Long(name, value) => {
                    let Some(number) = self.option(name) else {
                        return Err(self.unknown(name, rest, &matches, None)?);
                    };
                    self.end(&mut matches, pending.take(), None)?;
                    match value {
                        Some(_) => self.end(&mut matches, Some(number), value)?,
                        None => pending = Some(number),
                    }
                }
                Word::Short(letter) => return Err(self.unexpected_letter(letter)?),
                Word::Plain if pending.is_some() => {
                    // The value is tested later than the next word, so that word's fault comes
                    // first.
                    if let Some(fault) = self.fault_of_next(rest, &matches, pending)? {
                        return Err(fault);
                    }
                    self.end(&mut matches, pending.take(), Some(word))?;
                }
                Word::Plain => {
                    let Some(found) = self.subcommands.iter().find(|it| it.name == *word) else {
                        return Err(self.unexpected(word)?);
                    };
                    matches.choose(found.name, found.read(rest)?)?;
                    return Ok(matches);
                }
            }
        }
        self.end(&mut matches, pending, None)?;
        if self.subcommands.is_empty() {
            return Ok(matches);
        }
        Err(self.without_subcommand()?)
    }

    /// The number of the option with this name.
    fn option(&self, name: &str) -> Option<usize> {
        self.arguments.iter().position(|it| it.name == name)
    }

    /// Ends an option, if there is one, with its value.
    fn end(
        &self,
        matches: &mut ArgMatches<'a>,
        number: Option<usize>,
        value: Option<&'a str>,
    ) -> Result<(), Error> {
        let Some(number) = number else {
            return Ok(());
        };
        let argument = &self.arguments[number];
        let Some(value) = value else {
            return Err(self.fault(&argument.fault_of_none()?, ""));
        };
        if matches.is_used(number) {
            let fault =
                super::super::format!("the argument '{argument}' cannot be used multiple times")?;
            return Err(self.fault(&fault, &self.usage()?));
        }
        if let Some(fault) = argument.fault_of(value)? {
            return Err(self.fault(&fault, ""));
        }
        Ok(matches.set(number, value)?)
    }

    /// The fault of the word after a value, if that is none that ends the value.
    fn fault_of_next(
        &self,
        words: &[&str],
        matches: &ArgMatches<'a>,
        used: Option<usize>,
    ) -> Result<Option<Error>, AllocError> {
        let Some((word, rest)) = words.split_first() else {
            return Ok(None);
        };
        let fault = match Word::of(word, self) {
            Word::Dashes => match rest.first() {
                Some(next) => self.unexpected_after_dashes(next)?,
                None => return Ok(None),
            },
            Word::Flag(flag, Some(value)) => self.flag_with(flag, value, matches)?,
            Word::Flag(_, None) => return Ok(None),
            Word::Long(name, _) if self.option(name).is_some() => return Ok(None),
            Word::Long(name, _) => self.unknown(name, rest, matches, used)?,
            Word::Short(letter) => self.unexpected_letter(letter)?,
            Word::Plain => self.unexpected(word)?,
        };
        Ok(Some(fault))
    }

    /// A flag has no value.
    fn flag_with(
        &self,
        flag: Flag,
        value: &str,
        matches: &ArgMatches<'a>,
    ) -> Result<Error, AllocError> {
        let flag = flag.long();
        let usage = self.usage_with(matches.used(), Some(flag))?;
        let what = "found; no more were expected";
        let fault = super::super::format!("unexpected value '{value}' for '--{flag}' {what}")?;
        Ok(self.fault(&fault, &usage))
    }

    fn unexpected_letter(&self, letter: char) -> Result<Error, AllocError> {
        let fault = super::super::format!("unexpected argument '-{letter}' found")?;
        Ok(self.fault(&fault, &self.usage()?))
    }

    fn unexpected_after_dashes(&self, word: &str) -> Result<Error, AllocError> {
        let mut fault = super::super::format!("unexpected argument '{word}' found")?;
        if self.subcommands.iter().any(|it| it.name == word) {
            let what = "to use it, remove the '--' before it";
            write!(fault, "\n\n  tip: subcommand '{word}' exists; {what}")?;
            return Ok(self.fault(&fault, &self.usage()?));
        }
        self.unexpected(word)
    }

    /// The fault of a word that is neither an option nor a subcommand.
    fn unexpected(&self, word: &str) -> Result<Error, AllocError> {
        let fault = if self.subcommands.is_empty() {
            super::super::format!("unexpected argument '{word}' found")?
        } else {
            let mut fault = super::super::format!("unrecognized subcommand '{word}'")?;
            self.add_subcommands_like(&mut fault, word)?;
            fault
        };
        Ok(self.fault(&fault, &self.usage()?))
    }

    /// The fault of an option that isn't there: with one that is like it, or with a subcommand of
    /// the words after it that has one like it.
    fn unknown(
        &self,
        name: &str,
        rest: &[&str],
        matches: &ArgMatches<'a>,
        pending: Option<usize>,
    ) -> Result<Error, AllocError> {
        let mut fault = super::super::format!("unexpected argument '--{name}' found")?;
        let like = self.option_like(name)?;
        // An option that comes twice isn't shown.
        let before = matches.used().filter(|it| Some(*it) != pending);
        let pending = pending.filter(|it| !matches.is_used(*it));
        let usage = self.usage_with(before.chain(pending), like)?;
        match like {
            Some(option) => write!(fault, "\n\n  tip: a similar argument exists: '--{option}'")?,
            None => self.add_option_of_subcommand(&mut fault, name, rest)?,
        }
        Ok(self.fault(&fault, &usage))
    }

    /// Adds the option like this one that the first subcommand of the words has, of those that have
    /// one.
    fn add_option_of_subcommand(
        &self,
        fault: &mut String,
        name: &str,
        rest: &[&str],
    ) -> Result<(), AllocError> {
        let named = |word: &&str| self.subcommands.iter().find(|it| it.name == *word);
        for subcommand in rest.iter().filter_map(named) {
            if let Some(option) = subcommand.option_like(name)? {
                let command = subcommand.name;
                return write!(fault, "\n\n  tip: '{command} --{option}' exists");
            }
        }
        Ok(())
    }

    fn without_subcommand(&self) -> Result<Error, AllocError> {
        let mut fault = super::super::format!(
            "'{}' requires a subcommand but one was not provided",
            self.path
        )?;
        fault.push_str("\n  [subcommands: ")?;
        self.add_subcommands(&mut fault)?;
        fault.push_str("]")?;
        Ok(self.fault(&fault, &self.usage()?))
    }
}
