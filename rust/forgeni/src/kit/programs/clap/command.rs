//! Commands, and the texts that they show.

use super::argument::{add_list, Arg};
use super::error::ErrorKind;
use super::similar::similar;
use super::Error;
use crate::kit::alloc::AllocError;
use crate::kit::programs::string::String;
use crate::kit::vec::FallibleVec;
use ::alloc::vec::Vec;

/// A program, or a subcommand of it.
#[derive(Debug)]
pub struct Command<'a> {
    pub(super) name: &'a str,
    /// How it is written in texts: the program's name, and that of the subcommand.
    pub(super) path: String,
    about: &'a str,
    version: Option<&'a str>,
    after_help: &'a str,
    pub(super) arguments: Vec<Arg<'a>>,
    pub(super) subcommands: Vec<Command<'a>>,
}

/// A flag that ends the reading of the words, and asks for a text.
#[derive(Clone, Copy, Debug)]
pub(super) enum Flag {
    Help,
    Version,
}

impl Flag {
    /// How it is written after two dashes.
    pub(super) const fn long(self) -> &'static str {
        match self {
            Flag::Help => "help",
            Flag::Version => "version",
        }
    }

    /// How it is written after one dash.
    pub(super) const fn short(self) -> char {
        match self {
            Flag::Help => 'h',
            Flag::Version => 'V',
        }
    }
}

impl<'a> Command<'a> {
    /// The contract: a command of this name, without options and subcommands.
    pub const fn new(name: &'a str) -> Self {
        Command {
            name,
            path: String::new(),
            about: "",
            version: None,
            after_help: "",
            arguments: Vec::new(),
            subcommands: Vec::new(),
        }
    }

    /// The contract: the first line of its help.
    pub fn about(self, about: &'a str) -> Self {
        Command { about, ..self }
    }

    /// The contract: what `--version` says of it. Without one it has no such flag.
    pub fn version(self, version: &'a str) -> Self {
        let version = Some(version);
        Command { version, ..self }
    }

    /// The contract: the end of its help.
    pub fn after_help(self, after_help: &'a str) -> Self {
        Command { after_help, ..self }
    }

    /// Here the words never begin with the program's name.
    pub fn no_binary_name(self, _is: bool) -> Self {
        self
    }

    /// Here no command has a subcommand `help`.
    pub fn disable_help_subcommand(self, _is: bool) -> Self {
        self
    }

    /// Here the words have to name a subcommand wherever there are some.
    pub fn subcommand_required(self, _is: bool) -> Self {
        self
    }

    /// The contract: it has the option too.
    pub fn arg(mut self, argument: Arg<'a>) -> Result<Self, AllocError> {
        self.arguments.push_fallibly(argument)?;
        Ok(self)
    }

    /// The contract: it has the subcommand too.
    pub fn subcommand(mut self, subcommand: Command<'a>) -> Result<Self, AllocError> {
        self.subcommands.push_fallibly(subcommand)?;
        Ok(self)
    }

    /// The contract: texts have this name for the program. It comes after all subcommands.
    pub fn bin_name(mut self, name: &str) -> Result<Self, AllocError> {
        self.path = String::from_str(name)?;
        for subcommand in &mut self.subcommands {
            subcommand.path = super::super::format!("{name} {}", subcommand.name)?;
        }
        Ok(self)
    }

    /// The contract: an error of this kind, with this text.
    pub fn error(&mut self, kind: ErrorKind, fault: &str) -> Result<Error, AllocError> {
        Ok(self.fault(fault, &self.usage()?).of_kind(kind))
    }

    /// The error with this text, with these lines on how the command is used.
    pub(super) fn fault(&self, fault: &str, usage: &str) -> Error {
        let space = if usage.is_empty() { "" } else { "\n\n" };
        let more = "For more information, try '--help'.";
        match super::super::format!("error: {fault}{space}{usage}\n\n{more}\n") {
            Ok(text) => Error::of(text),
            Err(refused) => refused.into(),
        }
    }

    /// How it is used.
    pub(super) fn usage(&self) -> Result<String, AllocError> {
        let rest = if self.subcommands.is_empty() {
            "[OPTIONS]"
        } else {
            "<COMMAND>"
        };
        super::super::format!("Usage: {} {rest}", self.path)
    }

    /// How it is used with these options, and with the one of this name, or with that flag.
    pub(super) fn usage_with(
        &self,
        used: impl Iterator<Item = usize>,
        name: Option<&str>,
    ) -> Result<String, AllocError> {
        let mut options = Vec::new();
        let named = self.arguments.iter().position(|it| Some(it.name) == name);
        for number in used.chain(named) {
            if !options.contains(&number) {
                options.push_fallibly(number)?;
            }
        }
        let flag = self.flags().find(|it| Some(it.long()) == name);
        if options.is_empty() && flag.is_none() {
            return self.usage();
        }
        let mut usage = super::super::format!("Usage: {}", self.path)?;
        for number in options {
            write!(usage, " {}", self.arguments[number])?;
        }
        if let Some(flag) = flag {
            write!(usage, " --{}", flag.long())?;
        }
        usage.push_str(if self.subcommands.is_empty() {
            ""
        } else {
            " <COMMAND>"
        })?;
        Ok(usage)
    }

    /// The option that is most like a name, if one is like it.
    pub(super) fn option_like(&self, name: &str) -> Result<Option<&str>, AllocError> {
        let options = self.arguments.iter().map(|it| it.name);
        let flags = self.flags().map(|it| -> &'a str { it.long() });
        let found = similar(name, options.chain(flags))?;
        Ok(found.last().copied())
    }

    /// Adds the subcommands that are like a word.
    pub(super) fn add_subcommands_like(
        &self,
        text: &mut String,
        word: &str,
    ) -> Result<(), AllocError> {
        let names = similar(word, self.subcommands.iter().map(|it| it.name))?;
        match names.len() {
            0 => return Ok(()),
            1 => text.push_str("\n\n  tip: a similar subcommand exists: '")?,
            _ => text.push_str("\n\n  tip: some similar subcommands exist: '")?,
        }
        add_list(text, names.iter().copied(), "', '")?;
        text.push_str("'")
    }

    /// The names of the subcommands.
    pub(super) fn add_subcommands(&self, text: &mut String) -> Result<(), AllocError> {
        add_list(text, self.subcommands.iter().map(|it| it.name), ", ")
    }

    /// The flags that it has, in the order of the help.
    pub(super) fn flags(&self) -> impl Iterator<Item = Flag> {
        let version = self.version.map(|_| Flag::Version);
        [Flag::Help].into_iter().chain(version)
    }

    /// What a flag asks for, which is answered in the place of an error.
    pub(super) fn answer(&self, flag: Flag) -> Error {
        let text = match flag {
            Flag::Help => self.help_text(),
            Flag::Version => self.version_text(),
        };
        match text {
            Ok(text) => Error::of(text),
            Err(refused) => refused.into(),
        }
    }

    fn version_text(&self) -> Result<String, AllocError> {
        super::super::format!("{} {}\n", self.name, self.version.unwrap_or(""))
    }

    fn help_text(&self) -> Result<String, AllocError> {
        let mut text = super::super::format!("{}\n\n{}\n\n", self.about, self.usage()?)?;
        if !self.subcommands.is_empty() {
            text.push_str("Commands:\n")?;
            let widths = self.subcommands.iter().map(|it| it.name.len());
            let width = widths.max().unwrap_or(0);
            for it in &self.subcommands {
                write!(text, "  {:width$}  {}", it.name, it.about)?;
                text.push_str("\n")?;
            }
            text.push_str("\n")?;
        }
        text.push_str("Options:\n")?;
        let head = |it: &Arg<'_>| super::super::format!("      {it}");
        let head_of_flag = |it: Flag| super::super::format!("  -{}, --{}", it.short(), it.long());
        let mut width = 0;
        for it in &self.arguments {
            width = width.max(head(it)?.len());
        }
        for it in self.flags() {
            width = width.max(head_of_flag(it)?.len());
        }
        for it in &self.arguments {
            write!(text, "{:width$}  ", head(it)?.as_str())?;
            it.add_help(&mut text)?;
            text.push_str("\n")?;
        }
        for it in self.flags() {
            let head = head_of_flag(it)?;
            writeln!(text, "{:width$}  Print {}", head.as_str(), it.long())?;
        }
        write!(text, "\n{}\n", self.after_help)?;
        Ok(text)
    }
}
