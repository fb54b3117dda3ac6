//! The options that the drawing commands have in common with the proved ones.

use crate::allocator::Limits;
use crate::cli::{open_named, NameFault};
use crate::kit::alloc::AllocError;
use crate::kit::programs::clap::{numbers, Arg, ArgMatches, Command, Error};
use crate::kit::programs::rt::HostRuntime;
use crate::kit::programs::string::AsStr;
use std::fs::File;

/// A command with the options `--slots` and `--generations`, as `spawnrun replay` and `tracecheck`
/// have them.
pub(super) fn with_limits(command: Command<'_>) -> Result<Command<'_>, AllocError> {
    let slots = number(
        "slots",
        u32::MAX,
        "4294967295",
        "How many slots may be made",
    );
    let generations = number(
        "generations",
        (1 << 31) - 1,
        "2147483647",
        "The last generation of a slot",
    );
    command.arg(slots)?.arg(generations)
}

/// The limits that words ask such a command for.
pub(super) fn limits_in(command: Command<'_>, words: &[impl AsStr]) -> Result<Limits, Error> {
    Ok(limits_of(&command.try_get_matches_from(words)?))
}

/// The limits that these options give.
pub(super) fn limits_of(options: &ArgMatches<'_>) -> Limits {
    let number = |name| options.get_one::<u32>(name).unwrap_or(1);
    let limits = Limits::new(number("slots"), number("generations"));
    limits.unwrap_or(Limits::GREATEST)
}

/// The file that the last word names, by the rule of the proved programs: the words before it are a
/// command line, all words aren't, and it is no option. An `Err` says why that file isn't read.
pub(super) fn named_file<W: AsStr>(
    rt: HostRuntime,
    words: &[W],
    is_line: impl Fn(&[W]) -> bool,
) -> Result<Option<File>, NameFault> {
    let Some((name, before)) = words.split_last() else {
        return Ok(None);
    };
    if name.as_str().starts_with('-') || is_line(words) || !is_line(before) {
        return Ok(None);
    }
    open_named(&rt, name.as_str()).map(Some)
}

fn number<'a>(name: &'a str, most: u32, default: &'a str, help: &'a str) -> Arg<'a> {
    Arg::new(name)
        .long(name)
        .value_name("N")
        .value_parser(numbers().range(1..=i64::from(most)))
        .default_value(default)
        .help(help)
}

#[cfg(test)]
mod tests {
    use super::*;

    fn limits(words: &[&str]) -> Option<Limits> {
        let command = with_limits(Command::new("draw")).expect("memory");
        limits_in(command, words).ok()
    }

    #[test]
    fn each_option_is_the_limit_of_its_name() {
        assert_eq!(limits(&[]), Some(Limits::GREATEST));
        assert_eq!(
            limits(&["--slots", "3", "--generations=2"]),
            Limits::new(3, 2)
        );
        assert_eq!(limits(&["--generations", "1"]), Limits::new(u32::MAX, 1));
        assert_eq!(limits(&["--slots", "4294967295"]), Some(Limits::GREATEST));
        for words in [
            ["--slots", "0"],
            ["--generations", "2147483648"],
            ["--slots", "a"],
        ] {
            assert_eq!(limits(&words), None);
        }
    }

    /// The last word names a file only where it is one too many.
    #[test]
    fn a_file_is_named_by_the_last_word() {
        let file = concat!(env!("CARGO_MANIFEST_DIR"), "/Cargo.toml");
        let is_named = |words: &[&str]| {
            let is_line = |words: &[&str]| limits(words).is_some();
            named_file(HostRuntime, words, is_line).map(|file| file.is_some())
        };
        assert_eq!(is_named(&[file]), Ok(true));
        assert_eq!(is_named(&["--slots", "3", file]), Ok(true));
        let others: [&[&str]; 5] = [
            &[],
            &["--slots", file],
            &[file, "--slots"],
            &[file, file],
            &["--slots", "3"],
        ];
        for words in others {
            assert_eq!(is_named(words), Ok(false), "{words:?}");
        }
        let folder = env!("CARGO_MANIFEST_DIR");
        assert_eq!(is_named(&["/no/such/file"]), Err(NameFault::Missing));
        assert_eq!(is_named(&["--slots", "3", folder]), Err(NameFault::Folder));
        assert_eq!(is_named(&["a\0b"]), Err(NameFault::Closed));
    }
}
