//! Tests of command lines at the edges, on a command like those of the two programs.

use super::error::ErrorKind;
use super::*;
use crate::kit::alloc::AllocError;
use crate::kit::refusing::refuse;
use std::string::{String, ToString as _};

static NAMES: [&str; 2] = ["births", "handles"];

fn number<'a>(name: &'a str, last: i64, default: &'a str) -> Arg<'a> {
    let range = value_parser!(u32).range(1..=last);
    let number = Arg::new(name).long(name).action(ArgAction::Set);
    let number = number.value_name("N").value_parser(range);
    number.default_value(default).help("How many")
}

fn program() -> Result<Command<'static>, AllocError> {
    let names = Arg::new("show").long("show").value_name("WHAT");
    let names = names
        .value_parser(&NAMES)
        .default_value("births")
        .help("What");
    let run = Command::new("run").about("Runs").after_help("End of run.");
    let run = run.arg(number("workers", 64, "1"))?.arg(names)?;
    let replay = Command::new("replay")
        .about("Replays")
        .after_help("End of replay.");
    let replay = replay.arg(number("slots", i64::from(u32::MAX), "9"))?;
    let top = Command::new("program")
        .version("1.2")
        .about("Does it")
        .after_help("The end.");
    let top = top.no_binary_name(true).disable_help_subcommand(true);
    let top = top.subcommand_required(true).subcommand(replay)?;
    top.subcommand(run)?.bin_name("program")
}

/// What words give, or the text that refuses them.
fn said(words: &[&str]) -> Result<String, String> {
    match program().expect("memory").try_get_matches_from(words) {
        Ok(matches) => {
            let (name, inner) = matches.subcommand().expect("a subcommand");
            let values =
                ["slots", "workers", "show"].map(|name| inner.get_str(name).unwrap_or("-"));
            Ok(std::format!("{name} {}", values.join(" ")))
        }
        Err(error) => {
            assert_eq!(error.kind(), ErrorKind::Words);
            Err(error.to_string())
        }
    }
}

#[track_caller]
fn gives(words: &[&str], wanted: &str) {
    assert_eq!(said(words).as_deref(), Ok(wanted), "{words:?}");
}

/// The words are refused, with this text between `error: ` and the last line.
#[track_caller]
fn refuses(words: &[&str], wanted: &str) {
    let text = std::format!("error: {wanted}\n\nFor more information, try '--help'.\n");
    assert_eq!(said(words), Err(text), "{words:?}");
}

#[test]
fn options_have_their_values_or_their_defaults() {
    gives(&["run"], "run - 1 births");
    gives(&["run", "--workers", "64"], "run - 64 births");
    gives(
        &["run", "--show=handles", "--workers=+2"],
        "run - +2 handles",
    );
    gives(
        &["replay", "--slots", "4294967295"],
        "replay 4294967295 - -",
    );
    gives(&["replay", "--"], "replay 9 - -");
    let matches = program()
        .expect("memory")
        .try_get_matches_from(&["run", "--workers=+2"]);
    let matches = matches.expect("words");
    let (_, inner) = matches.subcommand().expect("a subcommand");
    assert_eq!(inner.get_one::<usize>("workers"), Some(2));
    assert_eq!(inner.get_one::<usize>("slots"), None);
    assert!(inner.subcommand().is_none());
}

#[test]
fn values_outside_of_their_range() {
    let of = "for '--workers <N>'";
    for (value, why) in [
        ("0", "0 is not in 1..=64"),
        ("65", "65 is not in 1..=64"),
        ("-", "invalid digit found in string"),
        ("", "cannot parse integer from empty string"),
        ("1.0", "invalid digit found in string"),
        (
            "9223372036854775808",
            "number too large to fit in target type",
        ),
    ] {
        refuses(
            &["run", "--workers", value],
            &std::format!("invalid value '{value}' {of}: {why}"),
        );
    }
    refuses(
        &["run", "--workers=-1"],
        &std::format!("invalid value '-1' {of}: -1 is not in 1..=64"),
    );
    refuses(
        &["run", "--show", "names"],
        "invalid value 'names' for '--show <WHAT>'\n  [possible values: births, handles]\n\n  tip: a similar value exists: 'handles'",
    );
    refuses(
        &["run", "--show="],
        "a value is required for '--show <WHAT>' but none was supplied\n  [possible values: births, handles]",
    );
    refuses(
        &["run", "--workers"],
        "a value is required for '--workers <N>' but none was supplied",
    );
    refuses(
        &["run", "--workers", "--"],
        "a value is required for '--workers <N>' but none was supplied",
    );
    refuses(
        &["run", "--workers=1", "--workers=2"],
        "the argument '--workers <N>' cannot be used multiple times\n\nUsage: program run [OPTIONS]",
    );
}

#[test]
fn words_that_are_not_expected() {
    refuses(
        &[],
        "'program' requires a subcommand but one was not provided\n  [subcommands: replay, run]\n\nUsage: program <COMMAND>",
    );
    refuses(
        &["x"],
        "unrecognized subcommand 'x'\n\nUsage: program <COMMAND>",
    );
    refuses(
        &["runn"],
        "unrecognized subcommand 'runn'\n\n  tip: a similar subcommand exists: 'run'\n\nUsage: program <COMMAND>",
    );
    refuses(
        &["run", "x"],
        "unexpected argument 'x' found\n\nUsage: program run [OPTIONS]",
    );
    refuses(
        &["run", "-x"],
        "unexpected argument '-x' found\n\nUsage: program run [OPTIONS]",
    );
    refuses(
        &["run", "-é"],
        "unexpected argument '-é' found\n\nUsage: program run [OPTIONS]",
    );
    refuses(
        &["run", "-"],
        "unexpected argument '-' found\n\nUsage: program run [OPTIONS]",
    );
    refuses(
        &["run", "--", "x"],
        "unexpected argument 'x' found\n\nUsage: program run [OPTIONS]",
    );
    refuses(
        &["run", "--workers", "1", "--x"],
        "unexpected argument '--x' found\n\nUsage: program run --workers <N>",
    );
    // The option that comes twice isn't shown.
    refuses(
        &["run", "--workers", "1", "--workers", "1", "--x"],
        "unexpected argument '--x' found\n\nUsage: program run [OPTIONS]",
    );
    refuses(
        &["--", "run"],
        "unexpected argument 'run' found\n\n  tip: subcommand 'run' exists; to use it, remove the '--' before it\n\nUsage: program <COMMAND>",
    );
    refuses(
        &["run", "--worker", "2"],
        "unexpected argument '--worker' found\n\n  tip: a similar argument exists: '--workers'\n\nUsage: program run --workers <N>",
    );
    refuses(
        &["--workers", "2", "run"],
        "unexpected argument '--workers' found\n\n  tip: 'run --workers' exists\n\nUsage: program <COMMAND>",
    );
    refuses(
        &["run", "--workers", "0", "x"],
        "unexpected argument 'x' found\n\nUsage: program run [OPTIONS]",
    );
    refuses(
        &["run", "--help=x"],
        "unexpected value 'x' for '--help' found; no more were expected\n\nUsage: program run --help",
    );
}

#[test]
fn help_is_a_text_of_its_own() {
    let wanted = "Does it\n\nUsage: program <COMMAND>\n\nCommands:\n  replay  Replays\n  run     Runs\n\nOptions:\n  -h, --help     Print help\n  -V, --version  Print version\n\nThe end.\n";
    for words in [["--help"], ["-h"], ["-hx"]] {
        assert_eq!(said(&words), Err(wanted.to_string()));
    }
    let wanted = "Runs\n\nUsage: program run [OPTIONS]\n\nOptions:\n      --workers <N>  How many [default: 1]\n      --show <WHAT>  What [default: births] [possible values: births, handles]\n  -h, --help         Print help\n\nEnd of run.\n";
    assert_eq!(
        said(&["run", "--show", "handles", "--help"]),
        Err(wanted.to_string())
    );
    refuses(
        &["run", "--workers", "--help"],
        "a value is required for '--workers <N>' but none was supplied",
    );
}

#[test]
fn the_version_is_that_of_the_program() {
    for words in [&["--version"][..], &["-V"], &["-Vh"], &["-V", "x"]] {
        assert_eq!(said(words), Err("program 1.2\n".to_string()));
    }
    refuses(
        &["--version=1"],
        "unexpected value '1' for '--version' found; no more were expected\n\nUsage: program --version <COMMAND>",
    );
    refuses(
        &["--versio"],
        "unexpected argument '--versio' found\n\n  tip: a similar argument exists: '--version'\n\nUsage: program --version <COMMAND>",
    );
    refuses(
        &["run", "--version"],
        "unexpected argument '--version' found\n\nUsage: program run [OPTIONS]",
    );
    refuses(
        &["run", "-V"],
        "unexpected argument '-V' found\n\nUsage: program run [OPTIONS]",
    );
}

#[test]
fn out_of_memory_is_an_error_of_its_kind() {
    assert!(refuse(|| program().is_err()));
    for words in [
        &["run"][..],
        &["x"],
        &["--help"],
        &["--version"],
        &["run", "--workers", "0"],
        &[],
    ] {
        let program = program().expect("memory");
        let error = refuse(|| program.try_get_matches_from(words)).expect_err("no memory");
        assert_eq!(
            (error.kind(), error.to_string()),
            (ErrorKind::OutOfMemory, "out of memory".to_string())
        );
    }
}

/// A command with an option that has no default.
fn with_file() -> Command<'static> {
    let file = Arg::new("from").long("from").action(ArgAction::Set);
    let file = file.value_name("FILE").help("Which file");
    let program = Command::new("program").about("Does it").after_help("End.");
    let program = program.arg(number("slots", 9, "3")).expect("memory");
    let program = program.arg(file).expect("memory");
    program.bin_name("program").expect("memory")
}

#[test]
fn an_option_without_a_default() {
    use super::parser::ValueSource::{CommandLine, DefaultValue};
    for (words, file, slots) in [
        (&[][..], None, DefaultValue),
        (&["--slots", "3"], None, CommandLine),
        (&["--from", "a b"], Some("a b"), DefaultValue),
        (&["--from=", "--slots=4"], Some(""), CommandLine),
    ] {
        let matches = with_file().try_get_matches_from(words).expect("words");
        assert_eq!(matches.get_str("from"), file, "{words:?}");
        assert_eq!(
            matches.value_source("from"),
            file.map(|_| CommandLine),
            "{words:?}"
        );
        assert_eq!(matches.value_source("slots"), Some(slots), "{words:?}");
        assert_eq!(matches.value_source("other"), None);
    }
    let help = with_file().try_get_matches_from(&["-h"]).expect_err("help");
    let wanted = "Does it\n\nUsage: program [OPTIONS]\n\nOptions:\n      --slots <N>    How many [default: 3]\n      --from <FILE>  Which file\n  -h, --help         Print help\n\nEnd.\n";
    assert_eq!(help.to_string(), wanted);
    let none = with_file()
        .try_get_matches_from(&["--from"])
        .expect_err("no value");
    let wanted = "error: a value is required for '--from <FILE>' but none was supplied\n\nFor more information, try '--help'.\n";
    assert_eq!(none.to_string(), wanted);
}

#[test]
fn an_error_of_the_caller() {
    let mut program = with_file();
    let error = program.error(ErrorKind::ArgumentConflict, "not both");
    let error = error.expect("memory");
    let wanted =
        "error: not both\n\nUsage: program [OPTIONS]\n\nFor more information, try '--help'.\n";
    assert_eq!(
        (error.kind(), error.to_string()),
        (ErrorKind::ArgumentConflict, wanted.to_string())
    );
    let refused = refuse(|| with_file_error(&mut program)).expect_err("no memory");
    assert_eq!(refused.kind(), ErrorKind::OutOfMemory);
}

fn with_file_error(program: &mut Command<'_>) -> Result<(), Error> {
    Err(program.error(ErrorKind::ArgumentConflict, "not both")?)
}
