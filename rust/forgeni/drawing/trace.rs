//! `tracecheck --draw FILE`: a picture of the run in which a trace differs.
//!
//! The check itself is that of the proved program, which is started once more with the other words.
//! It reads what this process has read, writes to the same streams, and its exit status is the one
//! of this process too. The picture comes after it. If the check is killed, the status is 4, the
//! error stream says so, and there is no picture.

use super::followed::Followed;
use super::options::{limits_of, named_file, with_limits};
use super::picture::{Caption, Picture};
use super::timeline::{Undrawn, MOST_EVENTS, MOST_SLOTS};
use super::traced::BrokenRun;
use crate::allocator::Limits;
use crate::cli::{read_all, refuse_file, refuse_words};
use crate::cli::{Counted, InputFault};
use crate::kit::programs::clap::{Arg, Command};
use crate::kit::programs::env;
use crate::kit::programs::rt::HostRuntime;
use crate::kit::programs::string::AsStr;
use std::format;
use std::io::{self, Read, Write};
use std::process::{self, ExitCode, ExitStatus, Stdio};
use std::string::{String, ToString};
use std::vec::Vec;

/// The option.
const OPTION: &str = "--draw";

/// What is shown if the option has no file.
const HELP: &str = "Usage: tracecheck --draw FILE [OPTIONS]\n\n\
     Compares the trace on standard input, or in the file that is named by the last word, as 'tracecheck'\n\
     does without this option. If the trace differs, it also writes FILE: an SVG of the run that breaks,\n\
     with the line that differs in red. If not, FILE is left alone, and so is a FILE that is no SVG. The\n\
     comparison is proved. The code that draws isn't proved, and only this build by cargo has it.\n\n\
     Example:\n  tracecheck --draw picture.svg trace.txt\n\n\
     'tracecheck --help' names the other options, and the exit statuses.\n";

/// How the picture is read.
const ABOUT: &str = "Each vertical line is a line of the trace, and the red one differs. Each row shows the occupants of a \
     slot: before the first line as the proved allocator has them, and from there on as the lines say.";

/// The exit statuses of the proved program that are of use here.
const DIFFERS: u8 = 1;
const WORDS: u8 = 2;
const MEMORY: u8 = 3;
const DEVICE: u8 = 4;

/// How each picture begins.
const BEGIN: &[u8] = b"<svg ";

/// How many letters a line of text in the picture has at most.
const LINE: usize = 110;

/// Checks and draws a trace, if a word is `--draw` or `--draw=FILE`, and ends with the returned
/// status.
pub(crate) fn trace_if_asked(rt: HostRuntime) -> Option<ExitCode> {
    let mut words = std::env::args_os().skip(1);
    let is_asked = words.any(|word| word.to_str().is_some_and(is_option));
    is_asked.then(|| ExitCode::from(draw_asked(rt)))
}

/// Checks and draws as the words say.
fn draw_asked(rt: HostRuntime) -> u8 {
    let words: Vec<_> = match env::args(&rt) {
        Ok(words) => words.skip(1).collect(),
        Err(error) => return refuse_words(&error, &mut Counted::new(rt.stderr())),
    };
    let words: Vec<&str> = words.iter().map(AsStr::as_str).collect();
    let ended = match file_in(&words) {
        (Some(file), others) => check(rt, file, &others),
        (None, _) => Err((WORDS, String::from(HELP))),
    };
    ended.unwrap_or_else(|(status, text)| {
        // If the error stream fails, there is nobody left to tell.
        let _ = rt.stderr().write_all(text.as_bytes());
        status
    })
}

fn is_option(word: &str) -> bool {
    word.split('=').next() == Some(OPTION)
}

/// The file that the option names, if it names one, and the other words.
fn file_in<'a>(words: &[&'a str]) -> (Option<&'a str>, Vec<&'a str>) {
    let at = words.iter().position(|word| is_option(word));
    let (before, here) = words.split_at(at.unwrap_or(words.len()));
    let (file, after) = match here {
        [] => (None, here),
        [option, after @ ..] => match (option.split_once('='), after) {
            (Some((_, file)), _) => (Some(file), after),
            (None, [file, after @ ..]) => (Some(*file), after),
            (None, []) => (None, after),
        },
    };
    let file = file.filter(|file| !file.is_empty() && !file.starts_with('-'));
    (file, [before, after].concat())
}

/// An exit status, and the text that explains it.
type Failure = (u8, String);

/// Checks the trace on standard input, or in the file that the last word names, and draws it if it
/// differs.
fn check(rt: HostRuntime, file: &str, words: &[&str]) -> Result<u8, Failure> {
    if would_be_lost(file) {
        return Err((
            WORDS,
            format!("error: '{file}' is no SVG, and isn't written over\n\n{HELP}"),
        ));
    }
    match named_file(rt, words, |words| beginning(words).is_some()) {
        Ok(Some(input)) => check_input(input, file, &words[..words.len() - 1]),
        Ok(None) => check_input(rt.stdin(), file, words),
        Err(fault) => {
            let name = words.last().copied().unwrap_or_default();
            let mut errors = Counted::new(rt.stderr());
            Ok(refuse_file("tracecheck", name, fault, &mut errors))
        }
    }
}

/// Whether a file of this name has something else than a picture in it, as a trace that is named in
/// the picture's place.
fn would_be_lost(file: &str) -> bool {
    let is_file = std::fs::metadata(file).is_ok_and(|found| found.is_file() && found.len() > 0);
    is_file && !begins_with(file, BEGIN)
}

/// Whether the file begins with these bytes. One that can't be read doesn't.
fn begins_with(file: &str, begin: &[u8]) -> bool {
    let mut found = Vec::new();
    let opened = std::fs::File::open(file).map(|file| file.take(begin.len() as u64));
    let read = opened.and_then(|mut first| first.read_to_end(&mut found));
    read.is_ok() && found == begin
}

fn check_input(input: impl Read, file: &str, words: &[&str]) -> Result<u8, Failure> {
    let Some(begin) = beginning(words) else {
        // The proved program says what is wrong with the words, and reads nothing.
        return check_alone(words, &[]);
    };
    let trace = read(input)?;
    let status = check_alone(words, &trace)?;
    if status == DIFFERS {
        draw(file, followed(begin)?, &trace)?;
    }
    Ok(status)
}

fn read(input: impl Read) -> Result<Vec<u8>, Failure> {
    let all = read_all(&mut Counted::new(input), usize::MAX);
    all.map_err(|fault| match fault {
        InputFault::Device => (DEVICE, String::from("device\n")),
        InputFault::Memory | InputFault::TooLong => memory(),
    })
}

fn memory() -> Failure {
    (MEMORY, String::from("memory\n"))
}

/// Has the proved program check a trace.
fn check_alone(words: &[&str], trace: &[u8]) -> Result<u8, Failure> {
    let ended = run_alone(words, trace).map_err(|error| (DEVICE, format!("{error}\n")))?;
    status_of(ended)
}

/// The exit status of the check. A check that was killed has none, so nothing is known of the trace
/// then.
fn status_of(ended: ExitStatus) -> Result<u8, Failure> {
    let status = ended.code().and_then(|code| u8::try_from(code).ok());
    status.ok_or_else(|| (DEVICE, format!("the check was ended: {ended}\n")))
}

fn run_alone(words: &[&str], trace: &[u8]) -> io::Result<ExitStatus> {
    let mut program = process::Command::new(std::env::current_exe()?);
    let mut running = program.args(words).stdin(Stdio::piped()).spawn()?;
    if let Some(mut input) = running.stdin.take() {
        // It stops at the line that differs, so it may not read all.
        let _ = input.write_all(trace);
    }
    running.wait()
}

/// Writes the picture of a trace that differs.
fn draw(file: &str, begin: Followed, trace: &[u8]) -> Result<(), Failure> {
    let run = BrokenRun::find(begin, trace).ok_or_else(memory)?;
    let picture = picture_of(&run).map_err(no_picture)?;
    let written = std::fs::write(file, picture);
    written.map_err(|error| (DEVICE, format!("{file} can't be written: {error}\n")))
}

/// Where a trace begins: with an allocator of these limits, or with the image in the file of this
/// name.
enum Beginning<'a> {
    Limits(Limits),
    Image(&'a str),
}

/// Where the trace begins by these words, if they are a command line.
fn beginning<'a>(words: &'a [&'a str]) -> Option<Beginning<'a>> {
    let command = with_limits(Command::new("tracecheck")).ok()?;
    let command = command.arg(Arg::new("from")).ok()?;
    let options = command.bin_name("tracecheck").ok()?;
    let options = options.try_get_matches_from(words).ok()?;
    let image = options.get_str("from").map(Beginning::Image);
    Some(image.unwrap_or_else(|| Beginning::Limits(limits_of(&options))))
}

/// The allocator that a trace begins with. The proved program has read the image before.
fn followed(begin: Beginning<'_>) -> Result<Followed, Failure> {
    let name = match begin {
        Beginning::Limits(limits) => return Ok(Followed::new(limits)),
        Beginning::Image(name) => name,
    };
    let unread = |why: String| (DEVICE, format!("{name} can't be read: {why}\n"));
    let image = std::fs::read(name).map_err(|error| unread(error.to_string()))?;
    Followed::of_image(&image).map_err(|fault| unread(fault.to_string()))
}

fn picture_of(run: &BrokenRun) -> Result<String, Undrawn> {
    let timeline = run.timeline()?;
    let lines = wrapped(&run.text()?);
    let title = format!("The trace differs at line {}", run.difference.number);
    let caption = Caption {
        title: &title,
        about: ABOUT,
        lines: &lines,
    };
    Ok(Picture::new(caption, &timeline).svg())
}

/// Why a run isn't drawn. The trace differs all the same.
fn no_picture(undrawn: Undrawn) -> Failure {
    let found = match undrawn {
        Undrawn::Events(count) => format!("found {count} lines"),
        Undrawn::Slots(line) => format!("found more slots at line {line} (counted from 1)"),
        Undrawn::Memory => return memory(),
    };
    let most = format!("a picture must have at most {MOST_EVENTS} lines and {MOST_SLOTS} slots");
    (DIFFERS, format!("{most}; {found}\n"))
}

/// The words of a text, in lines.
fn wrapped(text: &str) -> Vec<String> {
    let mut lines: Vec<String> = Vec::new();
    for word in text.split(' ') {
        match lines.last_mut() {
            Some(line) if line.len() + word.len() < LINE => {
                line.push(' ');
                line.push_str(word);
            }
            _ => lines.push(word.to_string()),
        }
    }
    lines
}

#[cfg(test)]
mod tests {
    use super::*;
    use std::vec;

    #[test]
    fn the_option_is_found_among_words() {
        for words in [["--slots", "3"], ["--drawn", "a"], ["draw", "--d=raw"]] {
            assert_eq!(file_in(&words), (None, words.to_vec()));
        }
        let others = vec!["--slots", "3"];
        let both = [
            ["--draw", "a", "--slots", "3"].as_slice(),
            &["--slots", "3", "--draw", "a"],
            &["--draw=a", "--slots", "3"],
            &["--slots", "--draw=a", "3"],
        ];
        for words in both {
            assert_eq!(file_in(words), (Some("a"), others.clone()));
        }
        let nameless = [["--draw"].as_slice(), &["--draw="], &["--draw", "--help"]];
        for words in nameless {
            assert_eq!(file_in(words), (None, vec![]));
        }
    }

    #[test]
    fn nothing_but_a_picture_is_written_over() {
        // Tests run in the folder that the compiler names files from.
        let beside = |name| format!("{}/{name}", file!().trim_end_matches("/trace.rs"));
        for name in ["trace.rs", "patterns.svg"] {
            assert!(would_be_lost(&beside(name)), "{name}");
        }
        for name in ["no/such/file", "."] {
            assert!(!would_be_lost(&beside(name)), "{name}");
        }
        let made = std::env::temp_dir().join(format!("forgeni-{}.svg", process::id()));
        let name = made.to_str().expect("a name of letters");
        for text in ["", "<svg />"] {
            std::fs::write(name, text).expect("a folder for files that go");
            assert!(!would_be_lost(name), "{text}");
        }
        std::fs::remove_file(name).expect("the file that was written");
    }

    #[test]
    #[cfg(unix)]
    fn a_check_that_is_killed_ends_with_status_4() {
        use std::os::unix::process::ExitStatusExt;
        for status in [0, 1, 4] {
            let ended = ExitStatus::from_raw(i32::from(status) << 8);
            assert_eq!(status_of(ended), Ok(status));
        }
        let killed = status_of(ExitStatus::from_raw(9)).expect_err("no status");
        assert_eq!(killed.0, DEVICE);
        assert!(
            killed.1.starts_with("the check was ended: signal: 9"),
            "{}",
            killed.1
        );
    }

    #[test]
    fn lines_break_between_words() {
        let word = "0".repeat(54);
        assert_eq!(
            wrapped(&format!("{word} {word}")),
            [format!("{word} {word}")]
        );
        assert_eq!(
            wrapped(&format!("{word} {word}0 1")),
            [format!("{word} {word}0"), "1".to_string()]
        );
    }
}
