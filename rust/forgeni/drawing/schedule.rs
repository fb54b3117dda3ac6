//! `spawnrun draw`: a picture of the schedule on standard input, or in the file that the last word
//! names.

use super::options::{limits_in, named_file, with_limits};
use super::picture::{Caption, Picture};
use super::replayed::replayed;
use super::timeline::{Timeline, Undrawn, MOST_EVENTS, MOST_SLOTS};
use crate::allocator::Limits;
use crate::cli::{read_all, refuse_file, refuse_words};
use crate::cli::{Counted, InputFault, Sink, Source};
use crate::kit::programs::clap::{Command, Error};
use crate::kit::programs::env;
use crate::kit::programs::rt::HostRuntime;
use crate::kit::programs::string::AsStr;
use crate::spawnrun_lib::{do_task, Status, Task, INPUT_LIMIT};
use crate::traces::read_schedule;
use std::format;
use std::io::Read;
use std::process::ExitCode;
use std::string::String;
use std::vec::Vec;

/// What help ends with.
const END: &str = "The proved allocator of 'spawnrun replay' answers each event. The code that draws the answers isn't\n\
     proved, and only this build by cargo has it.\n\n\
     It reads standard input, or the file that is named by the last word.\n\n\
     Examples:\n  printf 'alloc\\nfree 0v1\\n' | spawnrun draw > picture.svg\n  \
     spawnrun draw --slots 3 schedule.txt > picture.svg\n\n'spawnrun --help' names the exit statuses.";

/// How the picture is read.
const ABOUT: &str = "Time runs from left to right, and goes on below. Each vertical line is an event. Each row shows the \
     occupants of a slot. Below them are the cursor between two events, and the open calls of each caller.";

/// The exit status for words that are no command line, and for a request for help.
const LINE_FAULT: u8 = 2;

/// Draws a schedule, if the first word after the program's name is `draw`, and ends with the
/// returned status.
pub(crate) fn schedule_if_asked(rt: HostRuntime) -> Option<ExitCode> {
    let first = std::env::args_os().nth(1);
    let is_asked = first.is_some_and(|word| word == "draw");
    is_asked.then(|| ExitCode::from(draw_asked(rt)))
}

/// Draws as the words after `draw` say.
fn draw_asked(rt: HostRuntime) -> u8 {
    let mut errors = Counted::new(rt.stderr());
    let words: Vec<_> = match env::args(&rt) {
        Ok(words) => words.skip(2).collect(),
        Err(error) => return refuse_words(&error, &mut errors),
    };
    match named_file(rt, &words, |words| limits(words).is_ok()) {
        Ok(Some(file)) => draw_input(rt, file, &words[..words.len() - 1], &mut errors),
        Ok(None) => draw_input(rt, rt.stdin(), &words, &mut errors),
        Err(fault) => {
            let name = words.last().map_or("", AsStr::as_str);
            refuse_file("spawnrun", name, fault, &mut errors)
        }
    }
}

/// Draws what is read, as these words say.
fn draw_input(
    rt: HostRuntime,
    input: impl Read,
    words: &[impl AsStr],
    errors: &mut impl Sink,
) -> u8 {
    match limits(words) {
        Ok(limits) => {
            let (mut input, mut output) = (Counted::new(input), Counted::new(rt.stdout()));
            draw(rt, &mut input, &mut output, errors, limits).number()
        }
        Err(error) => {
            let _ = errors.put(format!("{error}").as_bytes());
            LINE_FAULT
        }
    }
}

/// The limits that the words after `draw` ask for.
fn limits(words: &[impl AsStr]) -> Result<Limits, Error> {
    let about = "Draws the schedule of allocator events on standard input, as an SVG";
    let command = Command::new("draw").about(about).after_help(END);
    limits_in(with_limits(command)?.bin_name("spawnrun draw")?, words)
}

/// Reads a schedule, and writes its picture.
fn draw(
    rt: HostRuntime,
    input: &mut impl Source,
    output: &mut impl Sink,
    errors: &mut impl Sink,
    limits: Limits,
) -> Status {
    let status = match read_all(input, INPUT_LIMIT) {
        Ok(text) => draw_text(rt, &text, output, errors, limits),
        Err(InputFault::TooLong) => refuse(output, errors, "found more than 67108864 bytes"),
        Err(InputFault::Memory) => Status::Memory,
        Err(InputFault::Device) => Status::Device,
    };
    let _ = match status {
        Status::Done | Status::Refused => Ok(()),
        Status::Memory => errors.put(b"memory\n"),
        Status::Device => errors.put(b"device\n"),
    };
    status
}

fn draw_text(
    rt: HostRuntime,
    text: &[u8],
    output: &mut impl Sink,
    errors: &mut impl Sink,
    limits: Limits,
) -> Status {
    let (Ok(events), Ok(lines)) = (read_schedule(text), core::str::from_utf8(text)) else {
        // What is no schedule is refused as `spawnrun replay` refuses it.
        let (task, input) = (Task::Replay(limits), &mut Counted::new(text));
        return do_task(&rt, task, input, output, errors, &mut ());
    };
    match replayed(limits, lines, &events) {
        Ok(timeline) => put(output, &picture_of(&timeline), Status::Done),
        Err(Undrawn::Events(count)) => refuse(output, errors, &format!("found {count} events")),
        Err(Undrawn::Slots(line)) => {
            let found = format!("found more slots at line {line} (counted from 1)");
            refuse(output, errors, &found)
        }
        Err(Undrawn::Memory) => Status::Memory,
    }
}

fn picture_of(timeline: &Timeline) -> String {
    let last = timeline.moments.last();
    let slots = last.map_or(0, |moment| moment.after.slots.len());
    let events = counted(timeline.moments.len(), "event");
    let title = format!("{events} and {}", counted(slots, "slot"));
    let caption = Caption {
        title: &title,
        about: ABOUT,
        lines: &[],
    };
    Picture::new(caption, timeline).svg()
}

fn counted(count: usize, what: &str) -> String {
    let ending = if count == 1 { "" } else { "s" };
    format!("{count} {what}{ending}")
}

/// Refuses an input that is too much for a picture.
fn refuse(output: &mut impl Sink, errors: &mut impl Sink, found: &str) -> Status {
    let status = put(output, "refused size\n", Status::Refused);
    if status == Status::Refused {
        let most = format!(
            "a picture must have at most {MOST_EVENTS} events and {MOST_SLOTS} slots; {found}\n"
        );
        // If the error stream fails, there is nobody left to tell.
        let _ = errors.put(most.as_bytes());
    }
    status
}

fn put(output: &mut impl Sink, text: &str, status: Status) -> Status {
    output
        .put(text.as_bytes())
        .map_or(Status::Device, |()| status)
}

#[cfg(test)]
mod tests {
    use super::*;

    #[test]
    fn one_event_and_one_slot_are_singular() {
        for (text, title) in [
            ("", "0 events and 0 slots"),
            ("flush", "1 event and 0 slots"),
            ("alloc", "1 event and 1 slot"),
            ("alloc\nalloc", "2 events and 2 slots"),
        ] {
            let events = read_schedule(text.as_bytes()).expect("a schedule");
            let timeline = replayed(Limits::GREATEST, text, &events).expect("few events");
            let picture = picture_of(&timeline);
            assert!(picture.contains(&format!("<title>{title}<")), "{picture}");
        }
    }
}
