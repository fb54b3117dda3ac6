// Made of crates/spawnrun_lib/src/task.rt by rust/erase. It isn't edited by hand.

//! What the program's arguments ask for.

use crate::spawnrun_lib::show::Show;
use crate::kit::programs::clap::{Arg, ArgAction, ArgMatches, Command};
use crate::cli::{LineFault, generations_option, limits_of, number_option, slots_option};
use crate::allocator::Limits;
use crate::kit::alloc::AllocError;
use crate::kit::programs::string::AsStr;

// The values of `--show`.
static SHOWN: [&str; 2] = ["births", "handles"];

// The version of the program, which is that of the package.
const VERSION: &str = "0.1.0";

// What help ends with.
const PROGRAM_END: &str =
    "A command reads standard input, or the file that is named by its last word.\n\n\
     Examples:\n  \
     echo alloc | spawnrun replay\n  \
     echo '{\"components\":[\"hp\"],\"frames\":[[[{\"spawn\":{\"hp\":20}}]]]}' | spawnrun run\n\n\
     Exit status:\n  \
     0  the input was accepted, and all of the output was written\n  \
     1  the input was refused: one line of output names the test that it fails\n  \
     2  the words are no command line, or ask for help or the version\n  \
     3  memory ran out, and nothing was written\n  \
     4  reading or writing failed, or there is no such file";

const RUN_END: &str = "Examples:\n  \
     echo '{\"components\":[\"hp\"],\"frames\":[[[{\"spawn\":{\"hp\":20}}]]]}' | spawnrun run\n  \
     spawnrun run --workers 4 --show handles script.json\n\n\
     'spawnrun --help' names the exit statuses.";

const REPLAY_END: &str = "Examples:\n  \
     printf 'alloc\\nfree 0v1\\n' | spawnrun replay\n  \
     spawnrun replay --slots 3 schedule.txt\n\n\
     'spawnrun --help' names the exit statuses.";

/// What the program is asked to do.
#[derive(Clone, Copy, Debug, PartialEq, Eq)]
pub enum Task {
    /// To run the schedule on standard input over an allocator of these limits.
    Replay(Limits),
    /// To run the script on standard input.
    Run {
        /// How many workers read the script, run it and write the report, from 1 to 64.
        workers: usize,
        /// What names an entity in the output.
        show: Show,
    },
    /// To run it with a block of handles for each system of a frame.
    RunInBlocks {
        /// How many handles a block has, from 1 on.
        size: u32,
        /// How many workers read the script, run it and write the report, from 1 to 64.
        workers: usize,
        /// What names an entity in the output.
        show: Show,
    },
}

// An option that takes one of these names.
#[inline]
fn name_option<'a>(
    name: &'a str,
    names: &'a [&'a str],
    default: &'a str,
    help: &'a str,
) -> Arg<'a>
    // ensures rule { rule_of result ≡ name_option name.entry.now names.entry default.entry.now }
    // ensures own { result.global ≡ false }
{
    Arg::new(name)
        .long(name)
        .value_name("WHAT")
        .value_parser(names)
        .default_value(default)
        .help(help)
}

// The option `--blocks`.
#[inline]
fn blocks_option<'a>() -> Arg<'a>
    // ensures rule { rule_of result ≡ blocks_option }
    // ensures own { result.global ≡ false }
{
    let range = crate::kit::programs::clap::value_parser!(u32).range(1..=i64::from(u32::MAX));
    Arg::new("blocks")
        .long("blocks")
        .action(ArgAction::Set)
        .value_name("N")
        .value_parser(range)
        .help("Give each system of a frame a block of N handles")
}

#[inline]
fn replay_command<'a>() -> Result<Command<'a>, AllocError>
    // ensures app { IfOk result (λ c. app_of c ≡ replay_command) }
    // ensures own { IfOk result (λ c. (fields_of c).has_globals ≡ false) }
{
    Command::new("replay")
        .about("Runs the schedule of allocator events on standard input")
        .after_help(REPLAY_END)
        .arg(slots_option())?
        .arg(generations_option())
}

#[inline]
fn run_command<'a>(shown: &'a [&'a str]) -> Result<Command<'a>, AllocError>
    // ensures app { IfOk result (λ c. app_of c ≡ run_command shown.entry) }
    // ensures own { IfOk result (λ c. (fields_of c).has_globals ≡ false) }
{
    let workers = number_option(
        "workers",
        64,
        "1",
        "How many workers read the script, run it and write the report",
    );
    let show = name_option("show", shown, "births", "What names an entity");
    Command::new("run")
        .about("Runs the script of frames on standard input")
        .after_help(RUN_END)
        .arg(workers)?
        .arg(blocks_option())?
        .arg(show)
}

// The program without its subcommands.
#[inline]
fn top_command<'a>() -> Command<'a>
    // ensures { app_of result ≡ top_command }
{
    Command::new("spawnrun")
        .version(VERSION)
        .about("Runs schedules and scripts over Bevy's entity allocator")
        .after_help(PROGRAM_END)
        .no_binary_name(true)
        .disable_help_subcommand(true)
        .subcommand_required(true)
}

#[inline]
fn program<'a>(shown: &'a [&'a str]) -> Result<Command<'a>, AllocError>
    // ensures { IfOk result (λ c. app_of c ≡ program_of shown.entry) }
{
    let replay = replay_command()?;
    let run = run_command(shown)?;
    top_command()
        .subcommand(replay)?
        .subcommand(run)?
        .bin_name("spawnrun")
}

#[inline]
fn workers_of(options: &ArgMatches<'_>) -> usize
    // requires { HasNumber (codes "workers") 64 (given options.now) }
    // ensures number { option_number (codes "workers") (given options.now) ≡ Some result }
    // ensures within { AreWorkers result }
{
    options.get_one::<usize>("workers").unwrap()
}

#[inline]
fn blocks_of(options: &ArgMatches<'_>) -> Option<u32>
    // requires { MayHaveBlocks (given options.now) }
    // ensures number { option_number (codes "blocks") (given options.now) ≡ result }
    // ensures some { IfSome result (λ size. 0 < size) }
{
    options.get_one::<u32>("blocks")
}

#[inline]
fn show_of(options: &ArgMatches<'_>) -> Show
    // requires { HasShow (given options.now) }
    // ensures { first_of (codes "show") (given options.now) ≡ Some (show_text result) }
{
    if options.get_str("show").unwrap() == "handles" {
        Show::Handles
    } else {
        Show::Births
    }
}

// The run that the options say.
#[inline]
fn run_of(options: &ArgMatches<'_>) -> Task
    // requires workers { HasNumber (codes "workers") 64 (given options.now) }
    // requires blocks { MayHaveBlocks (given options.now) }
    // requires show { HasShow (given options.now) }
    // ensures { HasRun (given options.now) result }
{
    let workers = workers_of(options);
    let show = show_of(options);
    match blocks_of(options) {
        None => Task::Run { workers, show },
        Some(size) => Task::RunInBlocks {
            size,
            workers,
            show,
        },
    }
}

/// Reads the task from the program's arguments.
///
/// # Errors
///
/// - `Line` if clap finds a fault in the arguments, or if they ask for help.
/// - `Memory` if memory ran out. Arguments that clap takes are refused for this alone.
///
/// <details><summary>Contract</summary>
///
/// <code style="display: block; tab-size: 4; white-space: pre-wrap">// In the words of [contracts](crate::contracts):
/// ensures asked { IfOk result (AsksFor (map S.text words.now)) }
/// ensures taken { OnOk result (fault_of program (map S.text words.now) ≡ \[\]) }
/// ensures fault { IfErr result (IsFaultIn (map S.text words.now)) }
/// ensures refused { IfErr result (λ fault.
/// &#9;takes program (map S.text words.now) ≡ true → fault ≡ LineFault.Memory) }
/// </code>
///
/// </details>
#[inline]
pub fn command_line<S: AsStr>(words: &[S]) -> Result<Task, LineFault> {
    let matches = program(&SHOWN)?.try_get_matches_from(words)?;
    let (name, options) = matches.subcommand().unwrap();
    match name {
        "replay" => Ok(Task::Replay(limits_of(options))),
        "run" => Ok(run_of(options)),
        _ => unreachable!(),
    }
}

/// Whether the arguments ask for a task.
///
/// # Errors
///
/// Memory ran out while they were read.
#[inline]
pub(super) fn is_task<S: AsStr>(words: &[S]) -> Result<bool, AllocError>
    // ensures yes { result ≡ Ok true → fault_of program (map S.text words.now) ≡ [] }
    // ensures no { result ≡ Ok false → IsFaulty (map S.text words.now) }
    // ensures taken { takes program (map S.text words.now) ≡ true → result ≢ Ok false }
{
    match command_line(words) {
        Ok(_) => Ok(true),
        Err(LineFault::Line(_)) => Ok(false),
        Err(LineFault::Memory) => Err(AllocError),
    }
}
