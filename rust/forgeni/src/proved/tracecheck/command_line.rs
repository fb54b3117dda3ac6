// Made of crates/tracecheck/src/command_line.rt by rust/erase. It isn't edited by hand.

//! Where a trace begins, by the program's arguments.

use crate::kit::programs::clap::error::ErrorKind;
use crate::kit::programs::clap::parser::ValueSource;
use crate::kit::programs::clap::{Arg, ArgAction, ArgMatches, Command};
use crate::cli::{LineFault, generations_option, limits_of, slots_option};
use crate::allocator::Limits;
use crate::kit::alloc::AllocError;
use crate::kit::programs::string::AsStr;

// The version of the program, which is that of the package.
const VERSION: &str = "0.1.0";

// What help ends with.
const PROGRAM_END: &str = "It reads standard input, or the file that is named by the last word.\n\n\
     Examples:\n  \
     printf 'reserve 1 2 => 0v1 1v1\\nflush => born 0v1 1v1\\n' | tracecheck\n  \
     tracecheck --slots 100 trace.txt\n  \
     tracecheck --from game.image trace.txt\n\n\
     Exit status:\n  \
     0  the trace agrees with the sequential allocator\n  \
     1  the trace differs: the output names the line, and what the allocator answers there\n  \
     2  the text is no trace or the image is none, or the words are no command line, or ask for help or\n     \
     the version\n  \
     3  memory ran out, and nothing was written\n  \
     4  reading or writing failed, or there is no such file";

// What is wrong with limits beside an image.
const BOTH: &str =
    "the argument '--from <IMAGE>' cannot be used with '--slots <N>' or '--generations <N>'";

/// Where a trace begins.
#[derive(Clone, Copy)]
pub enum Beginning {
    /// With an allocator of these limits that has given nothing.
    Limits(Limits),
    /// With the allocator whose image is in the file that is named.
    Image,
}

// The program without its options.
#[inline]
fn top_command<'a>() -> Command<'a>
    // ensures { app_of result ≡ top_command }
{
    Command::new("tracecheck")
        .version(VERSION)
        .about("Compares the trace on standard input with the proved allocator")
        .after_help(PROGRAM_END)
        .no_binary_name(true)
}

// The option `--from`.
#[inline]
fn from_option<'a>() -> Arg<'a>
    // ensures rule { rule_of result ≡ from_option }
    // ensures own { result.global ≡ false }
{
    Arg::new("from")
        .long("from")
        .action(ArgAction::Set)
        .value_name("IMAGE")
        .help("Begin with the allocator of this image")
}

#[inline]
fn program<'a>() -> Result<Command<'a>, AllocError>
    // ensures { IfOk result (λ c. app_of c ≡ program) }
{
    top_command()
        .arg(slots_option())?
        .arg(generations_option())?
        .arg(from_option())?
        .bin_name("tracecheck")
}

// Whether a value is in the words.
#[inline]
fn is_of_words(source: Option<ValueSource>) -> bool
    // ensures { result ≡ is_of_words source }
{
    match source {
        Some(ValueSource::CommandLine) => true,
        _ => false,
    }
}

// Whether the words have the option.
#[inline]
fn is_written(options: &ArgMatches<'_>, option: &str) -> bool
    // ensures { result ≡ is_written option.now (given options.now) }
{
    is_of_words(options.value_source(option))
}

// Whether the words have limits.
#[inline]
fn has_limits(options: &ArgMatches<'_>) -> bool
    // ensures { result ≡ has_limits (given options.now) }
{
    is_written(options, "slots") || is_written(options, "generations")
}

// The fault of words that have limits beside an image.
#[inline]
fn both() -> Result<crate::kit::programs::clap::Error, AllocError>
    // ensures { IfOk result (λ error. kind_of error ≡ ArgumentConflict) }
{
    program()?.error(ErrorKind::ArgumentConflict, BOTH)
}

#[inline]
fn both_fault() -> LineFault
    // ensures { IsFaultAmong (ArgumentConflict ∷ []) result }
{
    match both() {
        Ok(error) => LineFault::from(error),
        Err(AllocError) => LineFault::Memory,
    }
}

// The beginning that the options give.
#[inline]
fn beginning_of(options: &ArgMatches<'_>) -> Result<Beginning, LineFault>
    // requires slots { HasNumber (codes "slots") 4294967295 (given options.now) }
    // requires generations { HasNumber (codes "generations") 2147483647 (given options.now) }
    // ensures asked { IfOk result (HasBeginning (given options.now)) }
    // ensures one { OnOk result (has_both (given options.now) ≡ false) }
    // ensures both { OnErr result (has_both (given options.now) ≡ true) }
    // ensures fault { IfErr result (IsFaultAmong (ArgumentConflict ∷ [])) }
{
    match options.get_str("from") {
        None => Ok(Beginning::Limits(limits_of(options))),
        Some(_) if has_limits(options) => Err(both_fault()),
        Some(_) => Ok(Beginning::Image),
    }
}

/// Reads from the program's arguments where the trace begins.
///
/// # Errors
///
/// - `Line` if clap finds a fault in the arguments, if they ask for help, or if they give limits
///   beside an image.
/// - `Memory` if memory ran out. Arguments that are a command line are refused for this alone.
///
/// <details><summary>Contract</summary>
///
/// <code style="display: block; tab-size: 4; white-space: pre-wrap">// In the words of [contracts](crate::contracts):
/// ensures asked { IfOk result (AsksFor (map S.text words.now)) }
/// ensures taken { OnOk result (fault_in (map S.text words.now) ≡ \[\]) }
/// ensures fault { IfErr result (IsFaultIn (map S.text words.now)) }
/// ensures refused { IfErr result (λ fault.
/// &#9;is_taken (map S.text words.now) ≡ true → fault ≡ LineFault.Memory) }
/// </code>
///
/// </details>
#[inline]
pub fn command_line<S: AsStr>(words: &[S]) -> Result<Beginning, LineFault> {
    let matches = program()?.try_get_matches_from(words)?;
    beginning_of(&matches)
}

/// Whether the arguments ask for a check.
///
/// # Errors
///
/// Memory ran out while they were read.
///
/// <details><summary>Contract</summary>
///
/// <code style="display: block; tab-size: 4; white-space: pre-wrap">// In the words of [contracts](crate::contracts):
/// ensures yes { result ≡ Ok true → fault_in (map S.text words.now) ≡ \[\] }
/// ensures no { result ≡ Ok false → IsFaulty (map S.text words.now) }
/// ensures taken { is_taken (map S.text words.now) ≡ true → result ≢ Ok false }
/// </code>
///
/// </details>
#[inline]
pub fn ask_for_a_check<S: AsStr>(words: &[S]) -> Result<bool, AllocError> {
    match command_line(words) {
        Ok(_) => Ok(true),
        Err(LineFault::Line(_)) => Ok(false),
        Err(LineFault::Memory) => Err(AllocError),
    }
}

/// The file of the image that the arguments ask to begin with, if they do. Arguments that are no
/// command line ask for none.
///
/// # Errors
///
/// Memory ran out while they were read.
///
/// <details><summary>Contract</summary>
///
/// <code style="display: block; tab-size: 4; white-space: pre-wrap">// In the words of [contracts](crate::contracts):
/// ensures named { IfOk result (λ name. IfSome name (λ name.
/// &#9;image_in (map S.text words.now) ≡ Some name.now)) }
/// ensures none { result ≡ Ok None → IsFaulty (map S.text words.now)
/// &#9;⊎ (image_in (map S.text words.now) ≡ None) }
/// </code>
///
/// </details>
#[inline]
pub fn image_name<'a, S: AsStr>(
    words: &'a [S],
) -> Result<Option<&'a str>, AllocError> {
    match command_line(words) {
        Ok(Beginning::Image) => named_image(words),
        Ok(Beginning::Limits(_)) | Err(LineFault::Line(_)) => Ok(None),
        Err(LineFault::Memory) => Err(AllocError),
    }
}

// The file that a command line names.
#[inline]
fn named_image<'a, S: AsStr>(words: &'a [S]) -> Result<Option<&'a str>, AllocError>
    // ensures { IfOk result (λ name. option_map (λ text. text.now) name
    //     ≡ image_in (map S.text words.now)) }
{
    match program()?.try_get_matches_from(words) {
        Ok(options) => Ok(options.get_str("from")),
        Err(_) => Err(AllocError),
    }
}
