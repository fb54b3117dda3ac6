// Made of crates/cli/src/options.rt by rust/erase. It isn't edited by hand.

//! The options that take numbers.

use crate::kit::programs::clap::{Arg, ArgAction};

/// An option that takes a whole number from 1 to `most`, and has a default.
///
/// <details><summary>Contract</summary>
///
/// <code style="display: block; tab-size: 4; white-space: pre-wrap">// In the words of [contracts](crate::contracts):
/// ensures rule { rule_of result ≡ number_option name.entry.now most default.entry.now }
/// ensures own { result.global ≡ false }
/// </code>
///
/// </details>
#[inline]
pub fn number_option<'a>(
    name: &'a str,
    most: u32,
    default: &'a str,
    help: &'a str,
) -> Arg<'a> {
    let range = crate::kit::programs::clap::value_parser!(u32).range(1..=i64::from(most));
    Arg::new(name)
        .long(name)
        .action(ArgAction::Set)
        .value_name("N")
        .value_parser(range)
        .default_value(default)
        .help(help)
}

/// The option `--slots`.
///
/// <details><summary>Contract</summary>
///
/// <code style="display: block; tab-size: 4; white-space: pre-wrap">// In the words of [contracts](crate::contracts):
/// ensures rule { rule_of result ≡ slots_option }
/// ensures own { result.global ≡ false }
/// </code>
///
/// </details>
#[inline]
pub fn slots_option<'a>() -> Arg<'a> {
    number_option(
        "slots",
        u32::MAX,
        "4294967295",
        "How many slots may be made",
    )
}

/// The option `--generations`.
///
/// <details><summary>Contract</summary>
///
/// <code style="display: block; tab-size: 4; white-space: pre-wrap">// In the words of [contracts](crate::contracts):
/// ensures rule { rule_of result ≡ generations_option }
/// ensures own { result.global ≡ false }
/// </code>
///
/// </details>
#[inline]
pub fn generations_option<'a>() -> Arg<'a> {
    number_option(
        "generations",
        (1 << 31) - 1,
        "2147483647",
        "The last generation of a slot",
    )
}
