//! The calls of `crates/cases_and_examples/data`, each with what it has to return, made of the
//! erased code; and the examples of that crate, with what they have to print.

use crate::host::env::start_with;
use crate::host::rt::{printed, HostRuntime};
use crate::made::cases_and_examples;

/// The files, and what the program has to print of them.
const WORDS: &str = include_str!("../../../crates/cases_and_examples/args");
const PRINTED: &str = include_str!("../../../crates/cases_and_examples/stdout");

#[test]
fn each_call_returns_what_it_has_to() {
    start_with(WORDS.lines());
    let ended = cases_and_examples::main(HostRuntime);
    // Line by line, so that a call that differs can be found.
    let (printed, mut expected) = (printed(), PRINTED.lines());
    for line in printed.lines() {
        assert_eq!(Some(line), expected.next());
    }
    assert_eq!(None, expected.next());
    ended.expect("no answer differs");
}
