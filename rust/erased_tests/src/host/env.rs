//! The words that a program is started with, as a test says.

use super::rt::AllocGlobal;
use super::string::String;
use std::cell::RefCell;
use std::io;

std::thread_local! {
    static WORDS: RefCell<Vec<std::string::String>> = const { RefCell::new(Vec::new()) };
}

/// From here on a program of this thread is started with these words after its name.
pub fn start_with<'a>(words: impl Iterator<Item = &'a str>) {
    let name = "the program".to_owned();
    WORDS.set(
        std::iter::once(name)
            .chain(words.map(str::to_owned))
            .collect(),
    );
}

/// The words.
pub fn args(_rt: &impl AllocGlobal) -> io::Result<impl Iterator<Item = String>> {
    let text = |word| String::of(word).expect("it is never refused");
    Ok(WORDS.take().into_iter().map(text))
}
