//! The same for a host of WebAssembly. It asks for room, writes its input there, and reads the
//! output where that lies.

use crate::{again, images, text, Result};
use alloc::vec::Vec;
use std::sync::Mutex;

static INPUT: Mutex<Vec<u8>> = Mutex::new(Vec::new());
static OUTPUT: Mutex<Vec<u8>> = Mutex::new(Vec::new());

/// Where the host writes an input of so many bytes.
#[no_mangle]
extern "C" fn input(len: usize) -> *mut u8 {
    let mut input = INPUT.lock().expect("one thread");
    input.resize(len, 0);
    input.as_mut_ptr()
}

/// Where the output of the last call begins.
#[no_mangle]
extern "C" fn output() -> *const u8 {
    OUTPUT.lock().expect("one thread").as_ptr()
}

/// Keeps the output, and returns how many bytes it has: -1 if there is none.
fn put(bytes: Result<Vec<u8>>) -> i64 {
    bytes.map_or(-1, |bytes| {
        let len = bytes.len() as i64;
        *OUTPUT.lock().expect("one thread") = bytes;
        len
    })
}

#[no_mangle]
extern "C" fn put_text() -> i64 {
    put(text().map(Into::into))
}

#[no_mangle]
extern "C" fn put_images() -> i64 {
    put(images())
}

#[no_mangle]
extern "C" fn put_again() -> i64 {
    put(again(&INPUT.lock().expect("one thread")))
}
