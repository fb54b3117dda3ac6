//! Prints the lines, or writes the images, or writes again the images that it reads:
//!
//! ```text
//! digest [images | again]
//! ```

use std::io::{stdin, stdout, Read, Write};

fn main() -> digest::Result<()> {
    let mut read = vec![];
    let bytes = match std::env::args().nth(1).as_deref() {
        None => digest::text()?.into_bytes(),
        Some("images") => digest::images()?,
        Some("again") => {
            stdin().read_to_end(&mut read)?;
            digest::again(&read)?
        }
        Some(_) => Err("digest [images | again]")?,
    };
    Ok(stdout().write_all(&bytes)?)
}
