//! A bundle says how many components it has in itself.

use forgeni::{Bundle, InlineBundle};

fn main() {
    let small: InlineBundle<1> = InlineBundle::new();
    let _: Bundle = small;
}
