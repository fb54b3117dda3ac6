// Made of crates/ent_script/src/bundle.rt by rust/erase. It isn't edited by hand.

/// Components and their values, in strictly ascending order of number.
///
/// A long script has millions of bundles, and most are of one component. Such a bundle takes no
/// memory.
pub type Bundle = crate::components::InlineBundle<1>;
