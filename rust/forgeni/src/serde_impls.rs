//! The feature `serde`: how handles, maps of them and the small types beside them are written and
//! read. No macro derives it, so the package needs none at compile time.

mod handle;
mod images;
mod maps;
mod numbers;

/// What `tables!` calls.
#[doc(hidden)]
pub mod for_tables {
    pub use super::maps::Names;
    pub use serde;
}
