//! What the feature `serde` writes and reads. Each expected value is written out, or follows from
//! the definition of a handle's text and bits.

mod common;
mod handle_maps;
mod handles;
mod hostile;
mod images;
mod numbers;
mod saves;
mod worlds;
