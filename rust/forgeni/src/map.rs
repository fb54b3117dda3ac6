//! Maps from handles to components of any type.
//!
//! A [`HandleMap`] is for a component that most entities have, a [`SparseMap`] for one that few
//! have, and [`tables!`] makes a struct of maps. Types that implement [`Follows`] drop an entity's
//! values when the entity is despawned, and [`JoinMaps`] walks over several maps at once.
//! A [`Tracked`] map knows when its values changed, and a [`History`] lists births and deaths. The
//! modules [`handle_map`](crate::handle_map) and [`sparse_map`](crate::sparse_map) have the entries
//! and the iterators.

pub use crate::follows::Follows;
pub use crate::handle_map::{AnyMap, HandleMap, InsertError};
pub use crate::history::{Change, History};
pub use crate::joining::{JoinMaps, Leads};
#[cfg(feature = "rayon")]
pub use crate::on_rayon::{ParIter, ParJoinMaps};
pub use crate::sparse_map::SparseMap;
pub use crate::tables;
pub use crate::tracked::Tracked;
