//! Std's `Default` and `Clone` for types with proved calls `new` and `try_clone`, and `PartialEq`
//! for the allocator. If memory runs out, a clone ends the process, as when a `Vec` is cloned.

use crate::entities::Entities;
use crate::errors::OutOfMemory;
use crate::handle::Handle;
use crate::storage::Storage;
use crate::world::World;
use alloc::alloc::handle_alloc_error;
use core::alloc::Layout;

macro_rules! begins_and_clones {
    ($name:ident) => {
        impl Default for $name {
            fn default() -> Self {
                Self::new()
            }
        }

        /// Uses [`try_clone`](Self::try_clone) and [`try_clone_from`](Self::try_clone_from). If
        /// memory runs out, the process ends, as for a `Vec`.
        impl Clone for $name {
            fn clone(&self) -> Self {
                self.try_clone().unwrap_or_else(|refused| end(refused))
            }

            fn clone_from(&mut self, source: &Self) {
                self.try_clone_from(source)
                    .unwrap_or_else(|refused| end(refused));
            }
        }
    };
}

begins_and_clones!(Entities);
begins_and_clones!(World);
begins_and_clones!(Storage);

/// Two allocators are equal if every call does the same on both, whatever happened to them before:
/// that is, if they have the same image. The comparison looks at each slot, and takes no memory.
///
/// ```
/// use forgeni::Entities;
///
/// let (mut one, mut other) = (Entities::new(), Entities::new());
/// let cart = one.alloc()?;
/// assert!(one != other);
/// other.request()?;
/// other.flush(&mut Vec::new())?;
/// assert!(one == other);
/// one.try_set_row(cart, 5)?;
/// assert!(one != other);
/// # Ok::<(), Box<dyn std::error::Error>>(())
/// ```
impl PartialEq for Entities {
    fn eq(&self, other: &Self) -> bool {
        let numbers = |it: &Self| (it.limits(), it.total(), it.asked(), it.reserved());
        numbers(self) == numbers(other)
            && living(self).eq(living(other))
            && waiting(self).eq(waiting(other))
    }
}

impl Eq for Entities {}

/// The living entities and their rows, in slot order.
fn living(entities: &Entities) -> impl Iterator<Item = (Handle, Option<u32>)> {
    entities.iter().map(|one| (one, entities.row(one)))
}

/// The next handle of each waiting slot, in the order of the pending list.
fn waiting(entities: &Entities) -> impl Iterator<Item = Option<Handle>> {
    let positions = 1..=i64::from(entities.top());
    positions.map(|cursor| entities.reply_one(cursor).ok())
}

/// Ends the process: the caller can't return an error.
#[cold]
fn end(_refused: OutOfMemory) -> ! {
    handle_alloc_error(Layout::new::<Entities>())
}
