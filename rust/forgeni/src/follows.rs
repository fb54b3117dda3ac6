//! Maps that lose an entity's values when it is despawned. Hand-written: a map loses what its
//! proved `remove` removes.

use crate::handle::Handle;
use crate::{Entities, FreeError, Freed, HandleMap, SparseMap};

/// Something that keeps values for entities: a map of components, several maps, or a type of your
/// own.
///
/// Both kinds of maps implement it, and so do tuples, slices and arrays of types that implement it.
/// [`tables!`](crate::tables) implements it for a struct of maps.
///
/// ```
/// use forgeni::{Entities, Follows, HandleMap, SparseMap};
///
/// let (mut places, mut names) = (HandleMap::new(), SparseMap::new());
/// let mut entities = Entities::new();
/// let ship = entities.alloc()?;
/// places.insert(ship, [0.0, 0.0])?;
/// names.insert(ship, "Argo")?;
/// (&mut places, &mut names).despawn(&mut entities, ship)?;
/// assert!(entities.is_empty() && places.is_empty() && names.is_empty());
/// # Ok::<(), Box<dyn std::error::Error + Send + Sync>>(())
/// ```
pub trait Follows {
    /// Drops what it keeps for this handle.
    ///
    /// ```
    /// use forgeni::{Entities, Follows, Handle};
    ///
    /// /// A type of your own, which keeps a list of who is selected.
    /// struct Selected(Vec<Handle>);
    ///
    /// impl Follows for Selected {
    ///     fn forget(&mut self, handle: Handle) {
    ///         self.0.retain(|one| *one != handle);
    ///     }
    /// }
    ///
    /// let mut entities = Entities::new();
    /// let mut selected = Selected(entities.alloc_many(3)?);
    /// let first = selected.0[0];
    /// selected.despawn(&mut entities, first)?;
    /// assert_eq!((selected.0.len(), entities.len()), (2, 2));
    /// # Ok::<(), Box<dyn std::error::Error>>(())
    /// ```
    ///
    /// # Panics
    ///
    /// If a value panics when it is dropped, the other maps still forget the handle, and the panic
    /// is propagated.
    fn forget(&mut self, handle: Handle);

    /// Frees an entity, and forgets its handle.
    ///
    /// ```
    /// use forgeni::{Entities, Follows, HandleMap};
    ///
    /// let (mut entities, mut names) = (Entities::new(), HandleMap::new());
    /// let cart = entities.alloc()?;
    /// names.insert(cart, "cart")?;
    /// names.despawn(&mut entities, cart)?;
    /// assert!(!entities.is_alive(cart) && names.is_empty());
    /// # Ok::<(), Box<dyn std::error::Error>>(())
    /// ```
    ///
    /// # Errors
    ///
    /// Those of [`Entities::free`]. Nothing is forgotten then.
    ///
    /// # Panics
    ///
    /// The same as [`forget`](Self::forget). The entity is freed even then.
    fn despawn(&mut self, entities: &mut Entities, handle: Handle) -> Result<Freed, FreeError> {
        let freed = entities.free(handle)?;
        self.forget(handle);
        Ok(freed)
    }
}

impl<F: Follows + ?Sized> Follows for &mut F {
    #[inline]
    fn forget(&mut self, handle: Handle) {
        (**self).forget(handle);
    }
}

impl<T> Follows for HandleMap<T> {
    #[inline]
    fn forget(&mut self, handle: Handle) {
        self.remove(handle);
    }
}

impl<T> Follows for SparseMap<T> {
    #[inline]
    fn forget(&mut self, handle: Handle) {
        self.remove(handle);
    }
}

/// What is called when this is dropped, even by a panic.
struct AtLast<F: FnMut()>(F);

impl<F: FnMut()> Drop for AtLast<F> {
    #[inline]
    fn drop(&mut self) {
        self.0();
    }
}

impl<F: Follows> Follows for [F] {
    fn forget(&mut self, handle: Handle) {
        let mut maps = self.iter_mut();
        // After a panic, those that are left forget the handle when this is dropped.
        let mut rest = AtLast(|| maps.by_ref().for_each(|it| it.forget(handle)));
        rest.0();
    }
}

impl<F: Follows, const N: usize> Follows for [F; N] {
    #[inline]
    fn forget(&mut self, handle: Handle) {
        self.as_mut_slice().forget(handle);
    }
}

macro_rules! tuples_follow {
    ($($Map:ident $map:ident)*) => {
        impl<$($Map: Follows),*> Follows for ($($Map,)*) {
            #[inline]
            fn forget(&mut self, handle: Handle) {
                let ($($map,)*) = self;
                $(let _last = AtLast(|| $map.forget(handle));)*
            }
        }
    };
}

tuples_follow!(A a B b);
tuples_follow!(A a B b C c);
tuples_follow!(A a B b C c D d);
tuples_follow!(A a B b C c D d E e);
tuples_follow!(A a B b C c D d E e F f);
tuples_follow!(A a B b C c D d E e F f G g);
tuples_follow!(A a B b C c D d E e F f G g H h);

/// A struct of maps, one for each component, which [`Follows`] the entities.
///
/// Each field is a [`HandleMap`], a [`SparseMap`], or one of them that is
/// [`Tracked`](crate::Tracked), and keeps its attributes and its visibility. Besides what it
/// derives, the struct has:
/// - `forget(handle)` and `despawn(&mut entities, handle)`, those of [`Follows`], which must be in
///   scope;
/// - `sweep(&entities)`, which drops the values of all handles that are neither alive nor reserved.
///   Call it after entities have been freed elsewhere, or a save has been read: see
///   [`AnyMap::sweep`](crate::AnyMap::sweep);
/// - `stale(&entities)`, which returns the name of a map and a handle of it that `sweep` would
///   drop, if there is one, for a program that refuses such a save;
/// - `clear()`, which drops all values, and `lens()`, which returns the name of each map and how
///   many values it has;
/// - `try_clone()` and `try_clone_from(&source)`, if the values are `Clone`: a snapshot, and the
///   way back to it. If memory runs out, `try_clone_from` has changed nothing. If a clone panics,
///   call it again, with this source or another;
/// - `Default`, and with the feature `serde` `Serialize` and `Deserialize`, with the names of the
///   maps, if the values implement them. A map that is left out has no values. `DeserializeSeed` of
///   `&mut Parts` replaces the values, and keeps the limit of each map: use it for input that may
///   be forged.
///
/// ```
/// use forgeni::{tables, Entities, Follows, HandleMap, SparseMap};
///
/// tables! {
///     /// What the ships of a game have.
///     #[derive(Debug, PartialEq)]
///     pub struct Parts {
///         pub place: HandleMap<[f32; 2]>,
///         pub name: SparseMap<String>,
///     }
/// }
///
/// let (mut entities, mut parts) = (Entities::new(), Parts::default());
/// let [ship, boat] = [entities.alloc()?, entities.alloc()?];
/// for one in [ship, boat] {
///     parts.place.insert(one, [0.0, 0.0])?;
/// }
/// parts.name.insert(ship, "Argo".to_string())?;
/// let before = parts.try_clone()?;
///
/// parts.despawn(&mut entities, ship)?;
/// assert_eq!(parts.lens(), [("place", 1), ("name", 0)]);
/// assert!(parts.despawn(&mut entities, ship).is_err());
///
/// entities.free(boat)?;
/// parts.sweep(&entities);
/// assert_eq!(parts, Parts::default());
///
/// parts.try_clone_from(&before)?;
/// assert_eq!(parts.name[ship], "Argo");
/// # Ok::<(), Box<dyn std::error::Error + Send + Sync>>(())
/// ```
#[macro_export]
macro_rules! tables {
    ($(#[$about:meta])* $seen:vis struct $Name:ident {
        $($(#[$of:meta])* $shown:vis $map:ident: $($Kind:ident)::+ <$Value:ty>),+ $(,)?
    }) => {
        $(#[$about])*
        $seen struct $Name {
            $($(#[$of])* $shown $map: $($Kind)::+ <$Value>,)+
        }

        impl ::core::default::Default for $Name {
            fn default() -> Self {
                Self { $($map: ::core::default::Default::default(),)+ }
            }
        }

        impl $crate::Follows for $Name {
            #[inline]
            fn forget(&mut self, handle: $crate::Handle) {
                // All are out of the maps before one is dropped.
                let _gone = ($(self.$map.remove(handle),)+);
            }
        }

        #[allow(dead_code, unused_imports)]
        impl $Name {
            /// Drops the values of all handles that are neither alive nor reserved.
            $seen fn sweep(&mut self, entities: &$crate::Entities) {
                use $crate::AnyMap as _;
                $(self.$map.sweep(entities);)+
            }

            /// The name of a map that has a value for a handle that is neither alive nor reserved,
            /// and the handle.
            $seen fn stale(
                &self,
                entities: &$crate::Entities,
            ) -> ::core::option::Option<(&'static str, $crate::Handle)> {
                use $crate::AnyMap as _;
                let maps = [$((stringify!($map), self.$map.stale(entities))),+];
                maps.into_iter().find_map(|(name, one)| Some((name, one?)))
            }

            /// Drops all values. The room stays.
            $seen fn clear(&mut self) {
                $(self.$map.clear();)+
            }

            /// The name of each map, and how many values it has.
            $seen fn lens(&self) -> [(&'static str, usize); [$(stringify!($map)),+].len()] {
                [$((stringify!($map), self.$map.len())),+]
            }

            /// A clone of each map.
            ///
            /// # Errors
            ///
            /// Out of memory.
            $seen fn try_clone(&self) -> ::core::result::Result<Self, $crate::OutOfMemory>
            where
                $(for<'any> <$($Kind)::+ <$Value> as ::core::ops::Index<$crate::Handle>>::Output:
                    ::core::clone::Clone,)+
            {
                Ok(Self { $($map: self.$map.try_clone()?,)+ })
            }

            /// Makes each map a clone of the source's. It takes memory only for room that a map
            /// lacks.
            ///
            /// # Errors
            ///
            /// Out of memory. Nothing has changed then, except that maps may have more room.
            $seen fn try_clone_from(
                &mut self,
                source: &Self,
            ) -> ::core::result::Result<(), $crate::OutOfMemory>
            where
                $(for<'any> <$($Kind)::+ <$Value> as ::core::ops::Index<$crate::Handle>>::Output:
                    ::core::clone::Clone,)+
            {
                $(self.$map.reserve_for(&source.$map)?;)+
                $(self.$map.try_clone_from(&source.$map)?;)+
                Ok(())
            }
        }

        $crate::tables_serde!($Name $($map $($Kind)::+ <$Value>),+);
    };
}

/// Without the feature `serde`, a struct of maps has none of its traits.
#[cfg(not(feature = "serde"))]
#[doc(hidden)]
#[macro_export]
macro_rules! tables_serde {
    ($($any:tt)*) => {};
}
