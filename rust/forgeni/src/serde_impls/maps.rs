//! A map of handles is a map of the format, and a struct of maps is a struct.

use crate::handle::Handle;
use crate::{AnyMap, HandleMap, InsertError, SparseMap, Tracked};
use core::{fmt, mem};
use serde::de::{Deserialize, DeserializeSeed, Deserializer, Error, MapAccess, Visitor};
use serde::ser::{Serialize, Serializer};

/// `$of` are the parameters of the type, and `$Entry` is what it has for a handle.
macro_rules! is_a_map {
    ($Map:ty, $Value:ty, [$($of:tt)*], $Entry:ty: $iter:ident, $insert:ident, $about:literal) => {
        #[doc = concat!("As a map from handles to ", $about, ". The limit is no part of it.")]
        impl<$($of)*> Serialize for $Map
        where
            $Value: Serialize,
        {
            fn serialize<S: Serializer>(&self, serializer: S) -> Result<S::Ok, S::Error> {
                serializer.collect_map(self.$iter())
            }
        }

        /// Reads a map without a limit. Its handles may come in any order, at most one for each
        /// slot: a second one is an error, and so are the placeholder and a lack of memory.
        ///
        /// A handle with the index `n` makes the map take room for `n` + 1 slots. So if what is
        /// read may be forged, make a map with a limit and read into it: see the impl of
        /// `DeserializeSeed`.
        impl<'de, $($of)*> Deserialize<'de> for $Map
        where
            $Value: Deserialize<'de>,
        {
            fn deserialize<D: Deserializer<'de>>(deserializer: D) -> Result<Self, D::Error> {
                let mut map = Self::default();
                map.deserialize(deserializer)?;
                Ok(map)
            }
        }

        /// Reads values in place of those that the map has: `map.deserialize(deserializer)`. The
        /// map keeps its limit. It is an error if the map refuses a handle, or if two handles have
        /// the same slot. The map is as it was then.
        impl<'de, $($of)*> DeserializeSeed<'de> for &mut $Map
        where
            $Value: Deserialize<'de>,
        {
            type Value = ();

            fn deserialize<D: Deserializer<'de>>(self, deserializer: D) -> Result<(), D::Error> {
                let insert = |map: &mut $Map, one, entry: $Entry| {
                    let before = map.len();
                    map.$insert(one, entry)?;
                    Ok(map.len() > before)
                };
                let empty = <$Map>::with_limit(self.limit());
                *self = deserializer.deserialize_map(MapVisitor(empty, insert))?;
                Ok(())
            }
        }
    };
}

is_a_map!(HandleMap<T>, T, [T], T: iter, insert, "values, by rising slot");
is_a_map!(
    SparseMap<T>, T, [T], T: iter, insert,
    "values, in the order of `entries`, which the map that is read has too"
);
is_a_map!(
    Tracked<M>, M::Value, [M: AnyMap], (M::Value, u64): with_ticks, insert_with_tick,
    "pairs of a value and its tick, in the order of the map"
);

/// A map, and what inserts an entry: whether the slot had no value.
struct MapVisitor<M, V>(M, fn(&mut M, Handle, V) -> Result<bool, InsertError>);

impl<'de, M, V: Deserialize<'de>> Visitor<'de> for MapVisitor<M, V> {
    type Value = M;

    fn expecting(&self, out: &mut fmt::Formatter<'_>) -> fmt::Result {
        out.write_str("a map from handles to values")
    }

    /// How many there are to come isn't asked for: an input can say any number.
    fn visit_map<A: MapAccess<'de>>(mut self, mut entries: A) -> Result<M, A::Error> {
        while let Some((handle, entry)) = entries.next_entry()? {
            let is_new = (self.1)(&mut self.0, handle, entry)
                .map_err(|refused| A::Error::custom(format_args!("{handle}: {refused}")))?;
            if !is_new {
                let text = format_args!("{handle}: its slot has a value already");
                return Err(A::Error::custom(text));
            }
        }
        Ok(self.0)
    }
}

/// The impls of serde's traits for a struct of maps.
#[doc(hidden)]
#[macro_export]
macro_rules! tables_serde {
    ($Name:ident $($map:ident $Map:ty),+) => {
        const _: () = {
            use $crate::Handle;
            use ::core::{fmt, ops::Index, result::Result};
            use $crate::for_tables::serde::de::{Deserialize, DeserializeSeed, Deserializer};
            use $crate::for_tables::serde::de::{Error, MapAccess, SeqAccess, Visitor};
            use $crate::for_tables::serde::ser::{Serialize, SerializeStruct, Serializer};
            use $crate::for_tables::Names;

            const MAPS: &[&str] = &[$(stringify!($map)),+];

            impl Serialize for $Name
            where
                $(for<'any> <$Map as Index<Handle>>::Output: Serialize,)+
            {
                fn serialize<S: Serializer>(&self, serializer: S) -> Result<S::Ok, S::Error> {
                    let mut maps = serializer.serialize_struct(stringify!($Name), MAPS.len())?;
                    $(maps.serialize_field(stringify!($map), &self.$map)?;)+
                    maps.end()
                }
            }

            /// Reads maps without a limit.
            impl<'de> Deserialize<'de> for $Name
            where
                $(for<'any> <$Map as Index<Handle>>::Output: Deserialize<'de>,)+
            {
                fn deserialize<D: Deserializer<'de>>(deserializer: D) -> Result<Self, D::Error> {
                    let mut maps = Self::default();
                    DeserializeSeed::deserialize(&mut maps, deserializer)?;
                    Ok(maps)
                }
            }

            /// Reads values in place of those that the maps have. Each map keeps its limit. After
            /// an error all are as they were.
            impl<'de> DeserializeSeed<'de> for &mut $Name
            where
                $(for<'any> <$Map as Index<Handle>>::Output: Deserialize<'de>,)+
            {
                type Value = ();

                fn deserialize<D>(self, deserializer: D) -> Result<(), D::Error>
                where
                    D: Deserializer<'de>,
                {
                    let mut read = $Name { $($map: <$Map>::with_limit(self.$map.limit()),)+ };
                    deserializer.deserialize_struct(stringify!($Name), MAPS, Reader(&mut read))?;
                    *self = read;
                    Ok(())
                }
            }

            struct Reader<'a>(&'a mut $Name);

            impl<'de> Visitor<'de> for Reader<'_>
            where
                $(for<'any> <$Map as Index<Handle>>::Output: Deserialize<'de>,)+
            {
                type Value = ();

                fn expecting(&self, out: &mut fmt::Formatter<'_>) -> fmt::Result {
                    out.write_str(concat!("a struct of the maps", $(" ", stringify!($map)),+))
                }

                fn visit_seq<A: SeqAccess<'de>>(self, mut maps: A) -> Result<(), A::Error> {
                    let expected = concat!("fewer than the maps", $(" ", stringify!($map)),+);
                    let short = || A::Error::custom(expected);
                    $(maps.next_element_seed(&mut self.0.$map)?.ok_or_else(short)?;)+
                    Ok(())
                }

                fn visit_map<A: MapAccess<'de>>(self, mut maps: A) -> Result<(), A::Error> {
                    let mut left = Names(MAPS, [true; MAPS.len()]);
                    while let Some(name) = maps.next_key_seed(&mut left)? {
                        $(if name == stringify!($map) {
                            maps.next_value_seed(&mut self.0.$map)?;
                        })+
                    }
                    Ok(())
                }
            }
        };
    };
}

/// The names of maps, each of which may be read once.
#[doc(hidden)]
#[derive(Debug)]
pub struct Names<const N: usize>(pub &'static [&'static str], pub [bool; N]);

impl<'de, const N: usize> DeserializeSeed<'de> for &mut Names<N> {
    type Value = &'static str;

    fn deserialize<D: Deserializer<'de>>(self, deserializer: D) -> Result<&'static str, D::Error> {
        deserializer.deserialize_identifier(self)
    }
}

impl<const N: usize> Visitor<'_> for &mut Names<N> {
    type Value = &'static str;

    fn expecting(&self, out: &mut fmt::Formatter<'_>) -> fmt::Result {
        out.write_str("the name of a map")
    }

    fn visit_str<E: Error>(self, name: &str) -> Result<&'static str, E> {
        let at = self.0.iter().position(|it| *it == name);
        let at = at.ok_or_else(|| E::unknown_field(name, self.0))?;
        let left = mem::take(&mut self.1[at]).then_some(self.0[at]);
        left.ok_or_else(|| E::duplicate_field(self.0[at]))
    }
}
