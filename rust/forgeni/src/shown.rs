//! What `Debug` shows for types whose fields nobody should see, and for types that have another
//! name in the package than where they are proved. The erased tests take this file too.

/// `Debug` for types that show what these calls return, and say that there is more. A type
/// parameter is in brackets, and types in place of some in parentheses.
macro_rules! shows {
    ($(
        $name:ident $(<$life:lifetime>)? $([$of:ident $(: $bound:path)?])? $(($($is:ty),+))?:
        $($call:ident)*;
    )*) => {$(
        impl $(<$of $(: $bound)?>)? core::fmt::Debug for $name<$($life,)? $($of)? $($($is),+)?> {
            fn fmt(&self, out: &mut core::fmt::Formatter<'_>) -> core::fmt::Result {
                out.debug_struct(stringify!($name))
                    $(.field(stringify!($call), &self.$call()))*
                    .finish_non_exhaustive()
            }
        }
    )*};
}

/// An iterator whose `Debug` shows what it has left, as this call returns it, and which gives
/// nothing after its end.
macro_rules! walks {
    ($shown_by:ident: $name:ty $(, $of:ident $(: $bound:path)?)?) => {
        impl $(<$of>)? core::iter::FusedIterator for $name {}

        impl $(<$of $(: $bound)?>)? core::fmt::Debug for $name {
            fn fmt(&self, out: &mut core::fmt::Formatter<'_>) -> core::fmt::Result {
                out.$shown_by().entries(self.clone()).finish()
            }
        }
    };
}

pub(crate) use {shows, walks};
