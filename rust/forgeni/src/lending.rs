//! A value that is taken apart for a while.

use core::mem;

/// A value that is taken apart. When this is dropped, for whatever reason, the value is put
/// together again, in its place.
pub(crate) struct Lending<'a, T, P, R> {
    home: &'a mut T,
    parts: Option<P>,
    back: fn(P) -> (T, R),
}

impl<'a, T: Default, P, R> Lending<'a, T, P, R> {
    /// Takes the value apart. If that is refused, the value is put back at once.
    pub(crate) fn begin<E>(
        home: &'a mut T,
        apart: impl FnOnce(T) -> Result<P, (T, E)>,
        back: fn(P) -> (T, R),
    ) -> Result<Self, E> {
        match apart(mem::take(home)) {
            Ok(parts) => Ok(Self {
                home,
                parts: Some(parts),
                back,
            }),
            Err((value, error)) => {
                *home = value;
                Err(error)
            }
        }
    }
}

impl<T, P, R> Lending<'_, T, P, R> {
    /// Puts the value back, and returns what is left of the parts.
    pub(crate) fn end(mut self) -> R {
        self.put_back().expect("the parts are away until then")
    }

    /// The parts.
    pub(crate) fn parts(&mut self) -> &mut P {
        self.parts.as_mut().expect("they are away until the drop")
    }

    fn put_back(&mut self) -> Option<R> {
        let (value, rest) = (self.back)(self.parts.take()?);
        *self.home = value;
        Some(rest)
    }
}

impl<T, P, R> Drop for Lending<'_, T, P, R> {
    fn drop(&mut self) {
        self.put_back();
    }
}
