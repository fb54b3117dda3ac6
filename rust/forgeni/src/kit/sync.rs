//! The kit's `Arc`.
//!
//! The contracts are those of the kit's `std_alloc/src/arc/methods.rt`.

use super::alloc::{AllocError, AllocFailed};
use super::vec::FallibleVec;
use ::alloc::vec::Vec;
use core::ops::Deref;

/// A value that several owners share.
pub struct Arc<T>(::alloc::sync::Arc<T>);

/// As much memory as an `Arc` takes: two counts beside the value.
#[repr(C)]
struct Room<T>(usize, usize, T);

impl<T> Arc<T> {
    /// The contract: the value, shared by this owner alone, or the value back.
    ///
    /// Rust has no stable `Arc` that returns if memory runs out. So as much is asked for and given
    /// back first. If another thread takes it meanwhile, and no other memory is left, the program
    /// ends.
    #[inline]
    pub fn new(value: T) -> Result<Self, AllocFailed<T>> {
        match Vec::<Room<T>>::with_capacity_fallibly(1) {
            Ok(room) => drop(core::hint::black_box(room)),
            Err(AllocError) => return Err(AllocFailed { value }),
        }
        Ok(Arc(::alloc::sync::Arc::new(value)))
    }

    /// The contract: one more owner, or an `Err` if there are too many to count.
    #[inline]
    pub fn try_clone(this: &Self) -> Result<Self, AllocError> {
        // Rust ends the program at twice this count.
        if ::alloc::sync::Arc::strong_count(&this.0) > isize::MAX as usize / 2 {
            return Err(AllocError);
        }
        Ok(Arc(::alloc::sync::Arc::clone(&this.0)))
    }

    /// The contract: the value, if this is the last owner, or the owner back.
    #[inline]
    pub fn try_unwrap(this: Self) -> Result<T, Self> {
        ::alloc::sync::Arc::try_unwrap(this.0).map_err(Arc)
    }

    /// The contract: whether both share one value.
    #[inline]
    pub fn ptr_eq(this: &Self, other: &Self) -> bool {
        ::alloc::sync::Arc::ptr_eq(&this.0, &other.0)
    }
}

impl<T> Deref for Arc<T> {
    type Target = T;

    #[inline]
    fn deref(&self) -> &T {
        &self.0
    }
}

#[cfg(test)]
mod tests {
    use super::super::refusing::refuse;
    use super::*;

    #[test]
    fn out_of_memory_gives_the_value_back() {
        let refused = refuse(|| Arc::new(7)).err();
        assert_eq!(refused, Some(AllocFailed { value: 7 }));
    }

    #[test]
    fn the_last_owner_has_the_value() {
        let one = Arc::new(7).expect("memory");
        let two = Arc::try_clone(&one).expect("a second owner");
        let other = Arc::new(7).expect("memory");
        assert!(Arc::ptr_eq(&one, &two) && !Arc::ptr_eq(&one, &other));
        let Err(one) = Arc::try_unwrap(one) else {
            panic!("there is a second owner");
        };
        assert_eq!((*one, *two), (7, 7));
        drop(one);
        assert_eq!(Arc::try_unwrap(two).ok(), Some(7));
    }
}
