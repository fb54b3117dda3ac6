//! Lists of copies.

use crate::kit::alloc::AllocError;
use crate::kit::vec::FallibleVec;

/// The kit's `to_vec`.
pub trait ToKitVec<T> {
    fn to_kit_vec(&self) -> Result<Vec<T>, AllocError>;
}

impl<T: Copy> ToKitVec<T> for [T] {
    fn to_kit_vec(&self) -> Result<Vec<T>, AllocError> {
        Vec::from_slice_fallibly(self)
    }
}

/// `append`, for values that can be copied.
pub trait AppendCopies<T> {
    fn append_copies(&mut self, others: &mut Vec<T>) -> Result<(), AllocError>;
}

impl<T: Copy> AppendCopies<T> for Vec<T> {
    fn append_copies(&mut self, others: &mut Vec<T>) -> Result<(), AllocError> {
        self.extend_from_slice_fallibly(others)?;
        others.clear();
        Ok(())
    }
}
