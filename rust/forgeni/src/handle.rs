//! What the source of the proved handle can't have: a constant, and parsing through Rust's trait.

use core::num::NonZeroU64;
use core::str::FromStr;

pub use crate::handles::{Handle, ParseHandleError};

/// # The placeholder
impl Handle {
    /// A handle that is never alive, for a field that is initialised before there is an entity. No
    /// world and no allocator gives it, except one made by
    /// [`with_exact_limits`](crate::Entities::with_exact_limits). It is `4294967294v2147483647`,
    /// the greatest handle of both orders.
    ///
    /// An `Option<Handle>` is as large, and often clearer.
    ///
    /// ```
    /// use forgeni::{Entities, Handle, State};
    ///
    /// let mut target = Handle::PLACEHOLDER;
    /// let mut entities = Entities::new();
    /// assert_eq!(entities.state(target), State::Gone);
    /// target = entities.alloc()?;
    /// assert_eq!(entities.state(target), State::Alive);
    /// # Ok::<(), forgeni::AllocError>(())
    /// ```
    pub const PLACEHOLDER: Self = Self::new(u32::MAX - 1, u32::MAX >> 1).unwrap();
}

/// Reads what `Display` writes: the index in decimal, the letter `v`, the generation in decimal. A
/// decimal has no sign and no leading zero.
impl FromStr for Handle {
    type Err = ParseHandleError;

    /// The handle with this text.
    ///
    /// # Errors
    ///
    /// `Shape` or `Range`.
    ///
    /// ```
    /// use forgeni::{Handle, ParseHandleError};
    /// assert_eq!("7v2".parse(), Ok(Handle::new(7, 2).unwrap()));
    /// assert_eq!("7v02".parse::<Handle>(), Err(ParseHandleError::Shape));
    /// assert_eq!("7v0".parse::<Handle>(), Err(ParseHandleError::Range));
    /// ```
    #[inline]
    fn from_str(text: &str) -> Result<Self, ParseHandleError> {
        Self::read_text(text.as_bytes())
    }
}

/// The bits, as [`to_bits`](Handle::to_bits) returns them.
impl From<Handle> for u64 {
    #[inline]
    fn from(handle: Handle) -> Self {
        handle.to_bits()
    }
}

/// The bits, which are never 0: the upper half is the generation.
impl From<Handle> for NonZeroU64 {
    #[inline]
    fn from(handle: Handle) -> Self {
        Self::new(handle.to_bits()).unwrap_or(Self::MAX)
    }
}

/// The handle with these bits.
impl TryFrom<u64> for Handle {
    type Error = ParseHandleError;

    /// The handle with these bits.
    ///
    /// # Errors
    ///
    /// `Range` if no handle has these bits.
    ///
    /// ```
    /// use forgeni::{Handle, ParseHandleError};
    ///
    /// let handle = Handle::new(7, 2).unwrap();
    /// assert_eq!(Handle::try_from(u64::from(handle)), Ok(handle));
    /// assert_eq!(Handle::try_from(7), Err(ParseHandleError::Range));
    /// ```
    #[inline]
    fn try_from(bits: u64) -> Result<Self, ParseHandleError> {
        Self::from_bits(bits).ok_or(ParseHandleError::Range)
    }
}

/// The handle with these bits, as from a `u64`.
impl TryFrom<NonZeroU64> for Handle {
    type Error = ParseHandleError;

    #[inline]
    fn try_from(bits: NonZeroU64) -> Result<Self, ParseHandleError> {
        bits.get().try_into()
    }
}
