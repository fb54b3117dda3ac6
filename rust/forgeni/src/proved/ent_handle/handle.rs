// Made of crates/ent_handle/src/handle.rt by rust/erase. It isn't edited by hand.

use core::cmp::Ordering;
use core::hash::{Hash, Hasher};
use core::num::NonZeroU64;

/// The name of an entity: the index of a slot, and a generation that tells the slot's entities
/// apart. Handles are ordered by index, and then by generation.
///
/// A handle takes 8 bytes, and so does an `Option<Handle>`. `Display` and `Debug` write it as
/// `0v1`, and it is parsed from that text.
///
/// A handle is only a name. A handle that was made by hand, or by another allocator, names an
/// entity here if one with that index and generation is alive.
///
/// ```
/// use forgeni::Handle;
///
/// let mut handles: Vec<Handle> = ["2v1", "0v7", "1v3"]
///     .iter()
///     .map(|text| text.parse())
///     .collect::<Result<_, _>>()?;
/// handles.sort();
/// assert_eq!(format!("{handles:?}"), "[0v7, 1v3, 2v1]");
/// handles.sort_by(Handle::by_bits);
/// assert_eq!(format!("{handles:?}"), "[2v1, 1v3, 0v7]");
/// # Ok::<(), forgeni::ParseHandleError>(())
/// ```
///
/// An index is 0 to 4,294,967,294, and a generation 1 to 2,147,483,647: Bevy's ranges, without the
/// index of its placeholder. As in Bevy, each entity of a slot has the generation after that of the
/// entity before it, so an earlier handle doesn't name a later entity. After the last generation a
/// slot has no more entities, whereas Bevy starts again with the first one. The order is this
/// project's own: that of Bevy and hecs is [`by_bits`](Self::by_bits).
#[derive(Clone, Copy, PartialEq, Eq)]
#[repr(transparent)]
pub struct Handle {
    bits: NonZeroU64,
}

/// # Making one
impl Handle {
    /// Returns the handle with these numbers: an index below 4,294,967,295, a generation from 1 to
    /// 2,147,483,647. `None` if one of them is out of range.
    ///
    /// ```
    /// use forgeni::Handle;
    ///
    /// const FIRST: Handle = Handle::new(0, 1).unwrap();
    /// assert_eq!(FIRST.to_string(), "0v1");
    /// assert_eq!(Handle::new(0, 0), None);
    /// ```
    ///
    /// <details><summary>Contract</summary>
    ///
    /// <code style="display: block; tab-size: 4; white-space: pre-wrap">// In the words of [contracts](crate::contracts):
    /// ensures in_range { [IsSome](crate::contracts::logic#IsSome) result
    /// &#9;↔ [IsHandle](crate::contracts::ent_handle::handle#IsHandle) (record { index = index; generation = generation }) }
    /// ensures value { [IfSome](crate::contracts::logic#IfSome) result (λ h. h ≡ record { index = index; generation = generation }) }
    /// </code>
    ///
    /// </details>
    #[must_use]
    #[inline]
    pub const fn new(index: u32, generation: u32) -> Option<Self> {
        if index < u32::MAX && 1 <= generation && generation < 1 << 31 {
            Some(Handle::from_parts(index, generation))
        } else {
            None
        }
    }
}

/// # Index and generation
impl Handle {
    /// Returns the index of its slot: 0 to 4,294,967,294.
    ///
    /// ```
    /// use forgeni::Entities;
    ///
    /// let mut entities = Entities::new();
    /// let mut healths = vec![0; 10];
    /// let cart = entities.alloc()?;
    /// // A table by slot, as engines have it.
    /// healths[cart.index() as usize] = 100;
    /// assert_eq!(healths[0], 100);
    /// # Ok::<(), Box<dyn std::error::Error>>(())
    /// ```
    ///
    /// <details><summary>Contract</summary>
    ///
    /// <code style="display: block; tab-size: 4; white-space: pre-wrap">// In the words of [contracts](crate::contracts):
    /// ensures { result ≡ self.index }
    /// </code>
    ///
    /// </details>
    #[must_use]
    #[inline]
    pub const fn index(self) -> u32 {
        (self.bits.get() & 0xffff_ffff) as u32
    }

    /// Returns its generation: 1 for the first entity of a slot, and at most 2,147,483,647.
    ///
    /// ```
    /// use forgeni::Entities;
    ///
    /// let mut entities = Entities::new();
    /// for _ in 0..3 {
    ///     let shot = entities.alloc()?;
    ///     entities.free(shot)?;
    /// }
    /// // The fourth entity of slot 0.
    /// let shot = entities.alloc()?;
    /// assert_eq!((shot.index(), shot.generation()), (0, 4));
    /// # Ok::<(), Box<dyn std::error::Error>>(())
    /// ```
    ///
    /// <details><summary>Contract</summary>
    ///
    /// <code style="display: block; tab-size: 4; white-space: pre-wrap">// In the words of [contracts](crate::contracts):
    /// ensures { result ≡ self.generation }
    /// </code>
    ///
    /// </details>
    #[must_use]
    #[inline]
    pub const fn generation(self) -> u32 {
        (self.bits.get() >> 32) as u32
    }
}

/// # Bits
impl Handle {
    /// Returns both numbers in one: the generation times 2^32, plus the index.
    ///
    /// ```
    /// use forgeni::Handle;
    ///
    /// let handle = Handle::new(7, 2).unwrap();
    /// assert_eq!(Handle::from_bits(handle.to_bits()), Some(handle));
    /// ```
    ///
    /// <details><summary>Contract</summary>
    ///
    /// <code style="display: block; tab-size: 4; white-space: pre-wrap">// In the words of [contracts](crate::contracts):
    /// ensures bits { result ≡ [bits](crate::contracts::ent_handle::handle#bits) self }
    /// ensures in_range { [IsHandle](crate::contracts::ent_handle::handle#IsHandle) self }
    /// </code>
    ///
    /// </details>
    #[must_use]
    #[inline]
    pub const fn to_bits(self) -> u64 {
        self.bits.get()
    }

    /// Returns the handle that [`to_bits`](Self::to_bits) packed into these bits, or `None` if no
    /// handle has these bits.
    ///
    /// ```
    /// use forgeni::Handle;
    ///
    /// // A packet of another machine, which may have anything in it.
    /// let packet = [3_u64 << 32 | 12, 12];
    /// let handles = packet.map(|bits| Handle::from_bits(bits).map(|it| it.to_string()));
    /// assert_eq!(handles, [Some("12v3".to_owned()), None]);
    /// ```
    ///
    /// <details><summary>Contract</summary>
    ///
    /// <code style="display: block; tab-size: 4; white-space: pre-wrap">// In the words of [contracts](crate::contracts):
    /// ensures found { [IfSome](crate::contracts::logic#IfSome) result (λ h. [bits](crate::contracts::ent_handle::handle#bits) h ≡ of) }
    /// ensures in_range { [IfSome](crate::contracts::logic#IfSome) result [IsHandle](crate::contracts::ent_handle::handle#IsHandle) }
    /// ensures none { [IfNone](crate::contracts::logic#IfNone) result ((h : [Handle](crate::contracts::ent_handle::handle#Handle)) → [IsHandle](crate::contracts::ent_handle::handle#IsHandle) h → [bits](crate::contracts::ent_handle::handle#bits) h ≢ of) }
    /// </code>
    ///
    /// </details>
    #[must_use]
    #[inline]
    pub const fn from_bits(of: u64) -> Option<Self> {
        Handle::new((of & 0xffff_ffff) as u32, (of >> 32) as u32)
    }

    /// Compares two handles by their bits, as Bevy and hecs do: by generation, then by index.
    ///
    /// ```
    /// use forgeni::Handle;
    ///
    /// let [new, old] = [Handle::new(9, 1).unwrap(), Handle::new(0, 2).unwrap()];
    /// assert!(new.by_bits(&old).is_lt() && new > old);
    /// ```
    ///
    /// <details><summary>Contract</summary>
    ///
    /// <code style="display: block; tab-size: 4; white-space: pre-wrap">// In the words of [contracts](crate::contracts):
    /// ensures bits { result ≡ [nat_cmp](crate::contracts::logic#nat_cmp) ([bits](crate::contracts::ent_handle::handle#bits) self.now) ([bits](crate::contracts::ent_handle::handle#bits) other.now) }
    /// ensures parts { result ≡ [ordering_then](crate::contracts::logic#ordering_then)
    /// &#9;([nat_cmp](crate::contracts::logic#nat_cmp) self.now.generation other.now.generation)
    /// &#9;([nat_cmp](crate::contracts::logic#nat_cmp) self.now.index other.now.index) }
    /// </code>
    ///
    /// </details>
    #[must_use]
    #[inline]
    pub fn by_bits(&self, other: &Self) -> Ordering {
        self.to_bits().cmp(&other.to_bits())
    }
}

impl Handle {
    /// The handle of these numbers, which have to be in range: the index is 0 to 4,294,967,294, the
    /// generation 1 to 2,147,483,647. It tests nothing when it runs, so it is for a caller that
    /// keeps such numbers. `new` tests them.
    #[inline]
    pub(crate) const fn from_parts(index: u32, generation: u32) -> Self
        // requires { IsHandle (record { index = index; generation = generation }) }
        // ensures { result ≡ record { index = index; generation = generation } }
    {
        let bits = ((generation as u64) << 32) + index as u64;
        // The bits are never 0, and to take another number for 0 costs less than a branch.
        let bits = match NonZeroU64::new(bits) {
            Some(bits) => bits,
            None => NonZeroU64::MIN,
        };
        Handle { bits }
    }

    /// The handle of the slot's next occupant: of the same index, and of the next generation, which
    /// has to be in range. It tests nothing when it runs.
    ///
    /// It is never `None`. As an `Option` its bits need no test for 0, which would stand for
    /// `None`.
    #[inline]
    pub(crate) fn following(self) -> Option<Self>
        // requires { IsHandle (record self { generation = self.generation + 1 }) }
        // ensures { result ≡ Some (record self { generation = self.generation + 1 }) }
    {
        let bits = NonZeroU64::new(self.bits.get() + (1 << 32))?;
        Some(Handle { bits })
    }

    /// Both numbers in one with the index above, which is a rotation of the bits: one comparison of
    /// these orders handles by index, then by generation.
    #[inline]
    fn index_first(self) -> u64
        // ensures word { result ≡ self.index * 2 ^ 32 + self.generation }
        // ensures in_range { IsHandle self }
    {
        (u64::from(self.index()) << 32) + u64::from(self.generation())
    }
}

impl Hash for Handle {
    #[inline]
    fn hash<H: Hasher>(&self, state: &mut H) {
        state.write_u64(self.bits.get());
    }
}

impl Ord for Handle {
    #[inline]
    fn cmp(&self, other: &Self) -> Ordering {
        self.index_first().cmp(&other.index_first())
    }
}

impl PartialOrd for Handle {
    #[inline]
    fn partial_cmp(&self, other: &Self) -> Option<Ordering> {
        Some(self.cmp(other))
    }
}
