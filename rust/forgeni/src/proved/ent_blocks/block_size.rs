// Made of crates/ent_blocks/src/block_size.rt by rust/erase. It isn't edited by hand.

/// The size of a caller's block in the next phase: twice what it
/// [wanted](crate::Reserver::wanted) in this one, at least 64, and at most a limit. So the
/// size depends only on earlier phases, and is the same on every machine.
///
/// What a caller wanted is what it used, plus the largest of its requests that were refused. So the
/// next block has enough for that one too, unless the limit is less.
///
/// ```
/// use forgeni::{BlockSize, Blocks, Entities};
///
/// let mut sizes = [BlockSize::new(1000); 2];
/// let (_phase, mut reservers) = Entities::new().share_in::<Blocks>(&sizes.map(|it| it.size()))?;
/// reservers[0].reserve_many(50)?;
/// assert!(reservers[1].reserve_many(100).is_err());
/// for (size, reserver) in sizes.iter_mut().zip(&reservers) {
///     size.adapt(reserver.wanted());
/// }
/// assert_eq!(sizes.map(|it| it.size()), [100, 200]);
/// # Ok::<(), Box<dyn std::error::Error + Send + Sync>>(())
/// ```
#[derive(Clone, Copy, Debug, PartialEq, Eq, Hash)]
pub struct BlockSize {
    size: u32,
    limit: u32,
}

/// # Making one
impl BlockSize {
    /// Creates the size for a first phase: 64, or the limit if that is less.
    ///
    /// ```
    /// use forgeni::BlockSize;
    ///
    /// let small = BlockSize::new(10);
    /// let large = BlockSize::new(1_000);
    /// assert_eq!((small.size(), large.size()), (10, 64));
    /// ```
    ///
    /// <details><summary>Contract</summary>
    ///
    /// <code style="display: block; tab-size: 4; white-space: pre-wrap">// In the words of [contracts](crate::contracts):
    /// ensures { result ≡ record { size = [min](crate::contracts::logic#min) 64 limit; limit = limit } }
    /// </code>
    ///
    /// </details>
    #[must_use]
    #[inline]
    pub fn new(limit: u32) -> Self {
        BlockSize {
            size: next_size(0, limit),
            limit,
        }
    }

    /// Creates a block size of this size, or of the limit if that is less. It is for a first phase
    /// that needs more than 64 handles, and for a size that was saved.
    ///
    /// ```
    /// use forgeni::BlockSize;
    ///
    /// // The first frame loads a level, and needs far more handles than later ones.
    /// let mut size = BlockSize::with_size(5_000, 10_000);
    /// assert_eq!(size.size(), 5_000);
    /// size.adapt(100);
    /// assert_eq!(size.size(), 200);
    /// ```
    ///
    /// <details><summary>Contract</summary>
    ///
    /// <code style="display: block; tab-size: 4; white-space: pre-wrap">// In the words of [contracts](crate::contracts):
    /// ensures { result ≡ record { size = [min](crate::contracts::logic#min) size limit; limit = limit } }
    /// </code>
    ///
    /// </details>
    #[must_use]
    #[inline]
    pub fn with_size(size: u32, limit: u32) -> Self {
        BlockSize {
            size: if size <= limit { size } else { limit },
            limit,
        }
    }
}

/// # From phase to phase
impl BlockSize {
    /// Returns the size of the block in the next phase.
    ///
    /// ```
    /// use forgeni::{BlockSize, Blocks, Entities};
    ///
    /// let mut sizes = [BlockSize::new(1_000); 3];
    /// sizes[2].adapt(400);
    /// let (_phase, reservers) = Entities::new().share_in::<Blocks>(&sizes.map(|it| it.size()))?;
    /// assert_eq!(reservers.iter().map(|one| one.size()).collect::<Vec<_>>(), [64, 64, 800]);
    /// # Ok::<(), Box<dyn std::error::Error>>(())
    /// ```
    ///
    /// <details><summary>Contract</summary>
    ///
    /// <code style="display: block; tab-size: 4; white-space: pre-wrap">// In the words of [contracts](crate::contracts):
    /// ensures { result ≡ self.now.size }
    /// </code>
    ///
    /// </details>
    #[must_use]
    #[inline]
    pub fn size(&self) -> u32 {
        self.size
    }

    /// Sets the size for the next phase from how many handles were
    /// wanted in this phase.
    ///
    /// ```
    /// use forgeni::BlockSize;
    ///
    /// let mut size = BlockSize::new(1_000);
    /// let mut sizes = Vec::new();
    /// for wanted in [100, 10, 900] {
    ///     size.adapt(wanted);
    ///     sizes.push(size.size());
    /// }
    /// // Twice as many, but at least 64, and at most the limit.
    /// assert_eq!(sizes, [200, 64, 1_000]);
    /// ```
    ///
    /// <details><summary>Contract</summary>
    ///
    /// <code style="display: block; tab-size: 4; white-space: pre-wrap">// In the words of [contracts](crate::contracts):
    /// ensures next { self.new
    /// &#9;≡ record self.old { size = [min](crate::contracts::logic#min) ([max](crate::contracts::logic#max) 64 (2 \* wanted)) self.old.limit } }
    /// ensures enough { [min](crate::contracts::logic#min) wanted self.old.limit ≤ self.new.size }
    /// </code>
    ///
    /// </details>
    #[inline]
    pub fn adapt(&mut self, wanted: u32) {
        self.size = next_size(wanted, self.limit);
    }

    /// Returns the greatest size.
    ///
    /// ```
    /// use forgeni::BlockSize;
    ///
    /// // A save needs both numbers.
    /// let size = BlockSize::with_size(300, 1_000);
    /// let saved = (size.size(), size.limit());
    /// assert_eq!(BlockSize::with_size(saved.0, saved.1), size);
    /// ```
    ///
    /// <details><summary>Contract</summary>
    ///
    /// <code style="display: block; tab-size: 4; white-space: pre-wrap">// In the words of [contracts](crate::contracts):
    /// ensures { result ≡ self.now.limit }
    /// </code>
    ///
    /// </details>
    #[must_use]
    #[inline]
    pub fn limit(&self) -> u32 {
        self.limit
    }
}

/// The least size, unless the limit is less.
const LEAST: u64 = 64;

#[inline]
fn next_size(wanted: u32, limit: u32) -> u32
    // ensures { result ≡ min (max 64 (2 * wanted)) limit }
{
    let twice = 2 * u64::from(wanted);
    let size = if twice <= LEAST { LEAST } else { twice };
    if size <= u64::from(limit) {
        size as u32
    } else {
        limit
    }
}
