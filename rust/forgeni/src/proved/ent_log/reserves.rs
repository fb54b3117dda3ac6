// Made of crates/ent_log/src/reserves.rt by rust/erase. It isn't edited by hand.

use crate::allocator::{Entities, Refused};
use crate::handles::Handle;

/// Reserves handles for a [`Log`](crate::logs::Log), one at a time.
///
/// ```
/// use forgeni::{Entities, Handle, Log, Refused, Reserver, Reserves};
///
/// /// Reserves by a log as by hand, and counts.
/// struct Counted<'a>(&'a mut Reserver, u32);
///
/// impl Reserves for Counted<'_> {
///     fn reserve_one(&mut self) -> Result<Handle, Refused> {
///         self.1 += 1;
///         self.0.reserve_one()
///     }
/// }
///
/// let (_shared, mut reservers) = Entities::new().share(1)?;
/// let mut counted = Counted(&mut reservers[0], 0);
/// Log::<()>::new().spawn(&mut counted)?;
/// assert_eq!(counted.1, 1);
/// # Ok::<(), Box<dyn std::error::Error>>(())
/// ```
pub trait Reserves {
    /// Reserves one handle. The next flush brings it to life.
    ///
    /// ```
    /// use forgeni::{Entities, Handle, Refused, Reserves};
    ///
    /// /// A squad, from whatever reserves.
    /// fn squad(source: &mut impl Reserves) -> Result<[Handle; 2], Refused> {
    ///     Ok([source.reserve_one()?, source.reserve_one()?])
    /// }
    ///
    /// let (_shared, mut reservers) = Entities::new().share(1)?;
    /// assert_eq!(squad(&mut reservers[0])?.map(|one| one.index()), [0, 1]);
    /// # Ok::<(), Box<dyn std::error::Error>>(())
    /// ```
    ///
    /// # Errors
    ///
    /// [`Refused`], if there is none.
    ///
    /// <details><summary>Contract</summary>
    ///
    /// <code style="display: block; tab-size: 4; white-space: pre-wrap">// In the words of [contracts](crate::contracts):
    /// ensures { may_reserve self.old result self.new }
    /// </code>
    ///
    /// </details>
    fn reserve_one(&mut self) -> Result<Handle, Refused>;
}

/// It [requests](Entities::request) the handle, so a single caller can fill a log too.
impl Reserves for Entities {
    #[inline]
    fn reserve_one(&mut self) -> Result<Handle, Refused> {
        self.request()
    }
}
