// Made of crates/ent_alloc/src/source.rt by rust/erase. It isn't edited by hand.

use crate::allocator::refused::Refused;
use crate::allocator::reserved::Reserved;
use crate::handles::Handle;

/// An allocator in a phase, which serves the requests of its reservers.
///
/// What a system fills from it, and what runs the system, depend only on this trait. So one type of
/// system works with every source.
///
/// ```
/// use forgeni::{run_frame, OutOfMemory, Source, StdThreads, View, World, WorldCommands};
///
/// /// A system of any frame: of shared handles, or in blocks.
/// fn rain<S: Source>(_: &View<'_>, out: &mut WorldCommands<'_, S>) -> Result<(), OutOfMemory> {
///     out.spawn_many_with(100, &[]).map_or_else(|refused| refused.or_memory(), |_| Ok(()))
/// }
///
/// let mut world = World::new();
/// run_frame(&StdThreads, &mut world, &[rain], 1)?;
/// assert_eq!(world.len(), 100);
/// # Ok::<(), Box<dyn std::error::Error>>(())
/// ```
pub trait Source {
    /// What a caller reserves with.
    type Reserver;

    /// Returns `true` if the handle was alive when the phase was opened. It takes constant time.
    ///
    /// ```
    /// use forgeni::{Handle, Source};
    ///
    /// /// The first target that is still there.
    /// fn target<S: Source>(source: &S, targets: &[Handle]) -> Option<Handle> {
    ///     targets.iter().copied().find(|one| source.was_alive(*one))
    /// }
    /// ```
    ///
    /// <details><summary>Contract</summary>
    ///
    /// <code style="display: block; tab-size: 4; white-space: pre-wrap">// In the words of [contracts](crate::contracts):
    /// ensures { result ≡ [set.contains](crate::contracts::logic#FinSet.contains) (start self.now).live handle }
    /// </code>
    ///
    /// </details>
    fn was_alive(&self, handle: Handle) -> bool;

    /// Returns the row that the handle had when the phase was opened, or `None` if it wasn't alive
    /// then or had no row. It takes constant time.
    ///
    /// ```
    /// use forgeni::{Handle, Source};
    ///
    /// /// The value of an entity in a column of an engine's own.
    /// fn value<S: Source>(source: &S, column: &[i64], of: Handle) -> Option<i64> {
    ///     column.get(source.had_row(of)? as usize).copied()
    /// }
    /// ```
    ///
    /// <details><summary>Contract</summary>
    ///
    /// <code style="display: block; tab-size: 4; white-space: pre-wrap">// In the words of [contracts](crate::contracts):
    /// ensures value { result ≡ [map.get](crate::contracts::logic#FinMap.get) (rows self.now) handle }
    /// ensures alive { [OnSome](crate::contracts::logic#OnSome) result ([set.contains](crate::contracts::logic#FinSet.contains) (start self.now).live handle ≡ [true](crate::contracts::logic#true)) }
    /// </code>
    ///
    /// </details>
    fn had_row(&self, handle: Handle) -> Option<u32>;

    /// Returns `true` if a request for `n` handles may be served, and `false` if it is sure to be
    /// refused. It takes constant time.
    ///
    /// ```
    /// use forgeni::Source;
    ///
    /// /// The most handles, up to `most`, that a request may be for.
    /// fn most<S: Source>(source: &S, reserver: &S::Reserver, most: u32) -> u32 {
    ///     (0..=most).rev().find(|n| source.may_serve(reserver, *n)).unwrap_or(0)
    /// }
    /// ```
    ///
    /// <details><summary>Contract</summary>
    ///
    /// <code style="display: block; tab-size: 4; white-space: pre-wrap">// In the words of [contracts](crate::contracts):
    /// ensures { [IsTrue](crate::contracts::logic#IsTrue) result ↔ may_give self.now reserver.now n }
    /// </code>
    ///
    /// </details>
    fn may_serve(&self, reserver: &Self::Reserver, n: u32) -> bool;

    /// Reserves one handle.
    ///
    /// ```
    /// use forgeni::{Handle, Source};
    ///
    /// /// A handle, if there is one.
    /// fn spark<S: Source>(source: &S, reserver: &mut S::Reserver) -> Option<Handle> {
    ///     source.serve_one(reserver).ok()
    /// }
    /// ```
    ///
    /// # Errors
    ///
    /// [`Refused`], if it gives none.
    ///
    /// <details><summary>Contract</summary>
    ///
    /// <code style="display: block; tab-size: 4; white-space: pre-wrap">// In the words of [contracts](crate::contracts):
    /// requires { serves self.now reserver.old }
    /// ensures stays { serves self.now reserver.new }
    /// ensures replies { may_reply self.now reserver.old reserver.new 1 ([listed_alone](crate::contracts::ent_alloc::sequential#listed_alone) result) }
    /// ensures wanted { [IfErr](crate::contracts::logic#IfErr) result ([SaysWanted](crate::contracts::ent_alloc::serving#SaysWanted) 1) }
    /// </code>
    ///
    /// </details>
    fn serve_one(&self, reserver: &mut Self::Reserver) -> Result<Handle, Refused>;

    /// Reserves `n` handles, all of them or none. It doesn't allocate.
    ///
    /// ```
    /// use forgeni::{Handle, Refused, Source};
    ///
    /// /// A wave of ten.
    /// fn wave<S: Source>(source: &S, mine: &mut S::Reserver) -> Result<Vec<Handle>, Refused> {
    ///     Ok(source.serve_many(mine, 10)?.collect())
    /// }
    /// ```
    ///
    /// # Errors
    ///
    /// [`Refused`], if it gives none.
    ///
    /// <details><summary>Contract</summary>
    ///
    /// <code style="display: block; tab-size: 4; white-space: pre-wrap">// In the words of [contracts](crate::contracts):
    /// requires { serves self.now reserver.old }
    /// ensures stays { serves self.now reserver.new }
    /// ensures replies { may_reply self.now reserver.old reserver.new n result }
    /// ensures length { [IfOk](crate::contracts::logic#IfOk) result (λ handles. [length](crate::contracts::logic#length) handles ≡ n) }
    /// ensures enough { [OnOk](crate::contracts::logic#OnOk) result (may_give self.now reserver.old n) }
    /// ensures wanted { [IfErr](crate::contracts::logic#IfErr) result ([SaysWanted](crate::contracts::ent_alloc::serving#SaysWanted) n) }
    /// </code>
    ///
    /// </details>
    fn serve_many(&self, reserver: &mut Self::Reserver, n: u32) -> Result<Reserved<'_>, Refused>;
}
