// Made of crates/ent_world/src/dealt.rt by rust/erase. It isn't edited by hand.

//! A world whose allocator is in a phase in blocks.

use alloc::vec::Vec;
use crate::worlds::view::View;
use crate::worlds::world::World;
use crate::worlds::world_rest::WorldRest;
use crate::in_blocks::Deals;
use crate::handles::{HandedBack, OutOfMemory};

/// What deals the handles of a world, and the rest of the world.
pub struct Dealt<S: Deals> {
    source: S,
    rest: WorldRest,
}

impl World {
    /// Deals the front of the allocator's pool in blocks of these sizes, as [`Deals::deal`] does.
    ///
    /// # Errors
    ///
    /// [`HandedBack`] has the world as it was, if an allocation fails, and for no other reason.
    #[inline]
    pub(crate) fn deal_blocks<S: Deals>(
        self,
        sizes: &[u32],
    ) -> Result<(Dealt<S>, Vec<S::Reserver>), HandedBack<Self, OutOfMemory>>
        // requires flushed { self.allocator.asked ≡ 0 }
        // requires few { S.may_have (length sizes.now) }
        // ensures world { IfOk result (λ made.
        //     world_with (S.start made.0.source) made.0.rest ≡ self) }
        // ensures blocks { IfOk result (λ made. S.blocks made.0.source
        //     ≡ blocks_from 0 (length self.allocator.pool) sizes.now) }
        // ensures reservers { IfOk result (λ made.
        //     map S.block made.1.items ≡ S.blocks made.0.source) }
        // ensures own { IfOk result (λ made. All (S.serves made.0.source) made.1.items) }
        // ensures takes { IfOk result (λ made. S.takes made.0.source made.1.items) }
        // ensures count { IfOk result (λ made. length made.1.items ≡ S.count made.0.source) }
        // ensures many { IfOk result (λ made. length made.1.items ≡ length sizes.now) }
        // ensures fresh { IfOk result (λ made. All S.fresh made.1.items) }
        // ensures err { IfErr result (λ h. h.value ≡ self) }
    {
        let (entities, rest) = self.apart();
        match S::deal(entities, sizes) {
            Ok((source, callers)) => Ok((Dealt { source, rest }, callers)),
            Err((entities, error)) => Err(HandedBack::new(rest.with(entities), error)),
        }
    }
}

impl<S: Deals> Dealt<S> {
    /// What deals the handles.
    ///
    /// <details><summary>Contract</summary>
    ///
    /// <code style="display: block; tab-size: 4; white-space: pre-wrap">// In the words of [contracts](crate::contracts):
    /// ensures { result.now ≡ self.now.source }
    /// </code>
    ///
    /// </details>
    #[inline(always)]
    pub fn dealer(&self) -> &S {
        &self.source
    }

    /// The world as it was when the phase was opened.
    ///
    /// <details><summary>Contract</summary>
    ///
    /// <code style="display: block; tab-size: 4; white-space: pre-wrap">// In the words of [contracts](crate::contracts):
    /// ensures phase { result.phase ≡ self.now.rest.phase }
    /// ensures entities { result.entities ≡ self.now.rest.store.entities }
    /// </code>
    ///
    /// </details>
    #[inline]
    pub fn view(&self) -> View<'_> {
        self.rest.view(self.source.as_opened())
    }

    /// What deals the handles, and the rest of the world.
    ///
    /// <details><summary>Contract</summary>
    ///
    /// <code style="display: block; tab-size: 4; white-space: pre-wrap">// In the words of [contracts](crate::contracts):
    /// ensures source { result.0 ≡ self.source }
    /// ensures rest { result.1 ≡ self.rest }
    /// ensures parts { [BelongTogether](crate::contracts::ent_world::in_blocks#BelongTogether) (S.start result.0) (S.rows result.0) result.1 }
    /// </code>
    ///
    /// </details>
    #[inline]
    pub fn into_parts(self) -> (S, WorldRest) {
        let Dealt { source, rest } = self;
        (source, rest)
    }
}
