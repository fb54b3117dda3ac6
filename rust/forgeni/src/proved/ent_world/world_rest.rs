// Made of crates/ent_world/src/world_rest.rt by rust/erase. It isn't edited by hand.

//! A world is taken apart while its allocator is in a phase, and put together again.

use crate::worlds::view::View;
use crate::worlds::world::World;
use crate::allocator::Entities;
use crate::in_blocks::Ended;
use crate::handles::{HandedBack, OutOfMemory};
use crate::components::Rows;

/// A world without its allocator, which is in a phase.
pub struct WorldRest {
    storage: Rows,
    phase: u64,
}

impl World {
    /// Takes the world apart: its allocator, and the rest.
    #[inline]
    pub(super) fn apart(self) -> (Entities, WorldRest)
        // ensures world { world_with result.0.allocator result.1 ≡ self }
        // ensures parts { BelongTogether result.0.allocator result.0.rows result.1 }
    {
        let World {
            entities,
            storage,
            phase,
        } = self;
        let rest = WorldRest {
            storage,
            phase,
        };
        (entities, rest)
    }
}

impl WorldRest {
    /// The world as it was when its phase was opened, with the allocator as it was then.
    #[inline]
    pub(super) fn view<'a>(&'a self, entities: &'a Entities) -> View<'a>
        // requires { AreRows entities.now.rows self.now.store.places self.now.store.entities }
        // ensures phase { result.phase ≡ self.now.phase }
        // ensures entities { result.entities ≡ self.now.store.entities }
    {
        View::new(entities, &self.storage, self.phase)
    }

    /// Puts the world together with an allocator that belongs to it, such as the one that it was
    /// taken apart from.
    #[inline]
    pub(crate) fn with(self, entities: Entities) -> World
        // requires parts { BelongTogether entities.allocator entities.rows self }
        // ensures world { result ≡ world_with entities.allocator self }
        // ensures is { IsWorld result }
    {
        let WorldRest {
            storage,
            phase,
        } = self;
        World {
            entities,
            storage,
            phase,
        }
    }

    /// Puts the world together with its allocator, whose phase in blocks has ended: what was used
    /// is reserved. It makes room for an entity of each handle up to the last one that was used.
    ///
    /// # Errors
    ///
    /// [`HandedBack`] has both, as they were except for the room, if an allocation fails, and for
    /// no other reason. The call can be tried again.
    #[inline]
    pub(crate) fn settle(self, ended: Ended) -> Result<World, HandedBack<(Self, Ended), OutOfMemory>>
        // requires parts { BelongTogether ended.phase.start ended.phase.rows self }
        // ensures after { IfOk result (λ w.
        //     w ≡ world_after (world_with ended.phase.start self) ended.phase.blocks) }
        // ensures world { IfOk result IsWorld }
        // ensures anew { IfOk result (λ w. TakesAnew ended.phase.start w.allocator) }
        // ensures ended { IfErr result (λ h. h.value.1 ≡ ended) }
        // ensures same { IfErr result (λ h. (h.value.0.phase ≡ self.phase)
        //     × (h.value.0.store.entities ≡ self.store.entities)) }
        // ensures parts { IfErr result (λ h.
        //     BelongTogether ended.phase.start ended.phase.rows h.value.0) }
        // ensures memory { IfErr result (λ _. 0 < length ended.phase.blocks) }
    {
        let WorldRest {
            mut storage,
            phase,
        } = self;
        let Ok(()) = storage.reserve(ended.dealt() as usize) else {
            let rest = WorldRest {
                storage,
                phase,
            };
            return Err(HandedBack::new((rest, ended), OutOfMemory));
        };
        match ended.into_entities() {
            Ok(entities) => {
                // Its contract says that the state is sound.
                let _cursor = entities.cursor();
                Ok(World {
                    entities,
                    storage,
                    phase,
                })
            }
            Err(unended) => {
                let (ended, error) = unended.into_parts();
                let rest = WorldRest {
                    storage,
                    phase,
                };
                Err(HandedBack::new((rest, ended), error))
            }
        }
    }
}
