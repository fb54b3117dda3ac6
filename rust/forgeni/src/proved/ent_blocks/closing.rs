// Made of crates/ent_blocks/src/closing.rt by rust/erase. It isn't edited by hand.

use alloc::vec::Vec;
use crate::kit::vec::FallibleVec;
use crate::in_blocks::part::Part;
use crate::allocator::{Entities, Portion};
use crate::handles::OutOfMemory;

/// Takes what was used of these blocks, and leaves what is left of them in the pool.
#[inline]
pub(super) fn take_used(
    entities: &mut Entities,
    blocks: &[Part],
) -> Result<(), OutOfMemory>
    // requires flushed { entities.old.allocator.asked ≡ 0 }
    // requires laid { AreLaid 0 (map unused blocks.now) }
    // requires within { dealt blocks.now ≤ length entities.old.allocator.pool }
    // ensures ok { OnOk result
    //     (entities.new.allocator ≡ after_blocks entities.old.allocator blocks.now) }
    // ensures used { OnOk result (AreUsed (portions_of blocks.now)) }
    // ensures rows { entities.new.rows ≡ entities.old.rows }
    // ensures rows_of_living { HasRowsOfLiving entities.new }
    // ensures err { OnErr result (entities.new ≡ entities.old) }
    // ensures memory { OnErr result (0 < length blocks.now) }
{
    let _cursor = entities.cursor();
    let portions = portions_of(blocks)?;
    entities.take_portions(&portions)?;
    Ok(())
}

/// The blocks as portions of the pool's front, one after the other.
#[inline]
fn portions_of(blocks: &[Part]) -> Result<Vec<Portion>, OutOfMemory>
    // ensures portions { IfOk result (λ portions. portions.items ≡ portions_of blocks.now) }
    // ensures used { OnOk result (AreUsed (portions_of blocks.now)) }
    // ensures memory { OnErr result (0 < length blocks.now) }
{
    let mut portions = Vec::with_capacity_fallibly(blocks.len())?;
    for block in blocks {
        portions.push_reserved(block.portion());
    }
    Ok(portions)
}
