// Made of crates/ent_blocks/src/taking.rt by rust/erase. It isn't edited by hand.

//! What a block gives: its next handle, or the next ones.

use alloc::vec::Vec;
use crate::kit::vec::FallibleVec;
use crate::in_blocks::part::Part;
use crate::allocator::{Entities, Reserved, Space, Span};
use crate::handles::Handle;

/// Uses the next handle of the block.
#[inline]
pub(super) fn take_one(entities: &Entities, part: &mut Part) -> Result<Handle, Space>
    // requires flushed { entities.now.allocator.asked ≡ 0 }
    // requires within { part.old.before + part.old.size ≤ length entities.now.allocator.pool }
    // requires few { part.old.before + part.old.size < 2 ^ 32 }
    // ensures reply { listed_alone result
    //     ≡ reply_from entities.now.allocator.made (rest_of entities.now.allocator.pool part.old) 1 }
    // ensures ok { OnOk result (part.new ≡ after_use part.old 1) }
    // ensures err { OnErr result (part.new ≡ part.old) }
    // ensures space { IfErr result (λ why. why ≡ record { wanted = 1; left = 0 }) }
    // ensures full { OnErr result (part.old.used ≡ part.old.size) }
{
    if part.left() == 0 {
        return Err(Space { wanted: 1, left: 0 });
    }
    let handle = handle_at(entities, part.before() + part.used());
    part.advance(1);
    Ok(handle)
}

/// Uses the next `n` handles of the block, which has so many left.
#[inline]
pub(super) fn take_many<'a>(entities: &'a Entities, part: &mut Part, n: u32) -> Reserved<'a>
    // requires flushed { entities.now.allocator.asked ≡ 0 }
    // requires within { part.old.before + part.old.size ≤ length entities.now.allocator.pool }
    // requires few { part.old.before + part.old.size < 2 ^ 32 }
    // requires left { part.old.used + n ≤ part.old.size }
    // ensures given { result ≡ listed entities.now.allocator.made
    //     (take n (rest_of entities.now.allocator.pool part.old)) }
    // ensures length { length result ≡ n }
    // ensures ok { part.new ≡ after_use part.old n }
{
    // Its contract says that the state is sound.
    let _cursor = entities.cursor();
    let top = i64::from(entities.top());
    let next = part.before() + part.used();
    let span = Span::new(top - i64::from(next), n);
    part.advance(n);
    let Ok(given) = entities.reply(span) else {
        unreachable!()
    };
    given
}

/// Appends what was given to a list that has room for it.
#[inline]
pub(super) fn append(handles: &mut Vec<Handle>, given: Reserved<'_>)
    // requires { vec_len handles.old + length given ≤ vec_capacity handles.old }
    // ensures { handles.new.items ≡ handles.old.items ++ given.entry }
{
    for handle in given {
        handles.push_reserved(handle);
    }
}

/// The handle at a position of the pool, from its front.
#[inline]
fn handle_at(entities: &Entities, position: u32) -> Handle
    // requires flushed { entities.now.allocator.asked ≡ 0 }
    // requires within { position < length entities.now.allocator.pool }
    // ensures { slice_get entities.now.allocator.pool position ≡ Some result }
{
    let high = entities.cursor() - i64::from(position);
    let Ok(handle) = entities.reply_one(high) else {
        unreachable!()
    };
    handle
}
