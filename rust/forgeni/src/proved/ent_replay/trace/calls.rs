// Made of crates/ent_replay/src/trace/calls.rt by rust/erase. It isn't edited by hand.

//! The calls that nothing overlaps: each is made, and says what the allocator answered.

use alloc::vec::Vec;
use crate::traces::handle_list::HandleList;
use crate::traces::trace::call::Call;
use crate::traces::trace::fitting::{fits_born, fits_freed};
use crate::traces::trace::reply::{AllocReply, FlushReply, FreeReply};
use crate::allocator::{AllocError, Entities, FreeError};
use crate::handles::{Handle, OutOfMemory};

/// Makes the call of a line that is no reservation. If what it says was answered isn't what the
/// allocator answered, returns the line as it should be.
#[inline]
pub(super) fn answered(
    entities: &mut Entities,
    line: &Call,
) -> Result<Option<Call>, OutOfMemory>
    // requires { IsAlone line.now }
    // ensures fits { IfOk result (λ expected. IfNone expected (Fits entities.old.allocator line.now)) }
    // ensures differs { IfOk result (λ expected. IfSome expected (λ other.
    //     (¬ (Fits entities.old.allocator line.now))
    //     × (other ≡ answered_line entities.old.allocator line.now))) }
    // ensures after { OnOk result (entities.new.allocator
    //     ≡ after_line entities.old.allocator line.now) }
{
    match line {
        Call::Alloc(told) => {
            let given = allocated(entities)?;
            let fits = told.is_none_or(|told| told == given);
            Ok(if fits {
                None
            } else {
                Some(Call::Alloc(Some(given)))
            })
        }
        Call::Free(handle, told) => {
            let given = freed(entities, *handle)?;
            let fits = told.is_none_or(|told| fits_freed(told, given));
            Ok(if fits {
                None
            } else {
                Some(Call::Free(*handle, Some(given)))
            })
        }
        Call::Flush(told) => {
            let given = flushed(entities)?;
            match told {
                Some(told) if !fits_born(told, &given) => Ok(Some(Call::Flush(Some(FlushReply::Born(
                    given,
                ))))),
                _ => Ok(None),
            }
        }
        Call::State(handle, told) => {
            let given = entities.state(*handle);
            let fits = told.is_none_or(|told| told == given);
            Ok(if fits {
                None
            } else {
                Some(Call::State(*handle, Some(given)))
            })
        }
        Call::Len(told) => {
            let given = entities.len();
            let fits = told.is_none_or(|told| told == given);
            Ok(if fits {
                None
            } else {
                Some(Call::Len(Some(given)))
            })
        }
        Call::Reserve(_) => unreachable!(),
    }
}

#[inline]
fn allocated(entities: &mut Entities) -> Result<AllocReply, OutOfMemory>
    // ensures reply { IfOk result (λ reply. reply ≡ alloc_reply entities.old.allocator) }
    // ensures after { OnOk result (entities.new.allocator
    //     ≡ after_line entities.old.allocator (Call.Alloc None)) }
{
    match entities.alloc() {
        Ok(handle) => Ok(AllocReply::Handle(handle)),
        Err(AllocError::NeedsFlush) => Ok(AllocReply::NeedsFlush),
        Err(AllocError::Space) => Ok(AllocReply::Space),
        Err(AllocError::Memory) => Err(OutOfMemory),
    }
}

#[inline]
fn freed(entities: &mut Entities, handle: Handle) -> Result<FreeReply, OutOfMemory>
    // ensures reply { IfOk result (λ reply. reply ≡ free_reply entities.old.allocator handle) }
    // ensures after { OnOk result (entities.new.allocator
    //     ≡ after_line entities.old.allocator (Call.Free handle None)) }
{
    match entities.free(handle) {
        Ok(freed) => Ok(freed_reply(freed.next)),
        Err(FreeError::NeedsFlush) => Ok(FreeReply::NeedsFlush),
        Err(FreeError::NotAlive) => Ok(FreeReply::NotAlive),
        Err(FreeError::Memory) => Err(OutOfMemory),
    }
}

#[inline]
fn freed_reply(next: Option<Handle>) -> FreeReply
    // ensures { result ≡ freed_reply next }
{
    match next {
        Some(next) => FreeReply::Next(next),
        None => FreeReply::Retired,
    }
}

#[inline]
fn flushed(entities: &mut Entities) -> Result<HandleList, OutOfMemory>
    // ensures reply { IfOk result (λ handles. handles ≡ born entities.old.allocator) }
    // ensures after { OnOk result (entities.new.allocator ≡ after_flush entities.old.allocator) }
{
    let mut born = Vec::new();
    entities.flush(&mut born)?;
    Ok(HandleList::new(born))
}
