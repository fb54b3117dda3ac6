// Made of crates/ent_script/src/merging.rt by rust/erase. It isn't edited by hand.

//! Scripts of two shares, put together.

use alloc::vec::Vec;
use crate::kit::vec::FallibleVec;
use crate::scripts::frame::Frame;
use crate::scripts::script::Script;
use crate::scripts::system::System;
use crate::handles::OutOfMemory;

/// The script with the frames of both. The limits and the components are those of the first one.
#[inline]
pub(super) fn merged(first: Script, second: Script) -> Result<Script, OutOfMemory>
    // ensures { IfOk result (λ script.
    //     script ≡ record first { frames = both (both with_operations) first.frames second.frames }) }
{
    let (limits, components, frames) = first.into_parts();
    let (_, _, others) = second.into_parts();
    Ok(Script::new(limits, components, both_frames(frames, others)?))
}

#[inline]
fn both_frames(frames: Vec<Frame>, others: Vec<Frame>) -> Result<Vec<Frame>, OutOfMemory>
    // ensures { IfOk result (λ all. all.items ≡ both (both with_operations) frames.items others.items) }
{
    let mut all = Vec::with_capacity_fallibly(frames.len())?;
    let mut others = others.into_iter();
    for frame in frames {
        all.push_reserved(frame_beside(frame, others.next())?);
    }
    Ok(all)
}

#[inline]
fn frame_beside(frame: Frame, other: Option<Frame>) -> Result<Frame, OutOfMemory>
    // ensures { IfOk result (λ all. all ≡ option_map_or (both with_operations frame) other frame) }
{
    let Some(other) = other else {
        return Ok(frame);
    };
    let systems = both_systems(frame.into_systems(), other.into_systems())?;
    Ok(Frame::new(systems))
}

#[inline]
fn both_systems(
    systems: Vec<System>,
    others: Vec<System>,
) -> Result<Vec<System>, OutOfMemory>
    // ensures { IfOk result (λ all. all.items ≡ both with_operations systems.items others.items) }
{
    let mut all = Vec::with_capacity_fallibly(systems.len())?;
    let mut others = others.into_iter();
    for system in systems {
        all.push_reserved(system_beside(system, others.next()));
    }
    Ok(all)
}

/// The one that has operations.
#[inline]
fn system_beside(system: System, other: Option<System>) -> System
    // ensures { result ≡ option_map_or (with_operations system) other system }
{
    match other {
        Some(other) if system.operations().is_empty() => other,
        _ => system,
    }
}
