// Made of crates/ent_runner/src/crew/collecting.rt by rust/erase. It isn't edited by hand.

//! The outputs that workers hand back are put at the numbers of their jobs.

use alloc::vec::Vec;
use crate::kit::vec::FallibleVec;
use crate::running::crew::worker::Done;

/// Puts each output at the number of its job.
#[inline]
pub(super) fn put_all<O>(done: Vec<Done<O>>, by_number: &mut [Option<O>])
    // requires { All (λ d. d.number < length by_number.old) done.items }
    // ensures { by_number.new ≡ outputs_put done.items by_number.old }
{
    for one in done {
        put(one, by_number);
    }
}

#[inline]
fn put<O>(done: Done<O>, by_number: &mut [Option<O>])
    // requires { done.number < length by_number.old }
    // ensures { by_number.new ≡ slice_set by_number.old done.number (Some done.output) }
{
    let Done { number, output } = done;
    by_number[number] = Some(output);
}

/// Moves the outputs into this list, which has room for them, in the order of the jobs.
#[inline]
pub(super) fn collect<O, E>(
    by_number: Vec<Option<(O, Option<E>)>>,
    mut outputs: Vec<O>,
) -> Vec<O>
    // requires all { All IsSome by_number.items }
    // requires empty { outputs.items ≡ [] }
    // requires room { length by_number.items ≤ vec_capacity outputs }
    // ensures { AreCollected by_number.items [] result.items }
{
    for made in by_number {
        let (output, _) = made.unwrap();
        outputs.push_reserved(output);
    }
    outputs
}
