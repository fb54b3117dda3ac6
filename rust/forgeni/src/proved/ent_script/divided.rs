// Made of crates/ent_script/src/divided.rt by rust/erase. It isn't edited by hand.

//! A text that several workers read side by side. Each of them reads the whole of it, but makes
//! only the systems of its share.

use crate::scripts::in_order::script_in_order;
use crate::scripts::merging::merged;
use crate::scripts::read_fault::ReadFault;
use crate::scripts::script::Script;
use crate::scripts::share::Share;
use crate::kit::programs::json::Scratch;
use crate::kit::thread::{Join, join_mut};

/// What the workers of a share make of a text, if its frames come last. Each may need as much memory
/// as the text has bytes. An error other than `Memory` says nothing about the text.
#[inline]
pub(super) fn script_of_share<R>(
    rt: &R,
    text: &str,
    share: Share,
) -> Result<Script, ReadFault>
where
    R: Join + Sync,
    // ensures { IfOk result (Makes share text.now) }
{
    if share.count() < 2 {
        let mut scratch = Scratch::new();
        return script_in_order(text, &mut scratch, share);
    }
    let (low, high) = share.halves();
    let (first, second) = scripts_of_both(rt, text, low, high);
    Ok(merged(first?, second?)?)
}

/// What the workers of two shares make of a text, side by side.
#[inline]
fn scripts_of_both<R>(
    rt: &R,
    text: &str,
    low: Share,
    high: Share,
) -> (Result<Script, ReadFault>, Result<Script, ReadFault>)
where
    R: Join + Sync,
    // requires low { 0 < low.count }
    // requires high { 0 < high.count }
    // ensures low { IfOk result.0 (Makes low text.now) }
    // ensures high { IfOk result.1 (Makes high text.now) }
{
    let mut one = || -> Result<Script, ReadFault>
        // requires { IsSync R.row }
        // ensures { IfOk result (Makes low text.entry.now) }
    { script_of_share(rt, text, low) };
    let mut other = || -> Result<Script, ReadFault>
        // requires { IsSync R.row }
        // ensures { IfOk result (Makes high text.entry.now) }
    { script_of_share(rt, text, high) };
    join_mut(rt, &mut one, &mut other)
}
