// Made of crates/ent_log/src/handing.rt by rust/erase. It isn't edited by hand.

use crate::logs::entry::Entry;
use crate::logs::rest::Rest;
use crate::allocator::Entities;

/// Calls `run` at the entry in front, if there is one, and then at the rest in turn, until it
/// fails. The entry that it handed back then is in front.
#[inline]
pub(super) fn hand_on<C, E, F>(
    front: &mut Option<Entry<C>>,
    rest: &mut Rest<C>,
    entities: &mut Entities,
    mut run: F,
) -> Result<(), E>
where
    F: FnMut(&mut Entities, Entry<C>) -> Result<(), (Entry<C>, E)>,
    // requires callable { F.IsAlwaysCallable run }
    // ensures all { OnOk result (TakesAll F.step run entities.old
    //     (option_to_list front.old ++ rest.old) entities.new) }
    // ensures done { OnOk result (option_to_list front.new ++ rest.new ≡ []) }
    // ensures fails { IfErr result (λ error. FailsAt F.step run entities.old
    //     (option_to_list front.old ++ rest.old) error (option_to_list front.new ++ rest.new)
    //     entities.new) }
{
    let mut next = match front.take() {
        Some(entry) => Some(entry),
        None => rest.take_next(),
    };
    while let Some(entry) = next {
        if let Err((entry, error)) = run(entities, entry) {
            *front = Some(entry);
            return Err(error);
        }
        next = rest.take_next();
    }
    Ok(())
}
