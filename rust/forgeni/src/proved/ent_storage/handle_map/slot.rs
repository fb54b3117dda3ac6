// Made of crates/ent_storage/src/handle_map/slot.rt by rust/erase. It isn't edited by hand.

use alloc::vec::Vec;
use crate::kit::vec::FallibleVec;
use crate::components::handle_map::generation::Generation;
use crate::handles::Handle;
use crate::kit::alloc::AllocError;

/// What is in a slot.
#[derive(Clone, Copy)]
pub(crate) enum Slot<T> {
    /// No value.
    Vacant,
    /// The value of the occupant of that generation.
    Occupied { generation: Generation, value: T },
}

impl<T> Slot<T> {
    /// The slot with the value of a handle.
    #[inline]
    pub(super) fn of(handle: Handle, value: T) -> Self
        // ensures { result ≡ Slot.Occupied handle.generation value }
    {
        Slot::Occupied {
            generation: Generation::of(handle),
            value,
        }
    }

    /// The generation of the occupant that has the value. It is 0 if there is no value.
    #[inline]
    pub(crate) fn generation(&self) -> u32
        // ensures { result ≡ generation_of self.now }
    {
        match self {
            Slot::Vacant => 0,
            Slot::Occupied { generation, .. } => generation.number(),
        }
    }

    /// The handle of the occupant that has the value, if the slot is that of the index.
    #[inline]
    pub(crate) fn handle(&self, index: u32) -> Option<Handle>
        // requires { index < 2 ^ 32 - 1 }
        // ensures { result ≡ handle_in self.now index }
    {
        match self {
            Slot::Vacant => None,
            Slot::Occupied { generation, .. } => Some(generation.handle(index)),
        }
    }

    /// The value, if it is that of the generation.
    #[inline]
    pub(super) fn value(&self, wanted: u32) -> Option<&T>
        // ensures { option_copied result ≡ value_under self.now wanted }
    {
        match self {
            Slot::Vacant => None,
            Slot::Occupied { generation, value } => {
                if generation.number() == wanted {
                    Some(value)
                } else {
                    None
                }
            }
        }
    }
}

impl<T> Slot<T> {
    /// The value, if it is that of the generation. Any other one is dropped.
    #[inline]
    pub(crate) fn into_value(self, wanted: u32) -> Option<T>
        // ensures { result ≡ value_under self wanted }
    {
        match self {
            Slot::Vacant => None,
            Slot::Occupied { generation, value } => {
                if generation.number() == wanted {
                    Some(value)
                } else {
                    None
                }
            }
        }
    }
}

impl<T> Slot<T> {
    /// The value for writing. There has to be one.
    #[inline]
    pub(crate) fn value_mut(&mut self) -> &mut T
        // requires { IsSome (any_value self.old) }
        // ensures* lends { sem 𝓛 (Lends (the_row T.row) T.row self.entry result
        //     (λ w. Slot.Occupied (generation_of self.old) w)) }
        // ensures value { any_value self.old ≡ Some result.now }
    {
        match self {
            Slot::Occupied { value, .. } => value,
            Slot::Vacant => unreachable!(),
        }
    }
}

/// Makes all slots before an index that lies after all slots, and room for that of the index.
/// Those that are new are vacant.
#[inline]
pub(super) fn add_slots<T>(slots: &mut Vec<Slot<T>>, index: usize) -> Result<(), AllocError>
    // requires beyond { length slots.old.items ≤ index }
    // requires few { index < 2 ^ 32 - 1 }
    // ensures ok { OnOk result (slots.new.items ≡ padded slots.old.items index) }
    // ensures room { OnOk result (index < vec_capacity slots.new) }
    // ensures err { OnErr result (slots.new.items ≡ slots.old.items) }
    // ensures capacity { vec_capacity slots.old ≤ vec_capacity slots.new }
    // ensures kept { OnErr result (vec_capacity slots.new ≡ vec_capacity slots.old) }
    // ensures memory { OnErr result (vec_capacity slots.old ≤ index) }
{
    let made = slots.len();
    slots.reserve_fallibly(index + 1 - made)?;
    for _ in made..index {
        slots.push_reserved(Slot::Vacant);
    }
    Ok(())
}

/// Puts clones of the other slots behind all slots. With none, it doesn't allocate.
#[inline]
pub(super) fn append_clones<T: Clone>(
    slots: &mut Vec<Slot<T>>,
    others: &[Slot<T>],
) -> Result<(), AllocError>
    // ensures ok { OnOk result (AppendsClones (IsSlotClone T.is_clone)
    //     slots.old.items slots.new.items others.now) }
    // ensures err { OnErr result (slots.new.items ≡ slots.old.items) }
    // ensures capacity { vec_capacity slots.old ≤ vec_capacity slots.new }
    // ensures memory { OnErr result (0 < length others.now) }
{
    if others.is_empty() {
        return Ok(());
    }
    slots.extend_from_slice_fallibly(others)
}
