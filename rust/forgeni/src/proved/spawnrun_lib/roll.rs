// Made of crates/spawnrun_lib/src/roll.rt by rust/erase. It isn't edited by hand.

use alloc::vec::Vec;
use crate::handles::{Birth, Handle, OutOfMemory};
use crate::worlds::View;

// How many births are looked up by a look at each entity before the entities are listed. The list
// takes memory, and the time of a sort.
const LOOKS: u32 = 2;

/// The entities of a view in the order of their births, listed once many births are looked up.
///
/// Where a system's spawns all live, each stands as far behind another as it was spawned after it.
/// So a birth is first looked for as far from its ordinal as the one before was.
pub(super) struct Roll {
    handles: Vec<Handle>,
    looks: u32,
    ahead: usize,
    behind: usize,
}

impl Roll {
    /// No entity is listed. It doesn't allocate.
    #[inline]
    pub(super) fn new() -> Self
        // ensures { result ≡ [] }
    {
        Roll {
            handles: Vec::new(),
            looks: 0,
            ahead: 0,
            behind: 0,
        }
    }

    /// The handle of the entity with that birth, the least if there are several.
    #[inline]
    pub(super) fn find(&mut self, view: &View<'_>, birth: Birth) -> Result<Option<Handle>, OutOfMemory>
        // requires { IsRollOf view.now self.old }
        // ensures roll { IsRollOf view.now self.new }
        // ensures found { IfOk result (λ found.
        //     IfSome found (λ handle. IsOfBirth view.now birth (handle ∷ []))) }
        // ensures none { IfOk result (λ found. IfNone found (IsOfBirth view.now birth [])) }

        // Memory is wanted for the list alone, and not for a list of nobody.
        // ensures memory { OnErr result (view.now.entities ≢ map.empty) }
    {
        if self.looks < LOOKS {
            self.looks += 1;
            return Ok(view.of_birth(birth));
        }
        if self.handles.is_empty() {
            self.handles = view.by_birth()?;
        }
        let ordinal = birth.ordinal as usize;
        let guess = ordinal
            .saturating_add(self.ahead)
            .saturating_sub(self.behind);
        let index = first_from(&self.handles, view, birth, guess);
        self.ahead = index.saturating_sub(ordinal);
        self.behind = ordinal.saturating_sub(index);
        Ok(of_birth(&self.handles, view, birth, index))
    }
}

/// The same among the handles of all entities, in the order of births. So many of them have an
/// earlier birth.
#[inline]
fn of_birth(handles: &[Handle], view: &View<'_>, birth: Birth, index: usize) -> Option<Handle>
    // requires lists { ListsAll view.now.entities handles.now }
    // requires first { IsFirstFrom view.now birth handles.now index }
    // ensures found { IfSome result (λ handle. IsOfBirth view.now birth (handle ∷ [])) }
    // ensures none { IfNone result (IsOfBirth view.now birth []) }
{
    let first = *handles.get(index)?;
    if view.birth(first) == Some(birth) {
        Some(first)
    } else {
        None
    }
}

/// How many of the handles have an earlier birth. The guess is tried first.
#[inline]
fn first_from(handles: &[Handle], view: &View<'_>, birth: Birth, guess: usize) -> usize
    // requires { ListsAll view.now.entities handles.now }
    // ensures { IsFirstFrom view.now birth handles.now result }
{
    if is_first(handles, view, birth, guess) {
        return guess;
    }
    handles.partition_point(|handle| is_before(view, *handle, birth))
}

/// Whether there is a handle at the index, and those before it, and no others, have an earlier
/// birth.
#[inline]
fn is_first(handles: &[Handle], view: &View<'_>, birth: Birth, index: usize) -> bool
    // requires { ListsAll view.now.entities handles.now }
    // ensures { IsTrue result → IsFirstFrom view.now birth handles.now index }
{
    if index >= handles.len() || is_before(view, handles[index], birth) {
        return false;
    }
    index == 0 || is_before(view, handles[index - 1], birth)
}

/// Whether the entity has an earlier birth.
#[inline]
fn is_before(view: &View<'_>, handle: Handle, birth: Birth) -> bool
    // ensures { result ≡ is_before view.now birth handle }
{
    view.birth(handle) < Some(birth)
}
