// Made of crates/ent_script/src/kind.rt by rust/erase. It isn't edited by hand.

use crate::scripts::fields::Fields;

/// What an operation does.
#[derive(Clone, Copy)]
pub(super) enum Kind {
    Spawn,
    SpawnMany,
    Insert,
    Remove,
    Despawn,
}

#[inline]
fn is_spawn(fields: &Fields<'_>) -> bool
    // ensures { (ms : Members) → AreFields fields.now ms → result ≡ is_spawn (object ms) }
{
    fields.spawn.is_some() && fields.kinds.spawn
}

#[inline]
fn is_spawn_many(fields: &Fields<'_>) -> bool
    // ensures { (ms : Members) → AreFields fields.now ms → result ≡ is_spawn_many (object ms) }
{
    fields.spawn_many.is_some() && fields.kinds.spawn_many
}

#[inline]
fn is_insert(fields: &Fields<'_>) -> bool
    // ensures { (ms : Members) → AreFields fields.now ms → result ≡ is_insert (object ms) }
{
    fields.insert.is_some() && (fields.on.is_some() && fields.kinds.insert)
}

#[inline]
fn is_remove(fields: &Fields<'_>) -> bool
    // ensures { (ms : Members) → AreFields fields.now ms → result ≡ is_remove (object ms) }
{
    fields.remove.is_some() && (fields.on.is_some() && fields.kinds.remove)
}

#[inline]
fn is_despawn(fields: &Fields<'_>) -> bool
    // ensures { (ms : Members) → AreFields fields.now ms → result ≡ is_despawn (object ms) }
{
    fields.despawn.is_some() && fields.kinds.despawn
}

/// What an operation does, by its keys.
#[inline]
pub(super) fn kind_of(fields: &Fields<'_>) -> Option<Kind>
    // ensures { (ms : Members) → AreFields fields.now ms → result ≡ kind_of (object ms) }
{
    if is_spawn(fields) {
        Some(Kind::Spawn)
    } else if is_spawn_many(fields) {
        Some(Kind::SpawnMany)
    } else if is_insert(fields) {
        Some(Kind::Insert)
    } else if is_remove(fields) {
        Some(Kind::Remove)
    } else if is_despawn(fields) {
        Some(Kind::Despawn)
    } else {
        None
    }
}
