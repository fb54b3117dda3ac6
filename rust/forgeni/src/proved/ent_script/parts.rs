// Made of crates/ent_script/src/parts.rt by rust/erase. It isn't edited by hand.

use crate::scripts::birth::birth;
use crate::scripts::bundle::Bundle;
use crate::scripts::cause::Cause;
use crate::scripts::leaf::Leaf;
use crate::scripts::names::Names;
use crate::scripts::object::Object;
use crate::scripts::part::Part;
use crate::scripts::part_fault::PartFault;
use crate::scripts::sizes::SPAWNED;
use crate::scripts::target::Target;
use crate::handles::{ComponentId, Handle};
use crate::kit::collections::BTreeMap;

/// The number of a component.
#[inline]
pub(super) fn component(components: &Names<'_>, name: &str) -> Option<ComponentId>
    // requires { length components.now ≤ most_components }
    // ensures { result ≡ component_of components.now name.now }
{
    let number = components.find(name)?;
    Some(ComponentId(number as u8))
}

/// How many, from 0 to 65,536.
#[inline]
pub(super) fn count(part: Option<&Part<'_>>) -> Result<u32, Cause>
    // ensures { result ≡ count_of (option_map (λ p. data_of p.now) part.entry) }
{
    let value = part.ok_or(Cause::Count)?;
    value.at_most(SPAWNED).ok_or(Cause::Count)
}

/// The number of the name that is bound: that of the name if it is bound, and else the next.
#[inline]
pub(super) fn binding(bound: &Names<'_>, part: Option<&Part<'_>>) -> Result<Option<usize>, Cause>
    // ensures { result ≡ binding_of bound.now (option_map (λ p. data_of p.now) part.entry) }
{
    let Some(value) = part else {
        return Ok(None);
    };
    let name = value.name().ok_or(Cause::Name)?;
    Ok(Some(bound.find(name).unwrap_or(bound.len())))
}

/// The component that a removal is of.
#[inline]
pub(super) fn removed(components: &Names<'_>, part: Option<&Part<'_>>) -> Result<ComponentId, Cause>
    // requires { length components.now ≤ most_components }
    // ensures { result ≡ removed_of components.now (option_map (λ p. data_of p.now) part.entry) }
{
    let value = part.ok_or(Cause::Component)?;
    let name = value.text().ok_or(Cause::Component)?;
    component(components, name).ok_or(Cause::Component)
}

/// A birth of a frame before this one. Without a frame no target has a birth.
#[inline]
fn target_birth(before: Option<usize>, text: &str) -> Result<Target, Cause>
    // ensures { result ≡ target_birth before text.now }
{
    let before = before.ok_or(Cause::Target)?;
    Ok(Target::Birth(birth(before, text)?))
}

#[inline]
fn target_at(
    components: &Names<'_>,
    bound: &Names<'_>,
    before: Option<usize>,
    key: &str,
    text: &str,
) -> Result<Target, Cause>
    // requires { length components.now ≤ most_components }
    // ensures { result ≡ target_at components.now bound.now before key.now text.now }
{
    if key == "name" {
        let number = bound.find(text).ok_or(Cause::Name)?;
        Ok(Target::Name(number))
    } else if key == "handle" {
        let handle = Handle::read_text(text.as_bytes()).map_err(|_| Cause::Handle)?;
        Ok(Target::Handle(handle))
    } else if key == "each" {
        let id = component(components, text).ok_or(Cause::Component)?;
        Ok(Target::Each(id))
    } else if key == "birth" {
        target_birth(before, text)
    } else {
        Err(Cause::Target)
    }
}

/// Which entities an operation is for. A birth is of a frame before the one that is said.
#[inline]
pub(super) fn target(
    components: &Names<'_>,
    bound: &Names<'_>,
    before: Option<usize>,
    part: Option<&Part<'_>>,
) -> Result<Target, Cause>
    // requires { length components.now ≤ most_components }
    // ensures { result ≡ target_of components.now bound.now before
    //     (option_map (λ p. data_of p.now) part.entry) }
{
    let found = part.ok_or(Cause::Target)?.members().ok_or(Cause::Target)?;
    let (key, leaf) = found.only().ok_or(Cause::Target)?;
    let text = leaf.text().ok_or(Cause::Target)?;
    target_at(components, bound, before, key, text)
}

/// The component and the value of a bundle's member.
#[inline]
fn item(components: &Names<'_>, key: &str, leaf: &Leaf<'_>) -> Result<(ComponentId, i64), Cause>
    // requires { length components.now ≤ most_components }
    // ensures { result ≡ item_of components.now (key.now, leaf_data leaf.now) }
{
    let id = component(components, key).ok_or(Cause::Component)?;
    let number = leaf.whole().ok_or(Cause::Value)?;
    Ok((id, number))
}

#[inline]
fn items_of(
    components: &Names<'_>,
    members: &BTreeMap<&str, Leaf<'_>>,
) -> Result<Bundle, PartFault>
    // requires { length components.now ≤ most_components }
    // ensures { ReadsPart result (bundle_by components.now
    //     (map (λ m. (m.0.now, leaf_data m.1)) members.now.entries)) }
{
    let mut bundle = Bundle::with_capacity(members.len().min(components.len()))?;
    for (key, leaf) in members {
        let (id, number) = item(components, key, leaf)?;
        bundle.put(id, number)?;
    }
    Ok(bundle)
}

#[inline]
fn one_item(
    components: &Names<'_>,
    key: &str,
    leaf: &Leaf<'_>,
) -> Result<Bundle, PartFault>
    // requires { length components.now ≤ most_components }
    // ensures { ReadsPart result (bundle_by components.now ((key.now, leaf_data leaf.now) ∷ [])) }
{
    let (id, number) = item(components, key, leaf)?;
    let mut bundle = Bundle::new();
    bundle.put(id, number)?;
    Ok(bundle)
}

#[inline]
fn items(components: &Names<'_>, members: &Object<'_>) -> Result<Bundle, PartFault>
    // requires { length components.now ≤ most_components }
    // ensures { ReadsPart result (bundle_by components.now (pairs_of (members_of members.now))) }
{
    match members {
        Object::Empty => Ok(Bundle::new()),
        Object::One(key, leaf) => one_item(components, key, leaf),
        Object::Many(map) => items_of(components, map),
    }
}

/// Components and their values.
#[inline]
pub(super) fn bundle(
    components: &Names<'_>,
    part: Option<&Part<'_>>,
) -> Result<Bundle, PartFault>
    // requires { length components.now ≤ most_components }
    // ensures { ReadsPart result (read_bundle components.now
    //     (option_map (λ p. data_of p.now) part.entry)) }
{
    let found = part.ok_or(Cause::Bundle)?.members().ok_or(Cause::Bundle)?;
    items(components, found)
}

/// A bundle that may be absent.
#[inline]
pub(super) fn bundle_or_none(
    components: &Names<'_>,
    part: Option<&Part<'_>>,
) -> Result<Bundle, PartFault>
    // requires { length components.now ≤ most_components }
    // ensures { ReadsPart result (with_of components.now
    //     (option_map (λ p. data_of p.now) part.entry)) }
{
    if part.is_none() {
        return Ok(Bundle::new());
    }
    bundle(components, part)
}
