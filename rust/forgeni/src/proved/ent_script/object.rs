// Made of crates/ent_script/src/object.rt by rust/erase. It isn't edited by hand.

use crate::scripts::leaf::Leaf;
use crate::handles::OutOfMemory;
use crate::kit::collections::BTreeMap;

/// The members of an object, in the order of their keys. Most objects have one, which takes no
/// memory.
pub(super) enum Object<'a> {
    Empty,
    One(&'a str, Leaf<'a>),
    Many(BTreeMap<&'a str, Leaf<'a>>),
}

/// Puts a member into a map.
#[inline]
fn insert<'a>(
    map: &mut BTreeMap<&'a str, Leaf<'a>>,
    key: &'a str,
    leaf: Leaf<'a>,
) -> Result<(), OutOfMemory>
    // ensures ok { OnOk result (leaves_of map.new.entries
    //     ≡ put key.now (leaf_data leaf.entry) (leaves_of map.old.entries)) }
{
    map.insert(key, leaf)?;
    Ok(())
}

impl<'a> Object<'a> {
    /// The members with this one. Of a key that comes twice the last value counts.
    #[inline]
    pub(super) fn with(
        self,
        key: &'a str,
        leaf: Leaf<'a>,
    ) -> Result<Object<'a>, OutOfMemory>
        // ensures ok { IfOk result (λ new. members_of new
        //     ≡ put key.now (leaf_data leaf.entry) (members_of self.entry)) }
    {
        match self {
            Object::Empty => Ok(Object::One(key, leaf)),
            Object::One(first, before) => {
                let mut map = BTreeMap::new();
                insert(&mut map, first, before)?;
                insert(&mut map, key, leaf)?;
                Ok(Object::Many(map))
            }
            Object::Many(before) => {
                let mut map = before;
                insert(&mut map, key, leaf)?;
                Ok(Object::Many(map))
            }
        }
    }

    /// The only member.
    #[inline]
    pub(super) fn only(&self) -> Option<(&str, &Leaf<'a>)>
        // ensures { option_map {U = List ℕ × Data} (λ m. (m.0.now, leaf_data m.1.now)) result
        //     ≡ only (pairs_of (members_of self.now)) }
    {
        match self {
            Object::Empty => None,
            Object::One(key, leaf) => Some((key, leaf)),
            Object::Many(map) => only_of(map),
        }
    }
}

#[inline]
fn only_of<'a, 'b>(members: &'b BTreeMap<&'a str, Leaf<'a>>) -> Option<(&'b str, &'b Leaf<'a>)>
    // ensures { option_map {U = List ℕ × Data} (λ m. (m.0.now, leaf_data m.1.now)) result
    //     ≡ only (pairs_of (leaves_of members.now.entries)) }
{
    if members.len() != 1 {
        return None;
    }
    let (key, leaf) = members.first_key_value()?;
    Some((key, leaf))
}
