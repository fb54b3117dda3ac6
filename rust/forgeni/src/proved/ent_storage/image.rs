// Made of crates/ent_storage/src/image.rt by rust/erase. It isn't edited by hand.

//! Entities as bytes, and back: what the image of a world has of its living ones.

use alloc::vec::Vec;
use crate::kit::prove_eq;
use crate::kit::vec::FallibleVec;
use crate::components::image_fault::StorageImageFault;
use crate::components::rows::Rows;
use crate::handles::{
    Birth, ComponentId, Handle, OutOfMemory, read_long, read_word, write_long, write_word,
};

/// Appends a birth. There is room for its 16 bytes.
#[inline]
fn write_birth(out: &mut Vec<u8>, birth: Birth)
    // requires { vec_len out.old + 16 ≤ vec_capacity out.old }
    // ensures items { out.new.items ≡ out.old.items ++ birth_bytes birth }
    // ensures fits { IsBirth birth }
    // ensures len { vec_len out.new ≡ vec_len out.old + 16 }
    // ensures capacity { vec_capacity out.old ≤ vec_capacity out.new }
{
    write_long(out, birth.frame);
    write_word(out, birth.system);
    write_word(out, birth.ordinal);
}

/// The birth in the first 16 bytes, and the bytes after them.
#[inline]
fn read_birth(bytes: &[u8]) -> (Birth, &[u8])
    // requires { 16 ≤ length bytes.now }
    // ensures bytes { bytes.now ≡ birth_bytes result.0 ++ result.1.now }
    // ensures fits { IsBirth result.0 }
{
    let (frame, rest) = read_long(bytes);
    let (system, rest) = read_word(rest);
    let (ordinal, rest) = read_word(rest);
    let birth = Birth {
        frame,
        system,
        ordinal,
    };
    (birth, rest)
}

/// Appends the value of a component, or that there is none. There is room for its 9 bytes.
#[inline]
fn write_value(out: &mut Vec<u8>, value: Option<i64>)
    // requires { vec_len out.old + 9 ≤ vec_capacity out.old }
    // ensures items { out.new.items ≡ out.old.items ++ value_bytes value }
    // ensures fits { IfSome value (FitsSigned w64) }
    // ensures len { vec_len out.new ≤ vec_len out.old + 9 }
    // ensures capacity { vec_capacity out.old ≤ vec_capacity out.new }
{
    match value {
        None => out.push_reserved(0),
        Some(value) => {
            out.push_reserved(1);
            write_long(out, value.cast_unsigned());
        }
    }
}

/// The value of a component that bytes begin with, if there is one, and the bytes after it; `None`
/// if no value is so written.
#[inline]
fn read_value(bytes: &[u8]) -> Option<(Option<i64>, &[u8])>
    // ensures found { IfSome result (λ r. bytes.now ≡ value_bytes r.0 ++ r.1.now) }
    // ensures fits { IfSome result (λ r. IfSome r.0 (FitsSigned w64)) }
    // ensures none { IfNone result ((value : Option ℤ) (rest : List ℕ)
    //     → bytes.now ≢ value_bytes value ++ rest) }
{
    let (flag, rest) = bytes.split_first()?;
    if *flag == 0 {
        return Some((None, rest));
    }
    if *flag != 1 {
        return None;
    }
    if rest.len() < 8 {
        return None;
    }
    let (number, rest) = read_long(rest);
    Some((Some(number.cast_signed()), rest))
}

impl Rows {
    /// The entities of these handles, in their order, of which these are the bytes, all of them.
    /// They get the places of the handles. There is room for `room` entities in all.
    ///
    /// # Errors
    ///
    /// Each error except [`Memory`](StorageImageFault::Memory) says that no entities have these
    /// bytes.
    #[inline]
    pub(crate) fn read_image(
        handles: &[Handle],
        room: usize,
        bytes: &[u8],
    ) -> Result<Self, StorageImageFault>
        // requires apart { AllPairs (λ g h. g ≢ h) handles.now }
        // requires room { length handles.now ≤ room }
        // ensures found { IfOk result (λ s. entities_bytes s.entities handles.now ≡ bytes.now) }
        // ensures stored { IfOk result (λ s. AreStored s.entities handles.now) }
        // ensures places { IfOk result (λ s. s.places ≡ handles.now) }
        // ensures room { IfOk result (λ s. room ≤ length handles.now + s.spare) }

        // The bytes of entities are read as these.
        // ensures exact { (m : EntityMap) → AreStored m handles.now
        //     → entities_bytes m handles.now ≡ bytes.now → IfOk result (λ s. s.entities ≡ m) }
        // ensures refused { IfErr result (λ fault. fault ≢ StorageImageFault.Memory
        //     → (m : EntityMap) → AreStored m handles.now
        //     → entities_bytes m handles.now ≢ bytes.now) }

        // They are refused for the first part that can't be read.
        // ensures fault { IfErr result (λ fault. fault ≢ StorageImageFault.Memory
        //     → HasFault handles.now bytes.now fault) }

        // Memory is asked for only after the width was found right, and only for entities.
        // ensures memory { IfErr result (λ fault. fault ≡ StorageImageFault.Memory → 0 < room) }
        // ensures width { IfErr result (λ fault. fault ≡ StorageImageFault.Memory
        //     → HasWidth bytes.now) }
    {
        if bytes.len() < 4 {
            return Err(StorageImageFault::Length);
        }
        let (width, rest) = read_word(bytes);
        if width > 256 {
            return Err(StorageImageFault::Width { width });
        }
        let mut storage = Rows::new();
        storage.reserve(room)?;
        let mut rest = rest;
        for handle in handles {
            let place = storage.len();
            let Some(left) = read_entity(&mut storage, *handle, width, rest)? else {
                return Err(StorageImageFault::Entity { place });
            };
            rest = left;
        }
        if !rest.is_empty() {
            return Err(StorageImageFault::Length);
        }
        if storage.width() != width {
            return Err(StorageImageFault::Width { width });
        }
        Ok(storage)
    }

    /// Whether any entity has the component.
    #[inline]
    fn is_held(&self, id: ComponentId) -> bool
        // ensures { result ≡ is_held self.now.entities self.now.places id.0 }
    {
        !self.dense(id).is_empty()
    }

    /// Returns the number of components up to the last one that any entity has.
    ///
    /// <details><summary>Contract</summary>
    ///
    /// <code style="display: block; tab-size: 4; white-space: pre-wrap">// In the words of [contracts](crate::contracts):
    /// ensures value { result ≡ [width](crate::contracts::ent_storage::image#width) self.now.entities self.now.places }
    /// ensures most { result ≤ 256 }
    /// ensures within { (h : [HandleValue](crate::contracts::ent_handle::handle#Handle)) (id : Component) (v : [ℤ](crate::contracts::logic#ℤ))
    /// &#9;→ [value_of](crate::contracts::ent_storage::entity_map#value_of) self.now.entities h id ≡ [Some](crate::contracts::logic#Some) v → id.0 \< result }
    /// </code>
    ///
    /// </details>
    #[inline]
    pub fn width(&self) -> u32 {
        // Each component has a column, and there are no more than 256.
        prove_eq!(self.living.beyond(), 0);
        let mut width = 0;
        for number in 0..256 {
            if self.is_held(ComponentId(number as u8)) {
                width = number + 1;
            }
        }
        width
    }

    /// Appends the bytes of the entity at this place, which has to be that of the handle. There is
    /// room for them.
    #[inline]
    pub(crate) fn write_entity(&self, place: usize, handle: Handle, width: u32, out: &mut Vec<u8>)
        // requires at { slice_get self.now.places place ≡ Some handle }
        // requires few { width ≤ 256 }
        // requires room { vec_len out.old + (16 + 9 * width) ≤ vec_capacity out.old }
        // ensures items { out.new.items
        //     ≡ out.old.items ++ entity_bytes width self.now.entities handle }
        // ensures birth { IsSomeAnd (birth_of self.now.entities handle) IsBirth }
        // ensures values { (id : Component) → id.0 < width
        //     → IfSome (value_of self.now.entities handle id) (FitsSigned w64) }
        // ensures len { vec_len out.new ≤ vec_len out.old + (16 + 9 * width) }
        // ensures capacity { vec_capacity out.old ≤ vec_capacity out.new }
    {
        write_birth(out, self.birth_at(place, handle));
        self.write_values(place, handle, width, out);
    }

    /// Appends the values of the first components.
    #[inline]
    fn write_values(&self, place: usize, handle: Handle, width: u32, out: &mut Vec<u8>)
        // requires at { slice_get self.now.places place ≡ Some handle }
        // requires few { width ≤ 256 }
        // requires room { vec_len out.old + 9 * width ≤ vec_capacity out.old }
        // ensures items { out.new.items
        //     ≡ out.old.items ++ values_bytes (value_of self.now.entities handle) width }
        // ensures values { (id : Component) → id.0 < width
        //     → IfSome (value_of self.now.entities handle id) (FitsSigned w64) }
        // ensures len { vec_len out.new ≤ vec_len out.old + 9 * width }
        // ensures capacity { vec_capacity out.old ≤ vec_capacity out.new }
    {
        for number in 0..width {
            write_value(out, self.get_at(place, handle, ComponentId(number as u8)));
        }
    }

    /// Gives the entity at this place the value of a component that it doesn't have, if there is
    /// one.
    #[inline]
    fn give(
        &mut self,
        place: usize,
        handle: Handle,
        id: ComponentId,
        value: Option<i64>,
    ) -> Result<(), OutOfMemory>
        // requires at { slice_get self.old.places place ≡ Some handle }
        // requires there { is_some (birth_of self.old.entities handle) ≡ true }
        // requires free { value_of self.old.entities handle id ≡ None }
        // ensures here { OnOk result (value_of self.new.entities handle id ≡ value) }
        // ensures others { (other : Component) → other ≢ id
        //     → value_of self.new.entities handle other ≡ value_of self.old.entities handle other }
        // ensures birth { birth_of self.new.entities handle ≡ birth_of self.old.entities handle }
        // ensures rest { (h : HandleValue) → h ≢ handle
        //     → map.get self.new.entities h ≡ map.get self.old.entities h }
        // ensures places { self.new.places ≡ self.old.places }
        // ensures spare { self.new.spare ≡ self.old.spare }
        // ensures err { OnErr result (self.new ≡ self.old) }
    {
        match value {
            Some(value) => {
                let item = item_of(id, value);
                self.give_one(place, handle, item)
            }
            None => Ok(()),
        }
    }

    /// Gives the entity at this place a component.
    #[inline]
    fn give_one(
        &mut self,
        place: usize,
        handle: Handle,
        item: (ComponentId, i64),
    ) -> Result<(), OutOfMemory>
        // requires { slice_get self.old.places place ≡ Some handle }
        // ensures ok { OnOk result (self.new.entities
        //     ≡ with_components self.old.entities handle (λ held. with_items held (item ∷ []))) }
        // ensures places { self.new.places ≡ self.old.places }
        // ensures spare { self.new.spare ≡ self.old.spare }
        // ensures err { OnErr result (self.new ≡ self.old) }
    {
        self.insert_at(place, handle, &[item])
    }
}

/// A component and its value.
#[inline]
fn item_of(id: ComponentId, value: i64) -> (ComponentId, i64)
    // ensures { result ≡ (id, value) }
{
    (id, value)
}

/// Gives the entity at this place the values that bytes begin with. Returns the bytes after them;
/// `None` if no values are so written.
#[inline]
fn read_values<'a>(
    storage: &mut Rows,
    place: usize,
    handle: Handle,
    width: u32,
    bytes: &'a [u8],
) -> Result<Option<&'a [u8]>, OutOfMemory>
    // requires at { slice_get storage.old.places place ≡ Some handle }
    // requires few { width ≤ 256 }
    // requires there { is_some (birth_of storage.old.entities handle) ≡ true }
    // requires free { (id : Component) → value_of storage.old.entities handle id ≡ None }
    // ensures found { IfOk result (λ r. IfSome r (λ rest.
    //     bytes.now ≡ values_bytes (value_of storage.new.entities handle) width ++ rest.now)) }
    // ensures beyond { IfOk result (λ r. OnSome r ((id : Component) → width ≤ id.0
    //     → value_of storage.new.entities handle id ≡ None)) }
    // ensures fits { (id : Component) (v : ℤ) → value_of storage.new.entities handle id ≡ Some v
    //     → (id.0 < 256) × FitsSigned w64 v }
    // ensures none { IfOk result (λ r. IfNone r ((value : Component → Option ℤ) (rest : List ℕ)
    //     → ((id : Component) (v : ℤ) → value id ≡ Some v → FitsSigned w64 v)
    //     → bytes.now ≢ values_bytes value width ++ rest)) }
    // ensures birth { birth_of storage.new.entities handle ≡ birth_of storage.old.entities handle }
    // ensures rest { (h : HandleValue) → h ≢ handle
    //     → map.get storage.new.entities h ≡ map.get storage.old.entities h }
    // ensures places { storage.new.places ≡ storage.old.places }
    // ensures spare { storage.new.spare ≡ storage.old.spare }
{
    let mut rest = bytes;
    for number in 0..width {
        let Some((value, left)) = read_value(rest) else {
            return Ok(None);
        };
        storage.give(place, handle, ComponentId(number as u8), value)?;
        rest = left;
    }
    Ok(Some(rest))
}

/// Adds the entity that bytes begin with. Returns the bytes after it; `None` if no entity is so
/// written.
#[inline]
fn read_entity<'a>(
    storage: &mut Rows,
    handle: Handle,
    width: u32,
    bytes: &'a [u8],
) -> Result<Option<&'a [u8]>, OutOfMemory>
    // requires new { map.get storage.old.entities handle ≡ None }
    // requires few { width ≤ 256 }
    // requires room { 0 < storage.old.spare }
    // ensures found { IfOk result (λ r. IfSome r (λ rest.
    //     bytes.now ≡ entity_bytes width storage.new.entities handle ++ rest.now)) }
    // ensures stored { IfOk result (λ r. OnSome r (IsStored storage.new.entities handle)) }
    // ensures beyond { IfOk result (λ r. OnSome r ((id : Component) → width ≤ id.0
    //     → value_of storage.new.entities handle id ≡ None)) }
    // ensures none { IfOk result (λ r. IfNone r ((m : EntityMap) (rest : List ℕ)
    //     → IsStored m handle → bytes.now ≢ entity_bytes width m handle ++ rest)) }
    // ensures rest { (h : HandleValue) → h ≢ handle
    //     → map.get storage.new.entities h ≡ map.get storage.old.entities h }
    // ensures places { IfOk result (λ r. OnSome r
    //     (storage.new.places ≡ storage.old.places ++ handle ∷ [])) }
    // ensures spare { IfOk result (λ r. OnSome r (storage.new.spare + 1 ≡ storage.old.spare)) }
{
    if bytes.len() < 16 {
        return Ok(None);
    }
    let (birth, rest) = read_birth(bytes);
    let place = storage.len();
    storage.push(handle, birth);
    let Some(rest) = read_values(storage, place, handle, width, rest)? else {
        return Ok(None);
    };
    Ok(Some(rest))
}
