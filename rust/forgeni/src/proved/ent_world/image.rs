// Made of crates/ent_world/src/image.rt by rust/erase. It isn't edited by hand.

//! Worlds as bytes, and back.

use alloc::vec::Vec;
use crate::kit::vec::FallibleVec;
use crate::worlds::image_fault::WorldImageFault;
use crate::worlds::rows::{place_of, set_rows};
use crate::worlds::world::World;
use crate::allocator::{Entities, ImageFault, Living};
use crate::handles::{Handle, OutOfMemory, read_long, read_word, write_long, write_word};
use crate::components::{Rows, StorageImageFault};

/// The letters `FORGENW` and a zero, the first one lowest.
const MAGIC: u64 = 0x0057_4e45_4752_4f46;

/// The version of the format.
const VERSION: u32 = 1;

/// How many bytes stand before the allocator's part.
const HEADER: usize = 28;

/// How many bytes the allocator's part has before its slots, and for each slot.
const ALLOCATOR: usize = 40;

const SLOT: usize = 12;

/// Appends what comes before the allocator's part. There is room for it.
#[inline]
fn write_header(phase: u64, len: u64, out: &mut Vec<u8>)
    // requires { vec_len out.old + 28 ≤ vec_capacity out.old }
    // ensures items { out.new.items ≡ out.old.items ++ header_bytes phase len }
    // ensures len { vec_len out.new ≡ vec_len out.old + 28 }
    // ensures capacity { vec_capacity out.old ≤ vec_capacity out.new }
{
    write_long(out, MAGIC);
    write_word(out, VERSION);
    write_long(out, phase);
    write_long(out, len);
}

/// The phase, the allocator's part, and what follows it.
#[inline]
fn read_header(bytes: &[u8]) -> Result<(u64, &[u8], &[u8]), WorldImageFault>
    // ensures found { IfOk result (λ p. bytes.now ≡ framed p.0 p.1.now p.2.now) }
    // ensures phase { IfOk result (λ p. p.0 < 2 ^ 64) }
    // ensures fits { IfOk result (λ p. length p.1.now < 2 ^ 64) }
    // ensures refused { OnErr result ((phase : ℕ) (part rest : List ℕ) → phase < 2 ^ 64
    //     → length part < 2 ^ 64 → bytes.now ≢ framed phase part rest) }
    // ensures no_memory { IfErr result (λ fault. fault ≢ WorldImageFault.Memory) }
    // ensures fault { IfErr result (HasFault bytes.now) }
{
    if bytes.len() < 8 {
        return Err(WorldImageFault::Magic);
    }
    let (magic, rest) = read_long(bytes);
    if magic != MAGIC {
        return Err(WorldImageFault::Magic);
    }
    if bytes.len() < HEADER {
        return Err(WorldImageFault::Length);
    }
    let (version, rest) = read_word(rest);
    if version != VERSION {
        return Err(WorldImageFault::Version { version });
    }
    let (phase, rest) = read_long(rest);
    let (len, rest) = read_long(rest);
    if (rest.len() as u64) < len {
        return Err(WorldImageFault::Length);
    }
    let (part, rest) = rest.split_at(len as usize);
    Ok((phase, part, rest))
}

/// Appends the entities of these handles, which have rows. There is room for them and for `extra`
/// more bytes.
#[inline]
fn write_entities(
    entities: &Entities,
    storage: &Rows,
    handles: Living<'_>,
    width: u32,
    extra: u32,
    out: &mut Vec<u8>,
)
    // requires placed { All (λ h. is_some (map.get entities.now.rows h) ≡ true) handles }
    // requires places { ArePlaces entities.now.rows storage.now.places }
    // requires few { width ≤ 256 }
    // requires room { vec_len out.old + extra + length handles * (16 + 9 * width)
    //     ≤ vec_capacity out.old }
    // ensures items { out.new.items
    //     ≡ out.old.items ++ flat_map (entity_bytes width storage.now.entities) handles.entry }
    // ensures births { All (λ h. IsSomeAnd (birth_of storage.now.entities h) IsBirth)
    //     handles.entry }
    // ensures values { All (λ h. (id : Component) → id.0 < width
    //     → IfSome (value_of storage.now.entities h id) (FitsSigned w64)) handles.entry }
    // ensures room { vec_len out.new + extra ≤ vec_capacity out.new }
{
    for handle in handles {
        let Some(place) = place_of(entities, handle) else {
            unreachable!()
        };
        storage.write_entity(place, handle, width, out);
    }
}

/// The allocator of which these bytes are the image.
#[inline]
fn read_allocator(bytes: &[u8]) -> Result<Entities, WorldImageFault>
    // ensures found { IfOk result (λ e. allocator_image e ≡ bytes.now) }
    // ensures has_image { IfOk result HasAllocatorImage }
    // ensures exact { (e : Allocator) → HasAllocatorImage e → allocator_image e ≡ bytes.now
    //     → (result ≡ Ok e) ⊎ (result ≡ Err WorldImageFault.Memory) }
    // ensures fault { IfErr result (λ fault. fault ≢ WorldImageFault.Memory
    //     → IsPartFault bytes.now fault) }
    // ensures header { OnOk result (header_fault bytes.now ≡ None) }
    // ensures memory { IfErr result (λ fault. fault ≡ WorldImageFault.Memory
    //     → header_fault bytes.now ≡ None) }
    // ensures slots { IfErr result (λ fault. fault ≡ WorldImageFault.Memory
    //     → 40 < length bytes.now) }
{
    match Entities::read_image(bytes) {
        Ok(entities) => Ok(entities),
        Err(ImageFault::Memory) => Err(WorldImageFault::Memory),
        Err(fault) => Err(WorldImageFault::Entities(fault)),
    }
}

/// The living handles as a list, if none of them has a row.
#[inline]
fn list_living(
    entities: &Entities,
    handles: Living<'_>,
) -> Result<Vec<Handle>, WorldImageFault>
    // ensures items { IfOk result (λ list. list.items ≡ handles.entry) }
    // ensures bare { OnOk result (All (λ h. map.get entities.now.rows h ≡ None) handles.entry) }
    // ensures rows { IfErr result (λ fault. fault ≢ WorldImageFault.Memory
    //     → entities.now.rows ≢ map.empty) }
    // ensures fault { IfErr result (λ fault. fault ≢ WorldImageFault.Memory
    //     → IsRowFault entities.now.rows handles.entry fault) }
    // ensures memory { IfErr result (λ fault. fault ≡ WorldImageFault.Memory
    //     → 0 < length handles.entry) }
{
    let mut list = Vec::with_capacity_fallibly(handles.len())?;
    for handle in handles {
        if entities.row(handle).is_some() {
            return Err(WorldImageFault::Row {
                index: handle.index(),
            });
        }
        list.push_reserved(handle);
    }
    Ok(list)
}

/// The storage of these entities, of which these are the bytes.
#[inline]
fn read_storage(
    handles: &[Handle],
    room: usize,
    bytes: &[u8],
) -> Result<Rows, WorldImageFault>
    // requires apart { AllPairs (λ g h. g ≢ h) handles.now }
    // requires room { length handles.now ≤ room }
    // ensures found { IfOk result (λ s. entities_bytes s.entities handles.now ≡ bytes.now) }
    // ensures stored { IfOk result (λ s. AreStored s.entities handles.now) }
    // ensures places { IfOk result (λ s. s.places ≡ handles.now) }
    // ensures room { IfOk result (λ s. room ≤ length handles.now + s.spare) }
    // ensures exact { (m : EntityMap) → AreStored m handles.now
    //     → entities_bytes m handles.now ≡ bytes.now → IfOk result (λ s. s.entities ≡ m) }
    // ensures refused { (m : EntityMap) → AreStored m handles.now
    //     → entities_bytes m handles.now ≡ bytes.now
    //     → IfErr result (λ fault. fault ≡ WorldImageFault.Memory) }
    // ensures fault { IfErr result (λ fault. fault ≢ WorldImageFault.Memory
    //     → IsRestFault handles.now bytes.now fault) }
    // ensures memory { IfErr result (λ fault. fault ≡ WorldImageFault.Memory → 0 < room) }
{
    match Rows::read_image(handles, room, bytes) {
        Ok(storage) => Ok(storage),
        Err(StorageImageFault::Memory) => Err(WorldImageFault::Memory),
        Err(fault) => Err(WorldImageFault::Storage(fault)),
    }
}

/// What was read, if it has at most so many slots after its next flush.
#[inline]
fn allowed(read: Result<World, WorldImageFault>, most: u32) -> Result<World, WorldImageFault>
    // ensures { result ≡ allowed (λ w. w.allocator) most read }
{
    let world = read?;
    let slots = world.total_after_flush();
    if slots > most {
        return Err(WorldImageFault::Bound { slots });
    }
    Ok(world)
}

impl World {
    /// Appends the image of the world: bytes from which [`read_image`](World::read_image) makes the
    /// same world again, with its limits, entities, births, components, waiting slots and requests.
    ///
    /// The image tells no more than that. Two worlds that no call can tell apart have the same
    /// image, whatever happened to them before. It grows with the slots that were made and the
    /// entities that are alive, not with the calls. There is room for `extra` more bytes then.
    ///
    /// # Errors
    ///
    /// `Memory` if there isn't enough memory for the bytes. The list is unchanged then.
    ///
    /// <details><summary>Contract</summary>
    ///
    /// <code style="display: block; tab-size: 4; white-space: pre-wrap">// In the words of [contracts](crate::contracts):
    /// ensures written { [OnOk](crate::contracts::logic#OnOk) result (out.new.items ≡ out.old.items ++ [image](crate::contracts::ent_world::image#image) self.now) }
    /// ensures has_image { [OnOk](crate::contracts::logic#OnOk) result ([HasImage](crate::contracts::ent_world::image#HasImage) self.now) }
    /// ensures unchanged { [OnErr](crate::contracts::logic#OnErr) result (out.new.items ≡ out.old.items) }
    /// ensures capacity { [OnErr](crate::contracts::logic#OnErr) result ([vec_capacity](crate::contracts::logic#vec_capacity) out.new ≡ [vec_capacity](crate::contracts::logic#vec_capacity) out.old) }
    /// &#32;
    /// // Memory runs out only for a list that lacks room.
    /// ensures memory { [OnErr](crate::contracts::logic#OnErr) result
    /// &#9;([vec_capacity](crate::contracts::logic#vec_capacity) out.old \< [vec_len](crate::contracts::logic#vec_len) out.old + [most](crate::contracts::ent_world::image#most) self.now + extra) }
    /// ensures room { [OnOk](crate::contracts::logic#OnOk) result ([vec_len](crate::contracts::logic#vec_len) out.new + extra ≤ [vec_capacity](crate::contracts::logic#vec_capacity) out.new) }
    /// </code>
    ///
    /// </details>
    #[inline]
    pub fn write_image(&self, extra: u32, out: &mut Vec<u8>) -> Result<(), OutOfMemory> {
        let width = self.storage.width();
        let part = ALLOCATOR as u64 + SLOT as u64 * u64::from(self.entities.total());
        let rest = 4 + u64::from(self.entities.len()) * (16 + 9 * u64::from(width));
        let all = HEADER as u64 + part + rest + u64::from(extra);
        let Ok(all) = usize::try_from(all) else {
            return Err(OutOfMemory);
        };
        out.reserve_fallibly(all)?;
        write_header(self.phase, part, out);
        self.entities.write_image_without_rows(out);
        write_word(out, width);
        write_entities(
            &self.entities,
            &self.storage,
            self.entities.iter(),
            width,
            extra,
            out,
        );
        Ok(())
    }

    /// The world whose image these bytes are, all of them.
    ///
    /// The bytes may come from anywhere. Each image that [`write_image`](World::write_image) writes
    /// is read as the same world, which gives no handle that was given before. Bytes that aren't
    /// the image of a world are refused.
    ///
    /// # Errors
    ///
    /// Each error except [`Memory`](WorldImageFault::Memory) says that no world has this image, by
    /// the first fault that the bytes have. `Memory` comes if there isn't enough memory for the
    /// slots, whatever they are.
    ///
    /// <details><summary>Contract</summary>
    ///
    /// <code style="display: block; tab-size: 4; white-space: pre-wrap">// In the words of [contracts](crate::contracts):
    /// ensures found { [IfOk](crate::contracts::logic#IfOk) result (λ w. [image](crate::contracts::ent_world::image#image) w ≡ bytes.now) }
    /// ensures has_image { [IfOk](crate::contracts::logic#IfOk) result [HasImage](crate::contracts::ent_world::image#HasImage) }
    /// &#32;
    /// // The image of a world is read as this world, unless memory runs out.
    /// ensures exact { (w : [WorldValue](crate::contracts::ent_world::world#World)) → [HasImage](crate::contracts::ent_world::image#HasImage) w → [image](crate::contracts::ent_world::image#image) w ≡ bytes.now
    /// &#9;→ (result ≡ [Ok](crate::contracts::logic#Ok) w) ⊎ (result ≡ [Err](crate::contracts::logic#Err) WorldImageFault.Memory) }
    /// &#32;
    /// // What is refused is the image of no world. It is refused for the first fault of the bytes.
    /// ensures refused { [IfErr](crate::contracts::logic#IfErr) result (λ fault. fault ≢ WorldImageFault.Memory
    /// &#9;→ (w : [WorldValue](crate::contracts::ent_world::world#World)) → [HasImage](crate::contracts::ent_world::image#HasImage) w → [image](crate::contracts::ent_world::image#image) w ≢ bytes.now) }
    /// ensures fault { [IfErr](crate::contracts::logic#IfErr) result (λ fault. fault ≢ WorldImageFault.Memory
    /// &#9;→ [HasFault](crate::contracts::ent_world::first_fault#HasFault) bytes.now fault) }
    /// &#32;
    /// // Memory is asked for only after the allocator\'s part was found faultless up to its slots,
    /// // and only for slots. There are no more slots and entities than the bytes have.
    /// ensures memory { [IfErr](crate::contracts::logic#IfErr) result (λ fault. fault ≡ WorldImageFault.Memory
    /// &#9;→ [MayTakeMemory](crate::contracts::ent_world::first_fault#MayTakeMemory) bytes.now) }
    /// ensures bound { [IfOk](crate::contracts::logic#IfOk) result (λ w. [least](crate::contracts::ent_world::image#least) w ≤ [length](crate::contracts::logic#length) bytes.now) }
    /// &#32;
    /// // Of what was given before the image was written, nothing is given again, whatever calls
    /// // come after it is read. Nor is anything given twice by these.
    /// ensures given_once { (w : [WorldValue](crate::contracts::ent_world::world#World)) (given : [List](crate::contracts::logic#List) [HandleValue](crate::contracts::ent_handle::handle#Handle)) → [HasImage](crate::contracts::ent_world::image#HasImage) w
    /// &#9;→ [image](crate::contracts::ent_world::image#image) w ≡ bytes.now → [AreSpent](crate::contracts::ent_alloc::spent#AreSpent) w.allocator given → [IfOk](crate::contracts::logic#IfOk) result (λ r.
    /// &#9;(steps : [List](crate::contracts::logic#List) [Step](crate::contracts::ent_alloc::runs#Step)) → [IsRun](crate::contracts::ent_alloc::runs#IsRun) r.allocator steps → [AreSpent](crate::contracts::ent_alloc::spent#AreSpent)
    /// &#9;([after_run](crate::contracts::ent_alloc::runs#after_run) r.allocator steps) (given ++ [given_in_run](crate::contracts::ent_alloc::runs#given_in_run) r.allocator steps)) }
    /// </code>
    ///
    /// </details>
    #[inline]
    pub fn read_image(bytes: &[u8]) -> Result<Self, WorldImageFault> {
        World::of_image(bytes)
    }

    /// The world whose image these bytes are, if it has at most `most` slots after its next flush.
    /// So the flush takes no more memory than so many slots and handles do.
    ///
    /// # Errors
    ///
    /// Those of [`read_image`](World::read_image), and then [`Bound`](WorldImageFault::Bound) if
    /// there would be more slots.
    ///
    /// <details><summary>Contract</summary>
    ///
    /// <code style="display: block; tab-size: 4; white-space: pre-wrap">// In the words of [contracts](crate::contracts):
    /// ensures found { [IfOk](crate::contracts::logic#IfOk) result (λ w. [image](crate::contracts::ent_world::image#image) w ≡ bytes.now) }
    /// ensures has_image { [IfOk](crate::contracts::logic#IfOk) result [HasImage](crate::contracts::ent_world::image#HasImage) }
    /// &#32;
    /// // A flush of what is read leaves no more slots than are allowed.
    /// ensures within { [IfOk](crate::contracts::logic#IfOk) result (λ w. [slots_after_flush](crate::contracts::ent_alloc::within#slots_after_flush) w.allocator ≤ [most](crate::contracts::ent_world::image#most)) }
    /// &#32;
    /// // The image of a world is read as this world, unless memory runs out, exactly if it has no
    /// // more slots then. All else is refused for a fault of the bytes, or for the bound if they
    /// // have none.
    /// ensures exact { (w : [WorldValue](crate::contracts::ent_world::world#World)) → [HasImage](crate::contracts::ent_world::image#HasImage) w → [image](crate::contracts::ent_world::image#image) w ≡ bytes.now
    /// &#9;→ (result ≡ [within](crate::contracts::ent_world::within#within) [most](crate::contracts::ent_world::image#most) w.allocator w) ⊎ (result ≡ [Err](crate::contracts::logic#Err) WorldImageFault.Memory) }
    /// ensures fault { [IfErr](crate::contracts::logic#IfErr) result (λ fault. fault ≢ WorldImageFault.Memory
    /// &#9;→ [HasFault](crate::contracts::ent_world::first_fault#HasFault) bytes.now fault ⊎ [IsBeyond](crate::contracts::ent_world::within#IsBeyond) bytes.now [most](crate::contracts::ent_world::image#most) fault) }
    /// ensures memory { [IfErr](crate::contracts::logic#IfErr) result (λ fault. fault ≡ WorldImageFault.Memory
    /// &#9;→ [MayTakeMemory](crate::contracts::ent_world::first_fault#MayTakeMemory) bytes.now) }
    /// ensures bound { [IfOk](crate::contracts::logic#IfOk) result (λ w. [least](crate::contracts::ent_world::image#least) w ≤ [length](crate::contracts::logic#length) bytes.now) }
    /// </code>
    ///
    /// </details>
    #[inline]
    pub fn read_image_within(
        bytes: &[u8],
        most: u32,
    ) -> Result<Self, WorldImageFault> {
        allowed(World::read_image(bytes), most)
    }

    /// Returns the number of slots after the next flush.
    ///
    /// <details><summary>Contract</summary>
    ///
    /// <code style="display: block; tab-size: 4; white-space: pre-wrap">// In the words of [contracts](crate::contracts):
    /// ensures { result ≡ [slots_after_flush](crate::contracts::ent_alloc::within#slots_after_flush) self.now.allocator }
    /// </code>
    ///
    /// </details>
    #[must_use]
    #[inline]
    pub fn total_after_flush(&self) -> u32 {
        self.entities.total_after_flush()
    }

    /// What `read_image` returns.
    #[inline]
    fn of_image(bytes: &[u8]) -> Result<Self, WorldImageFault>
        // ensures found { IfOk result (λ w. image w ≡ bytes.now) }
        // ensures has_image { IfOk result HasImage }
        // ensures exact { (w : WorldValue) → HasImage w → image w ≡ bytes.now
        //     → (result ≡ Ok w) ⊎ (result ≡ Err WorldImageFault.Memory) }
        // ensures fault { IfErr result (λ fault. fault ≢ WorldImageFault.Memory
        //     → HasFault bytes.now fault) }
        // ensures memory { IfErr result (λ fault. fault ≡ WorldImageFault.Memory
        //     → MayTakeMemory bytes.now) }
    {
        let (phase, part, rest) = read_header(bytes)?;
        let mut entities = read_allocator(part)?;
        let handles = list_living(&entities, entities.iter())?;
        let room = handles.len() + entities.top() as usize;
        let storage = read_storage(&handles, room, rest)?;
        set_rows(&mut entities, 0, &handles);
        Ok(World {
            entities,
            storage,
            phase,
        })
    }
}
