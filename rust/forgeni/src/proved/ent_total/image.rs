// Made of crates/ent_total/src/image.rt by rust/erase. It isn't edited by hand.

//! Worlds as bytes, and back.

use alloc::vec::Vec;
use crate::phases::world::World;
use crate::handles::{OutOfMemory, read_word, write_word};
use crate::worlds::WorldImageFault;

/// How many bytes the count of spawned entities has. They are the last ones.
const COUNT: usize = 4;

/// # Saves
impl World {
    /// Appends the image of the world: bytes from which [`read_image`](Self::read_image) makes the
    /// same world again, with its limits, entities, births, components, waiting slots and requests.
    ///
    /// The image has nothing else. Two worlds that no call can tell apart have the same image,
    /// whatever happened to them before. It grows with the slots that were made and the living
    /// entities, not with the calls.
    ///
    /// ```
    /// use forgeni::{ComponentId, World};
    ///
    /// const SPEED: ComponentId = ComponentId(0);
    ///
    /// let mut world = World::new();
    /// let cart = world.spawn(&[(SPEED, 40)])?;
    /// let mut image = Vec::new();
    /// world.write_image(&mut image)?;
    /// let again = World::read_image(&image)?;
    /// assert_eq!(again.get(cart, SPEED), Some(40));
    /// # Ok::<(), Box<dyn std::error::Error>>(())
    /// ```
    ///
    /// # Errors
    ///
    /// [`OutOfMemory`] if there isn't enough memory for the bytes. The list is unchanged
    /// then.
    ///
    /// <details><summary>Contract</summary>
    ///
    /// <code style="display: block; tab-size: 4; white-space: pre-wrap">// In the words of [contracts](crate::contracts):
    /// ensures written { [OnOk](crate::contracts::logic#OnOk) result
    /// &#9;(out.new.items ≡ out.old.items ++ [image](crate::contracts::ent_total::image#image) self.now.world self.now.spawned) }
    /// ensures has_image { [OnOk](crate::contracts::logic#OnOk) result ([HasImage](crate::contracts::ent_world::image#HasImage) self.now.world) }
    /// ensures unchanged { [OnErr](crate::contracts::logic#OnErr) result (out.new.items ≡ out.old.items) }
    /// &#32;
    /// // Memory runs out only for a list that lacks room.
    /// ensures memory { [OnErr](crate::contracts::logic#OnErr) result
    /// &#9;([vec_capacity](crate::contracts::logic#vec_capacity) out.old \< [vec_len](crate::contracts::logic#vec_len) out.old + [most](crate::contracts::ent_world::image#most) self.now.world + 4) }
    /// </code>
    ///
    /// </details>
    #[inline]
    pub fn write_image(&self, out: &mut Vec<u8>) -> Result<(), OutOfMemory> {
        self.world.write_image(COUNT as u32, out)?;
        write_word(out, self.spawned);
        Ok(())
    }
}

/// The world whose image these bytes are, all of them, with this number.
///
/// # Errors
///
/// Each error except `Memory` says that no world has this image. `Memory` comes if there isn't
/// enough memory for what the image has, whatever it is.
///
/// <details><summary>Contract</summary>
///
/// <code style="display: block; tab-size: 4; white-space: pre-wrap">// In the words of [contracts](crate::contracts):
/// ensures found { [IfOk](crate::contracts::logic#IfOk) result ([IsReadFrom](crate::contracts::ent_total::image#IsReadFrom) bytes.now number) }
/// &#32;
/// // The image of a world is read as this world, unless memory runs out.
/// ensures exact { (w : [WorldValue](crate::contracts::ent_world::world#World)) (spawned : [ℕ](crate::contracts::logic#ℕ)) → [HasImage](crate::contracts::ent_world::image#HasImage) w → spawned \< 2 ^ 32
/// &#9;→ [image](crate::contracts::ent_total::image#image) w spawned ≡ bytes.now
/// &#9;→ (result ≡ [Ok](crate::contracts::logic#Ok) (record { world = w; number = number; spawned = spawned }))
/// &#9;⊎ (result ≡ [Err](crate::contracts::logic#Err) WorldImageFault.Memory) }
/// &#32;
/// // What is refused is the image of no world. It is refused for the first fault of the bytes.
/// ensures refused { [IfErr](crate::contracts::logic#IfErr) result (λ fault. fault ≢ WorldImageFault.Memory
/// &#9;→ (w : [WorldValue](crate::contracts::ent_world::world#World)) (spawned : [ℕ](crate::contracts::logic#ℕ)) → [HasImage](crate::contracts::ent_world::image#HasImage) w → spawned \< 2 ^ 32
/// &#9;→ [image](crate::contracts::ent_total::image#image) w spawned ≢ bytes.now) }
/// ensures fault { [IfErr](crate::contracts::logic#IfErr) result (λ fault. fault ≢ WorldImageFault.Memory
/// &#9;→ [HasFault](crate::contracts::ent_world::first_fault#HasFault) ([before_count](crate::contracts::ent_total::image#before_count) bytes.now) fault) }
/// &#32;
/// // Memory is asked for only after the allocator\'s part was found faultless up to its slots, and
/// // only for slots. There are no more slots and entities than the bytes have.
/// ensures memory { [IfErr](crate::contracts::logic#IfErr) result (λ fault. fault ≡ WorldImageFault.Memory
/// &#9;→ [MayTakeMemory](crate::contracts::ent_world::first_fault#MayTakeMemory) ([before_count](crate::contracts::ent_total::image#before_count) bytes.now)) }
/// ensures bound { [IfOk](crate::contracts::logic#IfOk) result (λ w. [least](crate::contracts::ent_world::image#least) w.world + 4 ≤ [length](crate::contracts::logic#length) bytes.now) }
/// &#32;
/// // Of what was given before the image was written, nothing is given again, whatever calls come
/// // after it is read. Nor is anything given twice by these.
/// ensures given_once { (w : [WorldValue](crate::contracts::ent_world::world#World)) (spawned : [ℕ](crate::contracts::logic#ℕ)) (given : [List](crate::contracts::logic#List) [Handle](crate::contracts::ent_handle::handle#Handle)) → [HasImage](crate::contracts::ent_world::image#HasImage) w
/// &#9;→ spawned \< 2 ^ 32 → [image](crate::contracts::ent_total::image#image) w spawned ≡ bytes.now → [AreSpent](crate::contracts::ent_alloc::spent#AreSpent) w.allocator given
/// &#9;→ [IfOk](crate::contracts::logic#IfOk) result (λ r. (steps : [List](crate::contracts::logic#List) [Step](crate::contracts::ent_alloc::runs#Step)) → [IsRun](crate::contracts::ent_alloc::runs#IsRun) r.world.allocator steps → [AreSpent](crate::contracts::ent_alloc::spent#AreSpent)
/// &#9;([after_run](crate::contracts::ent_alloc::runs#after_run) r.world.allocator steps) (given ++ [given_in_run](crate::contracts::ent_alloc::runs#given_in_run) r.world.allocator steps)) }
/// </code>
///
/// </details>
#[inline]
pub fn read_world(bytes: &[u8], number: u64) -> Result<World, WorldImageFault> {
    of_image(bytes, number)
}

/// The world whose image these bytes are, all of them, with this number, if it has at most `most`
/// slots after its next flush.
///
/// # Errors
///
/// Those of `read_world`, and then `Bound` if there would be more slots.
///
/// <details><summary>Contract</summary>
///
/// <code style="display: block; tab-size: 4; white-space: pre-wrap">// In the words of [contracts](crate::contracts):
/// ensures found { [IfOk](crate::contracts::logic#IfOk) result ([IsReadFrom](crate::contracts::ent_total::image#IsReadFrom) bytes.now number) }
/// &#32;
/// // A flush of what is read leaves no more slots than are allowed.
/// ensures within { [IfOk](crate::contracts::logic#IfOk) result (λ w. [slots_after_flush](crate::contracts::ent_alloc::within#slots_after_flush) w.world.allocator ≤ [most](crate::contracts::ent_world::image#most)) }
/// &#32;
/// // The image of a world is read as this world, unless memory runs out, exactly if it has no more
/// // slots then. All else is refused for a fault of the bytes, or for the bound if they have none.
/// ensures exact { (w : [WorldValue](crate::contracts::ent_world::world#World)) (spawned : [ℕ](crate::contracts::logic#ℕ)) → [HasImage](crate::contracts::ent_world::image#HasImage) w → spawned \< 2 ^ 32
/// &#9;→ [image](crate::contracts::ent_total::image#image) w spawned ≡ bytes.now → (result ≡ [within](crate::contracts::ent_world::within#within) [most](crate::contracts::ent_world::image#most) w.allocator
/// &#9;(record { world = w; number = number; spawned = spawned }))
/// &#9;⊎ (result ≡ [Err](crate::contracts::logic#Err) WorldImageFault.Memory) }
/// ensures fault { [IfErr](crate::contracts::logic#IfErr) result (λ fault. fault ≢ WorldImageFault.Memory
/// &#9;→ [HasFault](crate::contracts::ent_world::first_fault#HasFault) ([before_count](crate::contracts::ent_total::image#before_count) bytes.now) fault ⊎ [IsBeyond](crate::contracts::ent_total::image#IsBeyond) bytes.now [most](crate::contracts::ent_world::image#most) fault) }
/// ensures memory { [IfErr](crate::contracts::logic#IfErr) result (λ fault. fault ≡ WorldImageFault.Memory
/// &#9;→ [MayTakeMemory](crate::contracts::ent_world::first_fault#MayTakeMemory) ([before_count](crate::contracts::ent_total::image#before_count) bytes.now)) }
/// ensures bound { [IfOk](crate::contracts::logic#IfOk) result (λ w. [least](crate::contracts::ent_world::image#least) w.world + 4 ≤ [length](crate::contracts::logic#length) bytes.now) }
/// </code>
///
/// </details>
#[inline]
pub fn read_world_within(
    bytes: &[u8],
    number: u64,
    most: u32,
) -> Result<World, WorldImageFault> {
    allowed(read_world(bytes, number), most)
}

/// What was read, if it has at most so many slots after its next flush.
#[inline]
fn allowed(read: Result<World, WorldImageFault>, most: u32) -> Result<World, WorldImageFault>
    // ensures { result ≡ allowed (λ w. w.world.allocator) most read }
{
    let world = read?;
    let slots = world.world.total_after_flush();
    if slots > most {
        return Err(WorldImageFault::Bound { slots });
    }
    Ok(world)
}

/// What `read_world` returns.
#[inline]
fn of_image(bytes: &[u8], number: u64) -> Result<World, WorldImageFault>
    // ensures found { IfOk result (IsReadFrom bytes.now number) }
    // ensures exact { (w : WorldValue) (spawned : ℕ) → HasImage w → spawned < 2 ^ 32
    //     → image w spawned ≡ bytes.now
    //     → (result ≡ Ok (record { world = w; number = number; spawned = spawned }))
    //     ⊎ (result ≡ Err WorldImageFault.Memory) }
    // ensures fault { IfErr result (λ fault. fault ≢ WorldImageFault.Memory
    //     → HasFault (before_count bytes.now) fault) }
    // ensures memory { IfErr result (λ fault. fault ≡ WorldImageFault.Memory
    //     → MayTakeMemory (before_count bytes.now)) }
{
    if bytes.len() < COUNT {
        return Err(WorldImageFault::Magic);
    }
    let (part, spawned) = split_count(bytes);
    let world = crate::worlds::World::read_image(part)?;
    Ok(World {
        world,
        number,
        spawned,
    })
}

/// The bytes before the count, and the count.
#[inline]
fn split_count(bytes: &[u8]) -> (&[u8], u32)
    // requires { 4 ≤ length bytes.now }
    // ensures { bytes.now ≡ result.0.now ++ word result.1 }
{
    let (part, count) = bytes.split_at(bytes.len() - COUNT);
    let (spawned, _) = read_word(count);
    (part, spawned)
}
