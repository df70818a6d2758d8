//! A store of up to 64 bitmaps that two owners share.

use crate::bitmap::{judged_of, LONGEST_FORM};
use crate::raw;
use crate::refusal::{settled, Refusal};
use crate::set::Bitmap;
use std::fmt;

/// How many slots a store has.
const SLOTS: u32 = 64;

/// Up to 64 numbered bitmaps, each as its one written form, in a buffer of a given length.
///
/// Owner 0 has slots 0 to 31 and the buffer's first half, owner 1 slots 32 to 63 and the second half. What
/// one owner does never changes what the other finds.
///
/// ```
/// use barcovento::{Bitmap, Store};
/// let zone = Bitmap::from_positions(&[0, 34, 255])?;
/// let mut store = Store::new(1_000);
/// store.put(0, 7, zone.as_bytes())?;
/// assert_eq!(store.put(1, 7, zone.as_bytes()).unwrap_err().number(), 44);
/// let saved = store.save();
/// assert_eq!(saved.len(), 64 + 12);
/// assert_eq!(Store::load(&saved, 24)?.fetch(0, 7)?, zone);
/// # Ok::<(), barcovento::Refusal>(())
/// ```
#[derive(Clone)]
pub struct Store {
    buffer: Vec<u8>,
    directory: [u32; raw::STORE_DIRECTORY],
}

impl Store {
    /// How many slots a store has.
    pub const SLOTS: u32 = SLOTS;

    /// A buffer of this length takes any 64 bitmaps.
    pub const LARGEST: usize = SLOTS as usize * LONGEST_FORM;

    /// An empty store in a buffer of this many bytes.
    pub fn new(room: usize) -> Store {
        Store { buffer: vec![0; room], directory: [0; raw::STORE_DIRECTORY] }
    }

    /// The store that was saved as these bytes, in a buffer of this many bytes. Refusal 42.
    pub fn load(saved: &[u8], room: usize) -> Result<Store, Refusal> {
        let mut store = Store::new(room);
        store.reload(saved)?;
        Ok(store)
    }

    /// Each slot holds its entry of the saved bytes, in place of what it held, in the same buffer.
    /// Refusal 42.
    pub fn reload(&mut self, saved: &[u8]) -> Result<(), Refusal> {
        // SAFETY: the pointers are those of three slices, which are apart.
        let status = unsafe {
            raw::bv_store_load(
                self.buffer.as_mut_ptr(),
                self.buffer.len(),
                self.directory.as_mut_ptr(),
                self.directory.len(),
                saved.as_ptr(),
                saved.len(),
            )
        };
        settled(status)
    }

    /// How many bytes the buffer has: each owner has half of them.
    pub fn room(&self) -> usize {
        self.buffer.len()
    }

    /// The owner's slot holds the bitmap's written form, in place of what it held. Refusals 40, 44, the
    /// bitmap's 1 to 11, 13.
    pub fn put(&mut self, owner: u32, slot: u32, bitmap: &[u8]) -> Result<(), Refusal> {
        // SAFETY: the pointers are those of three slices, which are apart.
        let status = unsafe {
            raw::bv_store_put(
                self.buffer.as_mut_ptr(),
                self.buffer.len(),
                self.directory.as_mut_ptr(),
                self.directory.len(),
                owner,
                slot,
                bitmap.as_ptr(),
                bitmap.len(),
            )
        };
        judged_of(status, &[bitmap])
    }

    /// The form in the owner's slot. Refusals 40, 44, 41.
    pub fn fetch(&self, owner: u32, slot: u32) -> Result<Bitmap, Refusal> {
        let mut form = vec![0; self.length_of(slot)];
        let length = self.fetch_into(owner, slot, &mut form)?;
        form.truncate(length);
        Ok(Bitmap::of_form(form))
    }

    /// The form in the owner's slot into the output: its length. Refusals 40, 44, 41, 13.
    pub fn fetch_into(&self, owner: u32, slot: u32, out: &mut [u8]) -> Result<usize, Refusal> {
        let mut length = 0;
        // SAFETY: the pointers are those of slices; the output is apart from all else.
        let status = unsafe {
            raw::bv_store_fetch(
                self.buffer.as_ptr(),
                self.buffer.len(),
                self.directory.as_ptr(),
                self.directory.len(),
                owner,
                slot,
                out.as_mut_ptr(),
                out.len(),
                &mut length,
            )
        };
        settled(status)?;
        Ok(length)
    }

    /// The owner's slot is empty. Refusals 40, 44, 41.
    pub fn remove(&mut self, owner: u32, slot: u32) -> Result<(), Refusal> {
        // SAFETY: the pointers are those of two slices, which are apart.
        let status = unsafe {
            raw::bv_store_drop(
                self.buffer.as_ptr(),
                self.buffer.len(),
                self.directory.as_mut_ptr(),
                self.directory.len(),
                owner,
                slot,
            )
        };
        settled(status)
    }

    /// Both owners' slots as bytes.
    pub fn save(&self) -> Vec<u8> {
        let forms: usize = (0..SLOTS).map(|slot| self.length_of(slot)).sum();
        let mut saved = vec![0; forms + 5 * SLOTS as usize];
        let length = self.save_into(&mut saved).expect("the room is that of the forms");
        saved.truncate(length);
        saved
    }

    /// Both owners' slots as bytes into the output: their length. Refusal 13.
    pub fn save_into(&self, out: &mut [u8]) -> Result<usize, Refusal> {
        let mut length = 0;
        // SAFETY: the pointers are those of slices; the output is apart from all else.
        let status = unsafe {
            raw::bv_store_save(
                self.buffer.as_ptr(),
                self.buffer.len(),
                self.directory.as_ptr(),
                self.directory.len(),
                out.as_mut_ptr(),
                out.len(),
                &mut length,
            )
        };
        settled(status)?;
        Ok(length)
    }

    /// The owner whose slot this is.
    pub fn owner_of(slot: u32) -> u32 {
        slot / (SLOTS / 2)
    }

    /// The slots that hold a bitmap, in rising order.
    pub fn slots(&self) -> impl Iterator<Item = u32> + '_ {
        (0..SLOTS).filter(|slot| self.length_of(*slot) > 0)
    }

    /// How many bytes the slot's form has: 0 for an empty slot, and where there is no such slot.
    pub fn length_of(&self, slot: u32) -> usize {
        self.directory.get(2 * slot as usize + 1).map_or(0, |length| *length as usize)
    }
}

impl fmt::Debug for Store {
    fn fmt(&self, f: &mut fmt::Formatter<'_>) -> fmt::Result {
        write!(f, "Store({} bitmaps, {} bytes)", self.slots().count(), self.buffer.len())
    }
}
