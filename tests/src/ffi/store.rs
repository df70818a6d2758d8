//! The calls on a store.

use super::{written, Called, Lent, Memory};
use crate::generate::store::{own_half, Store, OWN_NUMBERS};
use crate::generate::Random;
use barcovento::raw::{bv_store_drop, bv_store_fetch, bv_store_load, bv_store_put, bv_store_save};
use std::ops::Range;

/// A store that is lent to one call.
struct LentStore {
    buffer: Lent<u8>,
    directory: Lent<u32>,
}

impl LentStore {
    fn of(store: &Store, random: &mut Random) -> LentStore {
        let buffer = Lent::input("buffer", &store.buffer, random);
        LentStore { buffer, directory: Lent::input("directory", &store.directory, random) }
    }

    /// What a call left that may change these bytes and these numbers of the store.
    fn settle(
        &self,
        code: u32,
        input: &dyn Memory,
        bytes: Range<usize>,
        numbers: Range<usize>,
    ) -> Called<Store> {
        let (buffer, directory) = (&self.buffer, &self.directory);
        input.unharmed(0)?;
        let end = directory.length;
        let numbers = numbers.start.min(end)..numbers.end.min(end);
        buffer.unharmed_but(if code == 0 { bytes } else { 0..0 })?;
        directory.unharmed_but(if code == 0 { numbers } else { 0..0 })?;
        let left =
            || Store { buffer: buffer.content().to_vec(), directory: directory.content().to_vec() };
        Ok(if code == 0 { Ok(left()) } else { Err(code) })
    }
}

/// Nothing changes but the owner's half and its numbers.
pub fn put(
    store: &Store,
    owner: u32,
    slot: u32,
    bitmap: &[u8],
    random: &mut Random,
) -> Called<Store> {
    let mut lent = LentStore::of(store, random);
    let bitmap = Lent::input("bitmap", bitmap, random);
    let code = unsafe {
        bv_store_put(
            lent.buffer.pointer_mut(),
            lent.buffer.length,
            lent.directory.pointer_mut(),
            lent.directory.length,
            owner,
            slot,
            bitmap.pointer(),
            bitmap.length,
        )
    };
    let half = own_half(lent.buffer.length, owner as usize);
    let numbers = match owner {
        0 => 0..OWN_NUMBERS,
        1 => OWN_NUMBERS..2 * OWN_NUMBERS,
        _ => 0..0,
    };
    lent.settle(code, &bitmap, half, numbers)
}

/// Nothing changes but the two halves and all numbers.
pub fn load(store: &Store, saved: &[u8], random: &mut Random) -> Called<Store> {
    let mut lent = LentStore::of(store, random);
    let saved = Lent::input("saved", saved, random);
    let code = unsafe {
        bv_store_load(
            lent.buffer.pointer_mut(),
            lent.buffer.length,
            lent.directory.pointer_mut(),
            lent.directory.length,
            saved.pointer(),
            saved.length,
        )
    };
    let halves = 0..2 * (lent.buffer.length / 2);
    lent.settle(code, &saved, halves, 0..lent.directory.length)
}

/// Put into a store too large to be copied, without guard cells.
pub fn put_in_place(store: &mut Store, owner: u32, slot: u32, bitmap: &[u8]) -> u32 {
    let Store { buffer, directory } = store;
    let (to, len) = (buffer.as_mut_ptr(), buffer.len());
    let (numbers, count) = (directory.as_mut_ptr(), directory.len());
    let (from, length) = (bitmap.as_ptr(), bitmap.len());
    unsafe { bv_store_put(to, len, numbers, count, owner, slot, from, length) }
}

/// Load into a store too large to be copied, without guard cells.
pub fn load_in_place(store: &mut Store, saved: &[u8]) -> u32 {
    let Store { buffer, directory } = store;
    let (to, numbers) = (directory.as_mut_ptr(), directory.len());
    let (from, length) = (saved.as_ptr(), saved.len());
    unsafe { bv_store_load(buffer.as_mut_ptr(), buffer.len(), to, numbers, from, length) }
}

/// Fetch from a store too large to be copied, without guard cells.
pub fn fetch_in_place(store: &Store, owner: u32, slot: u32, out: &mut [u8]) -> (u32, usize) {
    let Store { buffer, directory } = store;
    let (from, len) = (buffer.as_ptr(), buffer.len());
    let (numbers, count) = (directory.as_ptr(), directory.len());
    let (to, room, mut length) = (out.as_mut_ptr(), out.len(), 0);
    let code =
        unsafe { bv_store_fetch(from, len, numbers, count, owner, slot, to, room, &mut length) };
    (code, length)
}

/// The directory after the call; its buffer is an input. Nothing changes but one number.
pub fn drop(store: &Store, owner: u32, slot: u32, random: &mut Random) -> Called<Vec<u32>> {
    let LentStore { buffer, mut directory } = LentStore::of(store, random);
    let code = unsafe {
        bv_store_drop(
            buffer.pointer(),
            buffer.length,
            directory.pointer_mut(),
            directory.length,
            owner,
            slot,
        )
    };
    let number = 2 * slot as usize + 1;
    let free = if code == 0 && number < directory.length { number..number + 1 } else { 0..0 };
    buffer.unharmed(0)?;
    directory.unharmed_but(free)?;
    Ok(if code == 0 { Ok(directory.content().to_vec()) } else { Err(code) })
}

pub fn fetch(
    store: &Store,
    owner: u32,
    slot: u32,
    room: usize,
    random: &mut Random,
) -> Called<Vec<u8>> {
    let LentStore { buffer, directory } = LentStore::of(store, random);
    written(&[&buffer, &directory], room, random, |out, room, length| unsafe {
        bv_store_fetch(
            buffer.pointer(),
            buffer.length,
            directory.pointer(),
            directory.length,
            owner,
            slot,
            out,
            room,
            length,
        )
    })
}

pub fn save(store: &Store, room: usize, random: &mut Random) -> Called<Vec<u8>> {
    let LentStore { buffer, directory } = LentStore::of(store, random);
    written(&[&buffer, &directory], room, random, |out, room, length| unsafe {
        bv_store_save(
            buffer.pointer(),
            buffer.length,
            directory.pointer(),
            directory.length,
            out,
            room,
            length,
        )
    })
}
