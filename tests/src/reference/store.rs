//! A store: (v) and (xi) of document 02. Up to 64 numbered bitmaps, each as its one written form, in a
//! lent buffer that two owners share.
//!
//! Owner 0 has slots 0 to 31 and the buffer's first half, owner 1 slots 32 to 63 and the second half. A
//! half is the buffer's length by 2, rounded down: an odd last byte is nobody's.
//!
//! A lent directory of 128 numbers says where the forms lie: number 2i is where slot i starts, counted
//! from the first byte of its owner's half, number 2i + 1 is its length, 0 for an empty slot. Forms are
//! kept towards the half's end, as far as a start has 32 bits.

use super::bitmap::{is_form, Bitmap};
use super::{varint, Refusal};
use std::ops::Range;

#[cfg(test)]
mod tests;

pub const SLOTS: usize = 64;
/// The numbers of a directory.
pub const NUMBERS: usize = 2 * SLOTS;
/// The slots of one owner.
pub const OWN_SLOTS: usize = SLOTS / 2;

/// Where a slot's form lies in its half; an empty slot has length 0.
#[derive(Clone, Copy)]
struct Place {
    start: usize,
    length: usize,
}

impl Place {
    fn range(self) -> Range<usize> {
        self.start..self.start + self.length
    }
}

/// The owner, and the slot counted among its own.
fn own_slot(owner: u32, slot: u32) -> Result<(usize, usize), Refusal> {
    let (owner, slot) = (owner as usize, slot as usize);
    if slot >= SLOTS {
        return Err(40);
    }
    if slot / OWN_SLOTS != owner {
        return Err(44);
    }
    Ok((owner, slot % OWN_SLOTS))
}

/// An owner's half of a buffer of this length.
fn half(length: usize, owner: usize) -> Range<usize> {
    let half = length / 2;
    owner * half..(owner + 1) * half
}

/// An owner's numbers of a directory.
fn numbers(owner: usize) -> Range<usize> {
    2 * OWN_SLOTS * owner..2 * OWN_SLOTS * (owner + 1)
}

/// An owner's half and numbers.
fn share<'a>(
    buffer: &'a [u8],
    directory: &'a [u32],
    owner: usize,
) -> Result<(&'a [u8], &'a [u32]), Refusal> {
    if directory.len() != NUMBERS {
        return Err(42);
    }
    Ok((&buffer[half(buffer.len(), owner)], &directory[numbers(owner)]))
}

fn share_mut<'a>(
    buffer: &'a mut [u8],
    directory: &'a mut [u32],
    owner: usize,
) -> Result<(&'a mut [u8], &'a mut [u32]), Refusal> {
    if directory.len() != NUMBERS {
        return Err(42);
    }
    let half = half(buffer.len(), owner);
    Ok((&mut buffer[half], &mut directory[numbers(owner)]))
}

/// Judges an owner's slots within its half, and gives the place of each.
fn judge(half: &[u8], numbers: &[u32]) -> Result<Vec<Place>, Refusal> {
    let place = |pair: &[u32]| Place { start: pair[0] as usize, length: pair[1] as usize };
    let places: Vec<Place> = numbers.chunks_exact(2).map(place).collect();
    let mut end = half.len();
    for i in falling(&places) {
        if places[i].range().end > end {
            return Err(42);
        }
        end = places[i].start;
    }
    let mut filled = places.iter().filter(|place| place.length > 0);
    if filled.all(|place| is_form(&half[place.range()])) {
        Ok(places)
    } else {
        Err(42)
    }
}

/// Whether an owner, 0 or 1, has forms lying apart within its half.
pub fn is_sound(buffer: &[u8], directory: &[u32], owner: usize) -> bool {
    share(buffer, directory, owner).is_ok_and(|(half, numbers)| judge(half, numbers).is_ok())
}

/// The slots that are not empty, the one that starts last first.
fn falling(places: &[Place]) -> Vec<usize> {
    let mut slots: Vec<usize> = (0..places.len()).filter(|&i| places[i].length > 0).collect();
    slots.sort_unstable_by_key(|&i| std::cmp::Reverse(places[i].start));
    slots
}

/// Where forms end at most that are placed in the half.
fn reach(half: &[u8]) -> usize {
    half.len().min(u32::MAX as usize)
}

/// The slot holds the bitmap's form, in place of what it held.
pub fn put(
    buffer: &mut [u8],
    directory: &mut [u32],
    owner: u32,
    slot: u32,
    bitmap: &[u8],
) -> Result<(), Refusal> {
    let (owner, slot) = own_slot(owner, slot)?;
    let (half, numbers) = share_mut(buffer, directory, owner)?;
    let mut places = judge(half, numbers)?;
    let form = Bitmap::judge(bitmap)?.form(bitmap);
    places[slot].length = 0;
    let others: usize = places.iter().map(|place| place.length).sum();
    if others + form.len() > half.len() {
        return Err(13);
    }
    let start = last_gap(&places, reach(half), form.len())
        .unwrap_or_else(|| slide_up(half, &mut places) - form.len());
    places[slot] = Place { start, length: form.len() };
    half[places[slot].range()].copy_from_slice(&form);
    for (pair, place) in numbers.chunks_exact_mut(2).zip(&places) {
        pair.copy_from_slice(&[place.start as u32, place.length as u32]);
    }
    Ok(())
}

/// Where a form of this length starts that ends with the last gap which takes it.
fn last_gap(places: &[Place], room: usize, length: usize) -> Option<usize> {
    let mut end = room;
    for i in falling(places) {
        if end.saturating_sub(places[i].range().end) >= length {
            return Some(end - length);
        }
        end = end.min(places[i].start);
    }
    end.checked_sub(length)
}

/// Moves all forms up to the end of the half, without gaps, and returns where they then begin. A half over
/// 4 GiB always has a gap instead.
fn slide_up(half: &mut [u8], places: &mut [Place]) -> usize {
    let mut begin = half.len();
    for i in falling(places) {
        begin -= places[i].length;
        if begin != places[i].start {
            half.copy_within(places[i].range(), begin);
            places[i].start = begin;
        }
    }
    begin
}

/// Copies the slot's form into the output, and gives its length.
pub fn fetch(
    buffer: &[u8],
    directory: &[u32],
    owner: u32,
    slot: u32,
    out: &mut [u8],
) -> Result<usize, Refusal> {
    let (owner, slot) = own_slot(owner, slot)?;
    let (half, numbers) = share(buffer, directory, owner)?;
    let place = judge(half, numbers)?[slot];
    if place.length == 0 {
        return Err(41);
    }
    out.get_mut(..place.length).ok_or(13u32)?.copy_from_slice(&half[place.range()]);
    Ok(place.length)
}

/// The slot is empty.
pub fn drop(buffer: &[u8], directory: &mut [u32], owner: u32, slot: u32) -> Result<(), Refusal> {
    let (owner, slot) = own_slot(owner, slot)?;
    let (half, own) = share(buffer, directory, owner)?;
    if judge(half, own)?[slot].length == 0 {
        return Err(41);
    }
    directory[numbers(owner)][2 * slot + 1] = 0;
    Ok(())
}

/// What each of an owner's slots holds.
fn held<'a>(
    buffer: &'a [u8],
    directory: &'a [u32],
    owner: usize,
) -> Result<Vec<&'a [u8]>, Refusal> {
    let (half, numbers) = share(buffer, directory, owner)?;
    let form = |place: Place| half.get(place.range()).unwrap_or_default();
    Ok(judge(half, numbers)?.into_iter().map(form).collect())
}

/// Writes 64 entries, each a length and the form's bytes, and gives their length.
pub fn save(buffer: &[u8], directory: &[u32], out: &mut [u8]) -> Result<usize, Refusal> {
    let entries = [held(buffer, directory, 0)?, held(buffer, directory, 1)?].concat();
    let entry = |form: &&[u8]| varint::shortest(form.len() as u32).1 + form.len();
    let total = entries.iter().map(entry).sum();
    let mut rest = out.get_mut(..total).ok_or(13u32)?;
    for form in entries {
        let (number, digits) = varint::shortest(form.len() as u32);
        let (head, behind) = rest.split_at_mut(digits);
        let (bytes, next) = behind.split_at_mut(form.len());
        head.copy_from_slice(&number[..digits]);
        bytes.copy_from_slice(form);
        rest = next;
    }
    Ok(total)
}

/// Each slot holds its entry of the saved bytes. What the store held is not judged.
pub fn load(buffer: &mut [u8], directory: &mut [u32], saved: &[u8]) -> Result<(), Refusal> {
    let entries = read_entries(saved).ok_or(42u32)?;
    let half = buffer.len() / 2;
    let fits = |own: &[&[u8]]| own.iter().map(|entry| entry.len()).sum::<usize>() <= half;
    if directory.len() != NUMBERS || !entries.chunks(OWN_SLOTS).all(fits) {
        return Err(42);
    }
    for (owner, own) in entries.chunks(OWN_SLOTS).enumerate() {
        let (half, numbers) = share_mut(buffer, directory, owner)?;
        lay(half, numbers, own);
    }
    Ok(())
}

/// Lays an owner's entries into its half, which takes them.
fn lay(half: &mut [u8], numbers: &mut [u32], entries: &[&[u8]]) {
    let mut start = reach(half);
    for (pair, entry) in numbers.chunks_exact_mut(2).zip(entries) {
        start -= entry.len();
        half[start..start + entry.len()].copy_from_slice(entry);
        pair.copy_from_slice(&[start as u32, entry.len() as u32]);
    }
}

/// The 64 entries, if the bytes are just that: shortest lengths, forms alone, nothing behind.
pub fn read_entries(saved: &[u8]) -> Option<Vec<&[u8]>> {
    let mut entries = Vec::with_capacity(SLOTS);
    let mut place = 0;
    for _ in 0..SLOTS {
        let number = varint::read_marked(saved, place).ok().filter(|number| number.shortest)?;
        place = number.next.checked_add(number.value as usize)?;
        let entry = saved.get(number.next..place)?;
        if !entry.is_empty() && !is_form(entry) {
            return None;
        }
        entries.push(entry);
    }
    (place == saved.len()).then_some(entries)
}
