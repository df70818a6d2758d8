//! The calls on a store, and wrong programs in their place. A wrong program copies what the owner's slots
//! hold out of its half, and lays it out again from the front, in the order of the slots.

use super::{planted, refuse, set};
use crate::generate::store::{
    huge_buffer, own_slots, own_total, Entries, Store, HUGE, NUMBERS, SLOTS,
};
use crate::reference::bitmap::Bitmap;
use crate::reference::store as second;
use judge::{asked, judge};
use owners::{Half, Of};
use std::slice::{from_raw_parts, from_raw_parts_mut};
use std::sync::OnceLock;

mod forms;
mod judge;
mod owners;
mod saved;

/// The faults, with the group that must find each one.
pub fn faults() -> Vec<(&'static str, String)> {
    let huge = HUGE.iter().all(|&length| huge_buffer(length).is_some());
    let huge: &[&str] = if huge { &judge::HUGE_FAULTS } else { &[] };
    let lists: [&[&str]; 8] = [
        &FAULTS,
        &MEMORY,
        &BESIDE,
        &owners::FAULTS,
        &judge::FAULTS,
        &forms::FAULTS,
        &saved::FAULTS,
        huge,
    ];
    let store = lists.concat().into_iter().map(|name| ("store", name.to_string()));
    store.chain(REPLAYED.map(|name| ("replay", name.to_string()))).collect()
}

/// No fault: a program that is right, and lays forms out otherwise than the second program. It changes free
/// bytes and the starts of empty slots too.
const OTHER_LAYOUT: &str = "other-layout";

/// Writing where nothing may be written.
const MEMORY: [&str; 9] = [
    "put-writes-behind-the-buffer",
    "put-writes-behind-the-directory",
    "put-changes-the-mask",
    "load-changes-the-saved-bytes",
    "fetch-writes-behind-the-form",
    "fetch-empties-the-slot",
    "fetch-length-on-refusal",
    "drop-zeroes-bytes",
    "save-moves-forms",
];

/// Changing what is the other owner's, or nobody's.
const BESIDE: [&str; 12] = [
    "put-clears-the-odd-byte",
    "put-writes-past-its-half",
    "put-writes-before-its-half",
    "put-moves-over-the-middle",
    "put-clears-the-others-empty-starts",
    "put-moves-the-others-forms",
    "put-clears-the-others-free-bytes",
    "put-mends-the-other",
    "put-empties-the-mirrored-slot",
    "drop-of-the-mirrored-slot",
    "drop-of-both-slots",
    "drop-clears-the-others-empty-start",
];

/// Faults that two runs of one owner's calls must find too. In most of them an owner's answers tell of the
/// other one, without any byte of it changed.
const REPLAYED: [&str; 15] = [
    "room-counts-both-owners",
    "room-counts-both-in-a-half",
    "room-by-the-forms-of-slots-0-to-31",
    "fetch-of-the-mirrored-slot",
    "fetch-from-the-other-half",
    "overlap-across-halves",
    "wild-start-of-the-other-refused",
    "other-half-judged",
    "other-half-judged-instead",
    "put-judges-both-halves",
    "fetch-judges-both-halves",
    "drop-judges-both-halves",
    "put-without-44",
    "drop-without-44",
    "put-moves-over-the-middle",
];

/// Faults of put, fetch and drop.
const FAULTS: [&str; 39] = [
    "room-counts-the-replaced-form",
    "room-counts-both-owners",
    "room-counts-both-in-a-half",
    "room-by-the-bytes-handed-in",
    "room-by-the-whole-buffer",
    "room-by-the-half-rounded-up",
    "room-by-what-the-first-half-leaves",
    "room-by-the-forms-of-slots-0-to-31",
    "gaps-refuse",
    "full-half-refused",
    "one-byte-over-accepted",
    "13-after-moving",
    "13-after-dropping",
    "room-before-the-mask",
    "mask-before-the-store",
    "mask-before-44",
    "mask-before-the-slot",
    "stored-as-handed-in",
    "empty-set-as-empty-slot",
    "old-form-kept",
    "old-length-kept",
    "neighbour-lost",
    "moved-without-its-start",
    "moved-over-itself",
    "start-in-16-bits",
    "start-as-the-end",
    "empty-before-the-store",
    "empty-before-44",
    "room-before-empty",
    "fetch-room-before-the-store",
    "fetch-room-before-44",
    "fetch-of-empty-gives-none",
    "fetch-of-the-mirrored-slot",
    "fetch-from-the-other-half",
    "fetch-room-one-more",
    "fetch-cut-to-the-room",
    "drop-clears-the-start",
    "drop-clears-the-start-alone",
    "drop-of-empty-accepted",
];

/// Whether a wrong program is planted.
fn wrong() -> bool {
    static WRONG: OnceLock<bool> = OnceLock::new();
    let any = || faults().iter().any(|(_, name)| planted(name)) || planted(OTHER_LAYOUT);
    *WRONG.get_or_init(any)
}

fn code(outcome: Result<(), u32>) -> u32 {
    outcome.map_or_else(refuse, |()| 0)
}

/// # Safety
/// As include/barcovento.h says.
#[no_mangle]
pub unsafe extern "C" fn bv_store_put(
    buffer: *mut u8,
    len: usize,
    directory: *mut u32,
    numbers: usize,
    owner: u32,
    slot: u32,
    bitmap: *const u8,
    bitmap_len: usize,
) -> u32 {
    let lent = from_raw_parts_mut(buffer, len);
    let lent_directory = from_raw_parts_mut(directory, numbers);
    let handed_in = from_raw_parts(bitmap, bitmap_len);
    if !wrong() {
        return code(second::put(lent, lent_directory, owner, slot, handed_in));
    }
    let outcome = put(lent, lent_directory, owner, slot, handed_in);
    if outcome.is_ok() && len > 0 {
        if planted("put-writes-behind-the-buffer") {
            *buffer.add(len) ^= 1;
        }
        if planted("put-writes-behind-the-directory") {
            *directory.add(numbers) ^= 1;
        }
        if planted("put-changes-the-mask") {
            *(bitmap as *mut u8).add(bitmap_len - 1) ^= 1;
        }
    }
    code(outcome)
}

/// # Safety
/// As include/barcovento.h says.
#[no_mangle]
pub unsafe extern "C" fn bv_store_fetch(
    buffer: *const u8,
    len: usize,
    directory: *const u32,
    numbers: usize,
    owner: u32,
    slot: u32,
    out: *mut u8,
    room: usize,
    length: *mut usize,
) -> u32 {
    let (lent, lent_directory) = (from_raw_parts(buffer, len), from_raw_parts(directory, numbers));
    let to = from_raw_parts_mut(out, room);
    let fetched = match wrong() {
        true => fetch(lent, lent_directory, owner, slot, to),
        false => second::fetch(lent, lent_directory, owner, slot, to),
    };
    match fetched {
        Ok(count) => {
            if planted("fetch-writes-behind-the-form") && count < room {
                to[count] ^= 1;
            }
            if planted("fetch-empties-the-slot") {
                *(directory as *mut u32).add(2 * slot as usize + 1) = 0;
            }
            set(length, count);
        }
        Err(number) => {
            if planted("fetch-length-on-refusal") && number == 13 {
                set(length, 0);
            }
        }
    }
    code(fetched.map(|_| ()))
}

/// # Safety
/// As include/barcovento.h says.
#[no_mangle]
pub unsafe extern "C" fn bv_store_drop(
    buffer: *const u8,
    len: usize,
    directory: *mut u32,
    numbers: usize,
    owner: u32,
    slot: u32,
) -> u32 {
    let lent = from_raw_parts(buffer, len);
    let lent_directory = from_raw_parts_mut(directory, numbers);
    if !wrong() {
        return code(second::drop(lent, lent_directory, owner, slot));
    }
    let before = lent_directory.to_vec();
    let outcome = drop(lent, lent_directory, owner, slot);
    if planted("drop-zeroes-bytes") && outcome.is_ok() {
        let place = Half::of(len, owner as usize).origin + before[2 * slot as usize] as usize;
        (buffer as *mut u8).add(place).write(0);
    }
    code(outcome)
}

/// # Safety
/// As include/barcovento.h says.
#[no_mangle]
pub unsafe extern "C" fn bv_store_save(
    buffer: *const u8,
    len: usize,
    directory: *const u32,
    numbers: usize,
    out: *mut u8,
    room: usize,
    length: *mut usize,
) -> u32 {
    let (lent, lent_directory) = (from_raw_parts(buffer, len), from_raw_parts(directory, numbers));
    let to = from_raw_parts_mut(out, room);
    if !wrong() {
        return code(second::save(lent, lent_directory, to).map(|count| set(length, count)));
    }
    if planted("save-moves-forms") {
        let store = Store { buffer: lent.to_vec(), directory: lent_directory.to_vec() };
        if let Ok(entries) = store.entries() {
            let directory = from_raw_parts_mut(directory as *mut u32, numbers);
            let buffer = from_raw_parts_mut(buffer as *mut u8, len);
            lay(buffer, directory, 0, &entries);
            lay(buffer, directory, 1, &entries);
        }
    }
    code(saved::save(lent, lent_directory, to, &mut *length))
}

/// # Safety
/// As include/barcovento.h says.
#[no_mangle]
pub unsafe extern "C" fn bv_store_load(
    buffer: *mut u8,
    len: usize,
    directory: *mut u32,
    numbers: usize,
    saved: *const u8,
    saved_len: usize,
) -> u32 {
    let lent = from_raw_parts_mut(buffer, len);
    let lent_directory = from_raw_parts_mut(directory, numbers);
    let from = from_raw_parts(saved, saved_len);
    if !wrong() {
        return code(second::load(lent, lent_directory, from));
    }
    if planted("load-changes-the-saved-bytes") && saved_len > 0 {
        *(saved as *mut u8) ^= 1;
    }
    code(saved::load(lent, lent_directory, from))
}

fn put(
    buffer: &mut [u8],
    directory: &mut [u32],
    owner: u32,
    slot: u32,
    bitmap: &[u8],
) -> Result<(), u32> {
    let judged = Bitmap::judge(bitmap);
    let own = judged.as_ref().map(|_| ()).map_err(|&refusal| refusal);
    if planted("mask-before-the-slot")
        || slot < 64 && planted("mask-before-44")
        || slot < 64 && slot / 32 == owner && planted("mask-before-the-store")
    {
        own?;
    }
    let (owner, slot, mut entries) = asked(Of::Put, buffer, directory, owner, slot)?;
    let half = Half::of(buffer.len(), owner);
    let held = std::mem::take(&mut entries[slot]);
    if planted("room-before-the-mask") && total(&entries) + 6 > half.room() {
        return Err(13);
    }
    let form = judged?.form(bitmap).into_owned();
    let one_over = total(&entries) + form.len() == half.room() + 1;
    if planted("one-byte-over-accepted") && one_over {
        return Ok(());
    }
    let sizes = [slot, form.len(), bitmap.len(), held.len()];
    if no_room(buffer.len(), directory, owner, &entries, sizes) {
        if planted("13-after-moving") {
            entries[slot] = held;
            lay(buffer, directory, owner, &entries);
        } else if planted("13-after-dropping") {
            directory[2 * slot + 1] = 0;
        }
        return Err(13);
    }
    let before = directory.to_vec();
    let old_kept = planted("old-form-kept") && !held.is_empty();
    entries[slot] = if old_kept { held.clone() } else { stored(half, &entries, bitmap, form) };
    if planted("neighbour-lost") && own_slots(owner).contains(&(slot + 1)) {
        entries[slot + 1].clear();
    }
    lay(buffer, directory, owner, &entries);
    misplace(buffer, directory, &before, owner, slot);
    if planted("old-length-kept") && !held.is_empty() {
        directory[2 * slot + 1] = held.len() as u32;
    }
    beside(buffer, directory, owner, slot);
    Ok(())
}

fn total(entries: &Entries) -> usize {
    entries.iter().map(Vec::len).sum()
}

/// What the slot holds of a bitmap that is put.
fn stored(half: Half, others: &Entries, bitmap: &[u8], form: Vec<u8>) -> Vec<u8> {
    let fits = total(others) + bitmap.len() <= half.room();
    match () {
        () if planted("stored-as-handed-in") && fits => bitmap.to_vec(),
        () if planted("empty-set-as-empty-slot") && form.len() == 6 => Vec::new(),
        () => form,
    }
}

/// Whether put is refused for room. The sizes are the slot, its form's length, the length of the bytes
/// handed in and what the slot held.
fn no_room(
    length: usize,
    directory: &[u32],
    owner: usize,
    others: &Entries,
    sizes: [usize; 4],
) -> bool {
    let [slot, form, handed_in, held] = sizes;
    let counted = match () {
        () if planted("room-counts-the-replaced-form") => form + held,
        () if planted("room-by-the-bytes-handed-in") => handed_in,
        () if planted("full-half-refused") => form + 1,
        () => form,
    };
    let lengths = |owner| {
        own_slots(owner)
            .map(|slot| directory.get(2 * slot + 1).map_or(0, |&length| length as usize))
    };
    let beside = match () {
        () if planted("room-counts-both-owners") => lengths(1 - owner).sum(),
        () if planted("room-counts-both-in-a-half") => lengths(1 - owner).sum(),
        () => 0,
    };
    let own = match () {
        () if planted("room-by-the-forms-of-slots-0-to-31") && owner == 1 => lengths(0).sum(),
        () => total(others),
    };
    let half = Half::of(length, owner);
    let room = match () {
        () if planted("room-by-the-whole-buffer") => length,
        () if planted("room-counts-both-owners") => length,
        () if planted("room-by-the-half-rounded-up") => length.div_ceil(2),
        () if planted("room-by-what-the-first-half-leaves") && owner == 1 => length - length / 2,
        () => half.room(),
    };
    own + beside + form.max(counted) > room
        || planted("gaps-refuse") && !has_gap(half.room(), directory, owner, slot, form)
}

/// Whether some gap between the owner's other slots takes the form.
fn has_gap(room: usize, directory: &[u32], owner: usize, slot: usize, length: usize) -> bool {
    let mut places: Vec<(usize, usize)> = own_slots(owner)
        .filter(|&other| other != slot && directory[2 * other + 1] > 0)
        .map(|i| (directory[2 * i] as usize, directory[2 * i + 1] as usize))
        .collect();
    places.push((room, 0));
    places.sort_unstable();
    let mut end = 0;
    places.into_iter().any(|(start, size)| {
        let gap = start - end;
        end = start + size;
        gap >= length
    })
}

/// Lays the owner's entries out from the front of its half, in the order of the slots, as far as they fit.
fn lay(buffer: &mut [u8], directory: &mut [u32], owner: usize, entries: &Entries) {
    let half = Half::of(buffer.len(), owner);
    lay_at(buffer, directory, owner, entries, half.start);
}

/// The same from this place on.
fn lay_at(buffer: &mut [u8], directory: &mut [u32], owner: usize, entries: &Entries, start: usize) {
    let half = Half::of(buffer.len(), owner);
    let mut place = start;
    for slot in own_slots(owner) {
        let entry = &entries[slot];
        let (Some(to), Some(pair)) =
            (buffer.get_mut(place..place + entry.len()), directory.get_mut(2 * slot..2 * slot + 2))
        else {
            return;
        };
        to.copy_from_slice(entry);
        pair.copy_from_slice(&[place.wrapping_sub(half.origin) as u32, entry.len() as u32]);
        place += entry.len();
        if planted(OTHER_LAYOUT) && entry.is_empty() {
            pair[0] = u32::MAX - slot as u32;
        }
    }
    if planted(OTHER_LAYOUT) {
        buffer[place..half.end.min(place + 4096)].fill(0xA5);
    }
}

/// The faults of moving: another slot than the one that was put has moved.
fn misplace(buffer: &mut [u8], directory: &mut [u32], before: &[u32], owner: usize, put: usize) {
    let half = Half::of(buffer.len(), owner);
    for slot in own_slots(owner).filter(|slot| 2 * slot + 1 < before.len()) {
        let (start, length) = (directory[2 * slot] as usize, directory[2 * slot + 1] as usize);
        let shift = start.abs_diff(before[2 * slot] as usize);
        if shift > 0 && slot != put && planted("moved-without-its-start") {
            directory[2 * slot] = before[2 * slot];
        }
        if shift > 0 && slot != put && planted("moved-over-itself") {
            let start = half.origin + start;
            for place in start + shift..start + length {
                buffer[place] = buffer[place - shift];
            }
        }
        if planted("start-in-16-bits") {
            directory[2 * slot] %= 65_536;
        }
        if planted("start-as-the-end") && slot == put {
            directory[2 * slot] += length as u32;
        }
    }
}

/// The other owner's slot of the same place among its own.
fn mirrored(slot: usize) -> usize {
    (slot + 32) % SLOTS
}

/// The faults of a put that changes what is not its owner's.
fn beside(buffer: &mut [u8], directory: &mut [u32], owner: usize, slot: usize) {
    let (length, half) = (buffer.len(), Half::of(buffer.len(), owner));
    if directory.len() != NUMBERS || length < 2 {
        return;
    }
    match () {
        () if planted("put-clears-the-odd-byte") && length % 2 == 1 => buffer[length - 1] = 0,
        () if planted("put-writes-past-its-half") && half.end < length => buffer[half.end] ^= 1,
        () if planted("put-writes-before-its-half") && half.start > 0 => {
            buffer[half.start - 1] ^= 1
        }
        () if planted("put-moves-over-the-middle") && owner == 0 => {
            over_the_middle(buffer, directory)
        }
        () if planted("put-clears-the-others-empty-starts") => {
            for pair in directory[2 * own_slots(1 - owner).start..].chunks_mut(2).take(32) {
                pair[0] *= u32::from(pair[1] > 0);
            }
        }
        () if planted("put-moves-the-others-forms") => {
            if judge(buffer, directory, 1 - owner, None).is_ok() {
                let entries = judge::entries(buffer, directory, 1 - owner).unwrap_or_default();
                lay(buffer, directory, 1 - owner, &entries);
            }
        }
        () if planted("put-clears-the-others-free-bytes") => {
            clear_free(buffer, directory, 1 - owner)
        }
        () if planted("put-mends-the-other") => {
            if judge(buffer, directory, 1 - owner, None).is_err() {
                own_slots(1 - owner).for_each(|other| directory[2 * other + 1] = 0);
            }
        }
        () if planted("put-empties-the-mirrored-slot") => directory[2 * mirrored(slot) + 1] = 0,
        () => {}
    }
}

/// Lays owner 0's forms out up to some bytes past the middle.
fn over_the_middle(buffer: &mut [u8], directory: &mut [u32]) {
    let half = Half::of(buffer.len(), 0);
    let entries = judge::entries(buffer, directory, 0).unwrap_or_default();
    let past = 3.min(buffer.len() - half.end);
    let start = half.end + past - own_total(&entries, 0).min(half.end);
    lay_at(buffer, directory, 0, &entries, start);
}

/// Clears an owner's first bytes in which no form lies.
fn clear_free(buffer: &mut [u8], directory: &[u32], owner: usize) {
    let half = Half::of(buffer.len(), owner);
    let places: Vec<(u64, u64)> = own_slots(owner)
        .map(|slot| (u64::from(directory[2 * slot]), u64::from(directory[2 * slot + 1])))
        .collect();
    for place in 0..half.room().min(4096) {
        let within =
            |&(start, length): &(u64, u64)| (start..start + length).contains(&(place as u64));
        if !places.iter().any(within) {
            buffer[half.start + place] = 0;
        }
    }
}

fn fetch(
    buffer: &[u8],
    directory: &[u32],
    owner: u32,
    slot: u32,
    out: &mut [u8],
) -> Result<usize, u32> {
    if early_empty(directory, owner, slot) {
        return Err(41);
    }
    if early_room(directory, owner, slot, out.len()) {
        return Err(13);
    }
    let (owner, slot, entries) = asked(Of::Fetch, buffer, directory, owner, slot)?;
    let mut form = entries[slot].clone();
    if planted("fetch-of-the-mirrored-slot") && !form.is_empty() {
        let others = judge::entries(buffer, directory, 1 - owner)?;
        form = others[mirrored(slot)].clone();
    }
    if planted("fetch-from-the-other-half") {
        let other = Half::of(buffer.len(), 1 - owner);
        let start = other.origin + directory[2 * slot] as usize;
        form = buffer.get(start..start + form.len()).map_or(form, |bytes| bytes.to_vec());
    }
    if planted("room-before-empty") && out.len() < 6 {
        return Err(13);
    }
    if form.is_empty() && !planted("fetch-of-empty-gives-none") {
        return Err(41);
    }
    let mut length = form.len();
    if planted("fetch-cut-to-the-room") {
        length = length.min(out.len());
    }
    if out.len() < length + usize::from(planted("fetch-room-one-more")) {
        return Err(13);
    }
    out[..length].copy_from_slice(&form[..length]);
    Ok(length)
}

/// Whether 41 is given before other refusals: the slot's length is 0, in any directory that has it.
fn early_empty(directory: &[u32], owner: u32, slot: u32) -> bool {
    let empty = slot < 64 && directory.get(2 * slot as usize + 1) == Some(&0);
    empty && (planted("empty-before-44") || slot / 32 == owner && planted("empty-before-the-store"))
}

/// Whether 13 is given before other refusals: the slot's length is over the room.
fn early_room(directory: &[u32], owner: u32, slot: u32, room: usize) -> bool {
    let length = directory.get(2 * slot as usize + 1).map_or(0, |&length| length as usize);
    let early = planted("fetch-room-before-44")
        || slot / 32 == owner && planted("fetch-room-before-the-store");
    slot < 64 && length > room && early
}

fn drop(buffer: &[u8], directory: &mut [u32], owner: u32, slot: u32) -> Result<(), u32> {
    if early_empty(directory, owner, slot) {
        return Err(41);
    }
    let (_, slot, entries) = asked(Of::Drop, buffer, directory, owner, slot)?;
    if entries[slot].is_empty() && !planted("drop-of-empty-accepted") {
        return Err(41);
    }
    if planted("drop-clears-the-start") || planted("drop-clears-the-start-alone") {
        directory[2 * slot] = 0;
    }
    if planted("drop-of-the-mirrored-slot") || planted("drop-of-both-slots") {
        directory[2 * mirrored(slot) + 1] = 0;
    }
    if planted("drop-clears-the-others-empty-start") && directory[2 * mirrored(slot) + 1] == 0 {
        directory[2 * mirrored(slot)] = 0;
    }
    if !planted("drop-clears-the-start-alone") && !planted("drop-of-the-mirrored-slot") {
        directory[2 * slot + 1] = 0;
    }
    Ok(())
}
