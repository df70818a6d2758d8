//! Wrong programs that save and load.

use super::super::planted;
use super::forms::is_form;
use super::judge::{self, judge};
use super::owners::Half;
use super::{lay, lay_at};
use crate::generate::numbers::{fewest, push_form};
use crate::generate::store::{own_slots, own_total, Entries, NUMBERS, SLOTS};
use crate::reference::bitmap::{self, Bitmap};
use crate::reference::varint::{self, Number};

pub const FAULTS: [&str; 52] = [
    "save-in-order-of-places",
    "save-pads-lengths",
    "save-skips-empty-slots",
    "save-length-in-a-byte",
    "save-length-in-two-bytes",
    "save-high-group-first",
    "save-63-entries",
    "save-32-entries",
    "save-second-owner-first",
    "save-judges-the-first-half-alone",
    "save-judges-the-second-half-alone",
    "save-refused-if-both-are-bad",
    "save-overlap-across-halves",
    "save-starts-from-the-buffer",
    "save-room-one-more",
    "save-room-before-the-store",
    "save-writes-before-room",
    "save-writes-behind",
    "save-length-on-refusal",
    "load-takes-padded-lengths",
    "load-takes-a-padded-0",
    "load-takes-bytes-behind",
    "load-takes-fewer-entries",
    "load-takes-a-cut-entry",
    "load-takes-accepted-bytes",
    "load-rewrites-accepted-bytes",
    "load-forms-not-judged",
    "load-takes-other-numbers",
    "load-length-wraps",
    "load-length-of-three-bytes-refused",
    "load-judges-the-old-store",
    "load-refuses-room-with-13",
    "load-full-half-refused",
    "load-one-byte-over-accepted",
    "load-room-by-the-saved-bytes",
    "load-sums-the-halves",
    "load-sums-both-halves",
    "load-fits-the-first-half-alone",
    "load-fits-the-second-half-alone",
    "load-half-rounded-up",
    "load-second-by-what-the-first-half-leaves",
    "load-lays-over-the-middle",
    "load-lays-the-second-into-the-first",
    "load-starts-from-the-buffer",
    "load-clears-the-odd-byte",
    "load-lays-the-first-before-the-second-fits",
    "load-keeps-the-second-half",
    "load-into-no-bytes-refused",
    "load-into-one-byte-refused",
    "load-writes-before-judging",
    "load-keeps-old-slots",
    "load-empty-set-as-empty-slot",
];

pub fn save(
    buffer: &[u8],
    directory: &[u32],
    out: &mut [u8],
    length: &mut usize,
) -> Result<(), u32> {
    if planted("save-room-before-the-store") && out.len() < SLOTS {
        return Err(13);
    }
    let mut entries = judged_entries(buffer, directory)?;
    if planted("save-in-order-of-places") {
        let start = |slot: usize| directory[2 * slot];
        let mut order: Vec<usize> = (0..SLOTS).collect();
        order.sort_by_key(|&slot| (entries[slot].is_empty(), start(slot)));
        entries = order.into_iter().map(|slot| std::mem::take(&mut entries[slot])).collect();
    }
    if planted("save-second-owner-first") {
        entries.rotate_left(SLOTS / 2);
    }
    let bytes = saved(&entries);
    if planted("save-length-on-refusal") {
        *length = bytes.len();
    }
    if bytes.len() + usize::from(planted("save-room-one-more")) > out.len() {
        if planted("save-writes-before-room") {
            let room = out.len();
            out.copy_from_slice(&bytes[..room]);
        }
        return Err(13);
    }
    out[..bytes.len()].copy_from_slice(&bytes);
    if planted("save-writes-behind") && bytes.len() < out.len() {
        out[bytes.len()] = 0;
    }
    *length = bytes.len();
    Ok(())
}

/// What all slots hold, or 42.
fn judged_entries(buffer: &[u8], directory: &[u32]) -> Result<Entries, u32> {
    let [first, second] = [0, 1].map(|owner| judge(buffer, directory, owner, None));
    match () {
        () if planted("save-judges-the-first-half-alone") => first?,
        () if planted("save-judges-the-second-half-alone") => second?,
        () if planted("save-refused-if-both-are-bad") => first.or(second)?,
        () => first.and(second)?,
    }
    if planted("save-overlap-across-halves") && judge::across(directory, 0) {
        return Err(42);
    }
    let mut entries = judge::entries(buffer, directory, 0)?;
    let mut others = judge::entries(buffer, directory, 1)?;
    if planted("save-starts-from-the-buffer") {
        others = from_the_buffer(buffer, directory, others);
    }
    for slot in own_slots(1) {
        entries[slot] = std::mem::take(&mut others[slot]);
    }
    Ok(entries)
}

/// What lies where the second owner's starts lead in the whole buffer.
fn from_the_buffer(buffer: &[u8], directory: &[u32], mut entries: Entries) -> Entries {
    for slot in own_slots(1) {
        let start = directory[2 * slot] as usize;
        if let Some(bytes) = buffer.get(start..start + entries[slot].len()) {
            entries[slot] = bytes.to_vec();
        }
    }
    entries
}

fn saved(entries: &Entries) -> Vec<u8> {
    let mut out = Vec::new();
    let count = match () {
        () if planted("save-63-entries") => SLOTS - 1,
        () if planted("save-32-entries") => SLOTS / 2,
        () => SLOTS,
    };
    for entry in &entries[..count] {
        let (length, start) = (entry.len() as u32, out.len());
        match () {
            () if planted("save-skips-empty-slots") && length == 0 => continue,
            () if planted("save-pads-lengths") => push_form(length, 5, &mut out),
            () if planted("save-length-in-a-byte") => out.push(length as u8),
            () if planted("save-length-in-two-bytes") => {
                push_form(length, fewest(length).min(2), &mut out)
            }
            () => push_form(length, fewest(length), &mut out),
        }
        if planted("save-high-group-first") {
            out[start..].reverse();
        }
        out.extend_from_slice(entry);
    }
    out
}

pub fn load(buffer: &mut [u8], directory: &mut [u32], saved: &[u8]) -> Result<(), u32> {
    if planted("load-judges-the-old-store") {
        judged_entries(buffer, directory)?;
    }
    let other_numbers = planted("load-takes-other-numbers") && directory.len() > NUMBERS;
    if directory.len() != NUMBERS && !other_numbers {
        return Err(42);
    }
    if planted("load-into-no-bytes-refused") && buffer.is_empty()
        || planted("load-into-one-byte-refused") && buffer.len() == 1
    {
        return Err(42);
    }
    let mut entries = entries(saved, buffer)?;
    let needed = [0, 1].map(|owner| own_total(&entries, owner));
    let rooms = [0, 1].map(|owner| Half::of(buffer.len(), owner).room());
    let one_over = (0..2).any(|owner| needed[owner] == rooms[owner] + 1);
    if planted("load-one-byte-over-accepted") && one_over {
        return Ok(());
    }
    if planted("load-lays-the-first-before-the-second-fits") && needed[0] <= rooms[0] {
        lay(buffer, directory, 0, &entries);
    }
    if !fits(needed, rooms, buffer.len(), saved.len()) {
        return Err(if planted("load-refuses-room-with-13") { 13 } else { 42 });
    }
    if planted("load-keeps-old-slots") {
        if let Ok(old) = judged_entries(buffer, directory) {
            keep(&mut entries, old, rooms);
        }
    }
    lay_both(buffer, directory, &entries);
    Ok(())
}

/// Whether the entries fit: what they need, the halves, the buffer's length and that of the saved bytes.
fn fits(needed: [usize; 2], rooms: [usize; 2], length: usize, saved: usize) -> bool {
    let within = |most: [usize; 2]| needed[0] <= most[0] && needed[1] <= most[1];
    match () {
        () if planted("load-full-half-refused") => needed[0] < rooms[0] && needed[1] < rooms[1],
        () if planted("load-room-by-the-saved-bytes") => saved <= length && within(rooms),
        () if planted("load-sums-the-halves") => needed[0] + needed[1] <= length,
        () if planted("load-sums-both-halves") => needed[0] + needed[1] <= rooms[0] + rooms[1],
        () if planted("load-fits-the-first-half-alone") => needed[0] <= rooms[0],
        () if planted("load-fits-the-second-half-alone") => needed[1] <= rooms[1],
        () if planted("load-half-rounded-up") => within([length.div_ceil(2); 2]),
        () if planted("load-second-by-what-the-first-half-leaves") => {
            within([rooms[0], length - rooms[0]])
        }
        () => within(rooms),
    }
}

/// Lays the entries of both owners out.
fn lay_both(buffer: &mut [u8], directory: &mut [u32], entries: &Entries) {
    let (length, half) = (buffer.len(), Half::of(buffer.len(), 1));
    lay(buffer, directory, 0, entries);
    match () {
        () if planted("load-keeps-the-second-half") && own_total(entries, 1) == 0 => {}
        () if planted("load-lays-over-the-middle") => {
            lay_at(buffer, directory, 1, entries, own_total(entries, 0));
        }
        () if planted("load-lays-the-second-into-the-first") => {
            lay_at(buffer, directory, 1, entries, 0);
            for slot in own_slots(1) {
                directory[2 * slot] = directory[2 * slot].wrapping_add(half.origin as u32);
            }
        }
        () => lay(buffer, directory, 1, entries),
    }
    if planted("load-starts-from-the-buffer") {
        for slot in own_slots(1) {
            directory[2 * slot] = directory[2 * slot].wrapping_add(half.origin as u32);
        }
    }
    if planted("load-clears-the-odd-byte") && length % 2 == 1 {
        buffer[length - 1] = 0;
    }
}

/// What the empty slots held, as far as it fits.
fn keep(entries: &mut Entries, old: Entries, rooms: [usize; 2]) {
    for (owner, room) in rooms.into_iter().enumerate() {
        for slot in own_slots(owner) {
            if entries[slot].is_empty() && own_total(entries, owner) + old[slot].len() <= room {
                entries[slot] = old[slot].clone();
            }
        }
    }
}

/// The entries of saved bytes, or 42.
fn entries(saved: &[u8], buffer: &mut [u8]) -> Result<Entries, u32> {
    let mut entries = vec![Vec::new(); SLOTS];
    let mut place = 0;
    for entry in &mut entries {
        if planted("load-takes-fewer-entries") && place == saved.len() {
            return Ok(entries);
        }
        let (bytes, next) = entry_at(saved, place).ok_or(42u32)?;
        *entry = judged(&saved[bytes]).ok_or(42u32)?;
        place = next;
        if planted("load-writes-before-judging") && entry.len() <= buffer.len() {
            buffer[..entry.len()].copy_from_slice(entry);
        }
    }
    if place == saved.len() || planted("load-takes-bytes-behind") {
        Ok(entries)
    } else {
        Err(42)
    }
}

/// Where an entry's bytes lie, and where the next one starts.
fn entry_at(saved: &[u8], place: usize) -> Option<(std::ops::Range<usize>, usize)> {
    let Number { value, next, shortest } = varint::read_marked(saved, place).ok()?;
    let padded = planted("load-takes-padded-lengths")
        || planted("load-takes-a-padded-0") && value == 0 && next == place + 2;
    let refused = planted("load-length-of-three-bytes-refused") && next > place + 2;
    if !shortest && !padded || refused {
        return None;
    }
    let end = next + value as usize;
    if planted("load-length-wraps") && end >> 32 > 0 {
        return Some((next..next, next));
    }
    if planted("load-takes-a-cut-entry") && end > saved.len() {
        return Some((next..next, saved.len()));
    }
    (end <= saved.len()).then_some((next..end, end))
}

/// What a slot holds of an entry.
fn judged(entry: &[u8]) -> Option<Vec<u8>> {
    if entry.is_empty() || planted("load-empty-set-as-empty-slot") && entry.len() == 6 {
        return Some(Vec::new());
    }
    let form = || Some(Bitmap::judge(entry).ok()?.form(entry).into_owned());
    let sound = match () {
        () if planted("load-rewrites-accepted-bytes") => return form(),
        () if planted("load-takes-accepted-bytes") => bitmap::check(entry).is_ok(),
        () if planted("load-forms-not-judged") => true,
        () => is_form(entry),
    };
    sound.then(|| entry.to_vec())
}
