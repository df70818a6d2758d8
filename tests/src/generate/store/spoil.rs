//! Bad stores and bad saved stores, each spoiled in one way.

use super::super::bitmap::packing::{near_tie, nearly_form};
use super::super::bitmap::{self as masks, damaged};
use super::super::numbers::{bad_varint, fewest, push_form};
use super::super::{damage_bytes, Random};
use super::{form, own_slots, owner_of, set, Scale, Store, OWN_SLOTS, SLOTS};

/// Accepted bitmaps that are no forms: {0} with an empty container behind, also in 12 bytes; with an
/// exception whose part is 0; in eight bits; {256} with b 0; 0 to 31 with descriptor 33; {0} with b2 and
/// no exceptions; with m 0.
pub const NOT_FORMS: [&[u8]; 8] = [
    &[1, 1, 0, 0, 2, 0, 1, 0, 0, 0x80, 0],
    &[1, 1, 0, 0, 2, 0, 0x10, 1, 0, 0, 0x80, 0],
    &[1, 1, 0, 0, 1, 0, 0, 1, 1, 0, 0],
    &[1, 1, 0, 0, 1, 0, 8, 0, 0, 1, 0],
    &[1, 1, 0, 0, 2, 0, 0x10, 1, 0, 1, 0x80, 0],
    &[
        1, 32, 0, 0, 1, 0, 0, 0, 33, 255, 255, 255, 255, 0, 0, 0, 0, 0, 0, 0, 0, 0, 0, 0, 0, 0, 0,
        0, 0, 0, 0, 0, 0, 0, 0, 0, 0, 0, 0, 0, 0,
    ],
    &[1, 1, 0, 0, 1, 0, 0x40, 0, 1, 0],
    &[1, 1, 0, 0, 1, 0, 1, 0, 0, 0x80, 0],
];

/// Numbers that no directory has.
pub const OTHER_NUMBERS: [usize; 9] = [0, 1, 2, 64, 126, 127, 129, 130, 256];

/// A form of one dense container that has the other form's bytes from `at` on, 4 to 31, counted in the
/// container. The bytes go on to the end of both; the second number is where the other one starts.
pub fn overlapping(inner: &[u8], at: usize) -> (Vec<u8>, usize) {
    let (head, start) = (9, 9 + at);
    let mut bytes = vec![0xFF; (start + inner.len()).max(OUTER)];
    bytes[start..start + inner.len()].copy_from_slice(inner);
    let members: u32 = bytes[head..OUTER].iter().map(|byte| byte.count_ones()).sum();
    bytes[..head].copy_from_slice(&[1, members as u8, 0, 0, 1, 0, 0, 0, 32]);
    (bytes, start)
}

/// The length of a form of one dense container.
const OUTER: usize = 41;

/// Lets two slots lie in each other as above, behind all others of their owner. Slots of two owners have
/// the same numbers, each in its own half, and are sound.
pub fn overlap(store: &mut Store, slots: [usize; 2], inner: &[u8], at: usize) {
    let (bytes, start) = overlapping(inner, at);
    let begin = store.half();
    store.resize(begin + bytes.len());
    for slot in slots {
        store.own_bytes_mut(owner_of(slot))[begin..].copy_from_slice(&bytes);
    }
    store.set(slots[0], begin as u32, OUTER as u32);
    store.set(slots[1], (begin + start) as u32, inner.len() as u32);
}

/// Spoils a sound store, mostly so that it is bad; the slot is not empty.
type Spoil = fn(&mut Random, &mut Store, usize);

/// These spoil the half of the slot's owner alone; but a half that is cut is cut for both.
pub const SPOILS: [(&str, Spoil); 17] = [
    ("one place twice", |random, store, slot| {
        let (start, length) = store.place(slot);
        store.set(other_slot(random, slot), start, length);
    }),
    ("overlap", |random, store, slot| {
        let inner = form(&set(random, Scale::Tiny));
        let slots = [slot, other_slot(random, slot)];
        let slots = if random.once_in(2) { slots } else { [slots[1], slots[0]] };
        overlap(store, slots, &inner, random.between(4, 31));
    }),
    ("starts past the end", |random, store, slot| {
        let (end, length) = (store.half() as u32, store.place(slot).1);
        let starts =
            [end - length + 1, end - 1, end, end + 1, 1 << 31, u32::MAX - length, u32::MAX];
        store.set(slot, random.pick(&starts), length);
    }),
    ("half cut", |random, store, slot| {
        let end = |slot: usize| store.place(slot).0 + store.place(slot).1;
        let last = store.own_filled(owner_of(slot)).into_iter().map(end).max().unwrap_or(0);
        store.resize((last as usize).saturating_sub(random.between(1, 6)));
    }),
    ("ends past its half", |random, store, slot| {
        let form = form(&set(random, Scale::Tiny));
        if owner_of(slot) == 0 {
            let past = random.between(1, form.len() - 1);
            over_the_middle(store, slot, &form, past);
        } else {
            into_the_odd_byte(store, slot, &form);
        }
    }),
    ("counted from the buffer", |random, store, slot| {
        if owner_of(slot) == 0 || random.once_in(3) {
            let form = form(&set(random, Scale::Tiny));
            in_the_other_half(store, slot, &form);
        } else {
            from_the_buffer(store);
        }
    }),
    ("end wraps", |random, store, slot| {
        let (start, length) = store.place(slot);
        if start > 0 && random.once_in(2) {
            let wrapped = random.pick(&[0, start / 2, start - 1]);
            store.set(slot, start, wrapped.wrapping_sub(start));
        } else {
            let wrapped = random.pick(&[0, 1, 5, length - 1]);
            store.set(slot, wrapped.wrapping_sub(length), length);
        }
    }),
    ("short", |random, store, slot| {
        let start = random.pick(&[0, store.place(slot).0, store.half() as u32, u32::MAX]);
        store.set(slot, start, random.between(1, 5) as u32);
    }),
    ("no form", |random, store, slot| store.append(slot, random.pick(&NOT_FORMS))),
    ("other writing", |random, store, slot| {
        let bytes = other_writing(random);
        store.append(slot, &bytes);
    }),
    ("damaged", |random, store, slot| {
        let set = set(random, Scale::Small);
        store.append(slot, &damaged(random, &set));
    }),
    ("bit flipped", |random, store, slot| {
        let (start, length) = store.place(slot);
        let place = start as usize + random.below((length as usize).min(12));
        store.own_bytes_mut(owner_of(slot))[place] ^= 1 << random.below(8);
    }),
    ("length one off", |random, store, slot| {
        let (start, length) = store.place(slot);
        store.set(slot, start, random.pick(&[length - 1, length + 1]));
    }),
    ("start one off", |random, store, slot| {
        let (start, length) = store.place(slot);
        store.set(slot, random.pick(&[start.wrapping_sub(1), start + 1]), length);
    }),
    ("length near 2^32", |random, store, slot| {
        let start = store.place(slot).0;
        store.set(slot, start, u32::MAX - random.below(7) as u32);
    }),
    ("all in one place", |_, store, slot| {
        let (start, length) = store.place(slot);
        for other in own_slots(owner_of(slot)) {
            store.set(other, start, length);
        }
    }),
    // This one is sound.
    ("empty with a wild start", |random, store, slot| {
        store.set(other_slot(random, slot), random.word() as u32, 0);
    }),
];

/// These spoil what both owners share.
pub const SHARED_SPOILS: [(&str, Spoil); 2] = [
    ("other numbers", |random, store, _| {
        store.directory.resize(random.pick(&OTHER_NUMBERS), 0);
    }),
    // The second half begins elsewhere, but where the buffer only gets or loses its odd byte.
    ("other length", |random, store, _| {
        let length = store.buffer.len();
        let fewer = [1, 2, 3].map(|bytes| length.saturating_sub(bytes));
        let lengths = [fewer[0], fewer[1], fewer[2], length + 1, length + 2];
        store.buffer.resize(random.pick(&lengths), 0);
    }),
];

/// Any other slot of the same owner, at times a neighbour.
fn other_slot(random: &mut Random, slot: usize) -> usize {
    let step = if random.once_in(4) { 1 } else { random.between(1, OWN_SLOTS - 1) };
    own_slots(owner_of(slot)).start + (slot + step) % OWN_SLOTS
}

/// Lets a slot of owner 0 lie over the middle, with so many bytes past it. The form is whole, and owner 1's
/// forms have moved up.
pub fn over_the_middle(store: &mut Store, slot: usize, form: &[u8], past: usize) {
    let half = store.half();
    let moved = store.own_bytes(1).to_vec();
    store.resize(half + form.len());
    store.own_bytes_mut(1)[form.len()..].copy_from_slice(&moved);
    for other in store.own_filled(1) {
        let (start, length) = store.place(other);
        store.set(other, start + form.len() as u32, length);
    }
    let start = store.half() + past - form.len();
    store.buffer[start..start + form.len()].copy_from_slice(form);
    store.set(slot, start as u32, form.len() as u32);
}

/// Lets a slot of owner 1 end with the odd byte. The form is whole.
pub fn into_the_odd_byte(store: &mut Store, slot: usize, form: &[u8]) {
    store.resize(store.half() + form.len());
    store.buffer.resize(2 * store.half() + 1, 0);
    let place = store.buffer.len() - form.len();
    store.buffer[place..].copy_from_slice(form);
    store.set(slot, (place - store.half()) as u32, form.len() as u32);
}

/// Lets a slot lie in the other owner's half, in bytes that are free there, counted from the slot's own
/// half: for owner 1 the start wraps.
pub fn in_the_other_half(store: &mut Store, slot: usize, form: &[u8]) {
    let start = store.half();
    store.resize(start + form.len());
    let other = 1 - owner_of(slot);
    store.own_bytes_mut(other)[start..].copy_from_slice(form);
    let [own, place] = match other {
        0 => [store.half(), start],
        _ => [0, store.half() + start],
    };
    store.set(slot, (place as u32).wrapping_sub(own as u32), form.len() as u32);
}

/// Counts the starts of owner 1, which has forms, from the first byte of the buffer.
pub fn from_the_buffer(store: &mut Store) {
    let half = store.half() as u32;
    for slot in store.own_filled(1) {
        let (start, length) = store.place(slot);
        store.set(slot, start + half, length);
    }
}

/// An accepted bitmap that is not its set's form.
pub fn other_writing(random: &mut Random) -> Vec<u8> {
    for _ in 0..20 {
        let set = match random.below(6) {
            0 => near_tie(random),
            1 => masks::set(random),
            2 => over_chunks(random),
            3 => (0..random.between(32, 700) as u32).collect(),
            _ => set(random, Scale::Small),
        };
        let bytes = match random.below(3) {
            0 => masks::sound(random, &set),
            _ => nearly_form(random, &set),
        };
        if bytes != form(&set) {
            return bytes;
        }
    }
    NOT_FORMS[0].to_vec()
}

/// A few members over some chunks.
fn over_chunks(random: &mut Random) -> Vec<u32> {
    let bound = 65_536 * random.between(1, 4);
    let mut set: Vec<u32> =
        (0..random.between(1, 99)).map(|_| random.below(bound) as u32).collect();
    set.sort_unstable();
    set.dedup();
    set
}

/// The store, whose forms lie apart within their halves, spoiled in one way: mostly in one half alone.
pub fn store(random: &mut Random, store: &Store) -> Store {
    if random.once_in(10) {
        let (_, spoil) = random.pick(&SHARED_SPOILS);
        let owner = random.below(2);
        return spoil_by(random, store, owner, spoil);
    }
    let filled = store.filled();
    let owner = match filled.is_empty() {
        true => random.below(2),
        false => owner_of(random.pick(&filled)),
    };
    half(random, store, owner)
}

/// The same, spoiled in this owner's half.
pub fn half(random: &mut Random, store: &Store, owner: usize) -> Store {
    let (_, spoil) = random.pick(&SPOILS);
    spoil_by(random, store, owner, spoil)
}

pub fn spoil_by(random: &mut Random, store: &Store, owner: usize, spoil: Spoil) -> Store {
    let mut bad = store.clone();
    if bad.own_filled(owner).is_empty() {
        let slot = random.below(OWN_SLOTS) + own_slots(owner).start;
        bad.append(slot, &form(&[0]));
    }
    let slot = random.pick(&bad.own_filled(owner));
    spoil(random, &mut bad, slot);
    bad
}

/// The two parts of each entry: its length's bytes and its own.
type Parts = Vec<(Vec<u8>, Vec<u8>)>;

/// Spoils the parts of a sound saved store at one entry.
type SavedSpoil = fn(&mut Random, &mut Parts, usize);

pub const SAVED_SPOILS: [(&str, SavedSpoil); 13] = [
    ("padded length", |random, parts, at| {
        let length = parts[at].1.len() as u32;
        parts[at].0 = number(length, random.between(fewest(length) + 1, 5));
    }),
    ("bad length", |random, parts, at| {
        parts[at].0 = bad_varint(random, parts[at].1.len() as u32);
    }),
    ("huge length", |random, parts, at| {
        let before: usize = parts[..at].iter().map(|(a, b)| a.len() + b.len()).sum();
        let behind = (before + 5) as u32;
        let more = random.below(40) as u32;
        let lengths = [u32::MAX, u32::MAX - more, more.wrapping_sub(behind), 1 << 31];
        parts[at].0 = number(random.pick(&lengths), 5);
    }),
    ("length one off", |random, parts, at| {
        let length = parts[at].1.len() as u32;
        let other = random.pick(&[length.checked_sub(1).unwrap_or(1), length + 1]);
        parts[at].0 = number(other, fewest(other));
    }),
    ("entry missing", |_, parts, at| {
        parts.remove(at);
    }),
    ("last entry missing", |_, parts, _| {
        parts.pop();
    }),
    ("entry more", |random, parts, at| {
        let entry = if random.once_in(2) { Vec::new() } else { form(&set(random, Scale::Tiny)) };
        parts.insert(at, part(entry));
    }),
    ("byte behind", |random, parts, _| {
        let byte = random.pick(&[0, 0, 1, 6, 0x80, 0xFF]);
        parts.push((Vec::new(), vec![byte]));
    }),
    ("no form", |random, parts, at| parts[at] = part(random.pick(&NOT_FORMS).to_vec())),
    ("other writing", |random, parts, at| parts[at] = part(other_writing(random))),
    ("damaged", |random, parts, at| {
        let set = set(random, Scale::Small);
        parts[at] = part(damaged(random, &set));
    }),
    ("short", |random, parts, at| {
        let mut entry = form(&[]);
        entry.truncate(random.between(1, 5));
        parts[at] = part(entry);
    }),
    ("cut or damaged", |random, parts, _| {
        let mut bytes = joined(parts);
        match random.below(2) {
            0 => bytes.truncate(random.below(bytes.len())),
            _ => damage_bytes(random, &mut bytes),
        }
        *parts = vec![(Vec::new(), bytes)];
    }),
];

fn number(value: u32, count: usize) -> Vec<u8> {
    let mut out = Vec::new();
    push_form(value, count, &mut out);
    out
}

fn part(entry: Vec<u8>) -> (Vec<u8>, Vec<u8>) {
    let length = entry.len() as u32;
    (number(length, fewest(length)), entry)
}

fn joined(parts: &Parts) -> Vec<u8> {
    parts.iter().flat_map(|(length, bytes)| [length.as_slice(), bytes]).flatten().copied().collect()
}

/// The entries saved, and spoiled in one way.
pub fn saved(random: &mut Random, entries: &[Vec<u8>]) -> Vec<u8> {
    let (_, spoil) = random.pick(&SAVED_SPOILS);
    saved_by(random, entries, spoil)
}

pub fn saved_by(random: &mut Random, entries: &[Vec<u8>], spoil: SavedSpoil) -> Vec<u8> {
    let mut parts: Parts = entries.iter().map(|entry| part(entry.clone())).collect();
    let filled: Vec<usize> = (0..SLOTS).filter(|&slot| !entries[slot].is_empty()).collect();
    let at = match random.below(4) {
        0 => random.pick(&[0, SLOTS - 1]),
        1 | 2 if !filled.is_empty() => random.pick(&filled),
        _ => random.below(SLOTS),
    };
    spoil(random, &mut parts, at);
    joined(&parts)
}
