use super::*;
use crate::generate::store::spoil::{self, NOT_FORMS, SAVED_SPOILS, SHARED_SPOILS, SPOILS};
use crate::generate::store::{
    edges, form, lay, needed, own_half, own_slots, own_total, owner_of, saved, Entries, Kind,
    Scale, Store, OTHER_OWNERS,
};
use crate::generate::Random;

fn bytes(hex: &str) -> Vec<u8> {
    hex.split_whitespace().map(|byte| u8::from_str_radix(byte, 16).unwrap()).collect()
}

/// {0}, {0, 34, 255} and the empty set.
const ZERO: [u8; 10] = [1, 1, 0, 0, 1, 0, 0, 0, 1, 0];
const ZONE: [u8; 12] = [1, 3, 0, 0, 1, 0, 0, 0, 3, 0, 0x22, 0xFF];
const NONE: [u8; 6] = [1, 0, 0, 0, 0, 0];

impl Store {
    fn put_as(&mut self, owner: u32, slot: u32, bitmap: &[u8]) -> Result<(), Refusal> {
        let before = self.clone();
        let outcome = put(&mut self.buffer, &mut self.directory, owner, slot, bitmap);
        assert!(outcome.is_ok() || *self == before);
        if outcome.is_ok() {
            assert_eq!(self.beside(owner as usize), before.beside(owner as usize));
        }
        outcome
    }

    /// Put by the slot's own owner.
    fn put(&mut self, slot: u32, bitmap: &[u8]) -> Result<(), Refusal> {
        self.put_as(slot / 32, slot, bitmap)
    }

    fn fetch_as(&self, owner: u32, slot: u32) -> Result<Vec<u8>, Refusal> {
        let mut out = vec![0xEE; 300_000];
        let length = fetch(&self.buffer, &self.directory, owner, slot, &mut out)?;
        assert!(out[length..].iter().all(|&byte| byte == 0xEE));
        out.truncate(length);
        Ok(out)
    }

    fn fetch(&self, slot: u32) -> Result<Vec<u8>, Refusal> {
        self.fetch_as(slot / 32, slot)
    }

    /// Changes one number alone, if it is not refused.
    fn drop_as(&mut self, owner: u32, slot: u32) -> Result<(), Refusal> {
        let mut before = self.clone();
        let outcome = drop(&self.buffer, &mut self.directory, owner, slot);
        if outcome.is_ok() {
            assert!(before.directory[2 * slot as usize + 1] > 0);
            before.directory[2 * slot as usize + 1] = 0;
        }
        assert!(*self == before);
        outcome
    }

    fn drop(&mut self, slot: u32) -> Result<(), Refusal> {
        self.drop_as(slot / 32, slot)
    }

    fn load(&mut self, saved: &[u8]) -> Result<(), Refusal> {
        let before = self.clone();
        let outcome = load(&mut self.buffer, &mut self.directory, saved);
        assert!(outcome.is_ok() || *self == before);
        assert_eq!(self.buffer[2 * self.half()..], before.buffer[2 * before.half()..]);
        outcome
    }

    fn save(&self) -> Result<Vec<u8>, Refusal> {
        let mut out = vec![0xEE; 300_000];
        let length = save(&self.buffer, &self.directory, &mut out)?;
        assert!(out[length..].iter().all(|&byte| byte == 0xEE));
        out.truncate(length);
        Ok(out)
    }

    /// What is not the owner's: the other's numbers and half, and the odd byte.
    fn beside(&self, owner: usize) -> (Vec<(u32, u32)>, Vec<u8>) {
        let mut bytes = self.buffer.clone();
        bytes.drain(own_half(self.buffer.len(), owner));
        (own_slots(1 - owner).map(|slot| self.place(slot)).collect(), bytes)
    }

    /// What put, fetch and drop of an owner refuse together.
    fn own_judged(&self, owner: usize) -> Result<(), Refusal> {
        let sound = is_sound(&self.buffer, &self.directory, owner);
        let slot = |n: usize| (own_slots(owner).start + n) as u32;
        assert_eq!(!sound, self.clone().put(slot(7), &NONE) == Err(42));
        assert_eq!(!sound, self.fetch(slot(20)) == Err(42));
        assert_eq!(!sound, self.clone().drop(slot(31)) == Err(42));
        if sound {
            Ok(())
        } else {
            Err(42)
        }
    }

    /// What both owners' calls refuse; save refuses if either does.
    fn judged(&self) -> [Result<(), Refusal>; 2] {
        let judged = [0, 1].map(|owner| self.own_judged(owner));
        assert_eq!(judged.iter().any(Result::is_err), self.save() == Err(42));
        judged
    }

    /// Whether the owner's half is bad and the other's is not.
    fn is_bad_alone(&self, owner: usize) -> bool {
        let judged = self.judged();
        judged[owner] == Err(42) && judged[1 - owner] == Ok(())
    }
}

#[test]
fn put_fetch_and_drop() {
    for base in [0, 32] {
        let mut store = Store::empty(44);
        assert_eq!(store.fetch(base + 5), Err(41));
        assert_eq!(store.put(base + 5, &ZERO), Ok(()));
        assert_eq!(store.put(base + 31, &ZONE), Ok(()));
        assert_eq!(store.fetch(base + 5).unwrap(), ZERO);
        assert_eq!(store.fetch(base + 31).unwrap(), ZONE);
        assert_eq!(store.put(base, &NONE), Err(13));
        assert_eq!(store.drop(base + 5), Ok(()));
        assert_eq!(store.drop(base + 5), Err(41));
        assert_eq!(store.fetch(base + 5), Err(41));
        assert_eq!(store.put(base, &NONE), Ok(()));
        assert_eq!(store.put(base + 31, &ZONE), Ok(()));
        assert_eq!(store.filled().len(), 2);
        assert_eq!(store.entries().unwrap().iter().filter(|entry| !entry.is_empty()).count(), 2);
    }
}

/// Each owner has its own room: half of the length, rounded down.
#[test]
fn buffers_of_chosen_lengths() {
    let fits = [(0, 0), (1, 0), (11, 0), (12, 1), (13, 1), (21, 1), (23, 1), (24, 2), (25, 2)];
    for (length, fit) in fits {
        let mut store = Store::empty(length);
        for slots in [[0, 31, 1], [63, 32, 33]] {
            let puts = slots.map(|slot| store.put(slot, &NONE));
            assert_eq!(puts.iter().filter(|put| put.is_ok()).count(), fit, "{length}");
            assert!(puts.iter().all(|put| matches!(put, Ok(()) | Err(13))));
        }
        assert_eq!(store.filled().len(), 2 * fit);
        assert_eq!(store.save().unwrap().len(), 64 + 12 * fit);
        assert_eq!(store.load(&[0; 64]), Ok(()));
        assert_eq!(store.filled(), []);
    }
}

#[test]
fn lengths_0_and_1() {
    for length in [0, 1] {
        let mut store = Store::empty(length);
        for slot in [0, 31, 32, 63] {
            assert_eq!(store.put(slot, &NONE), Err(13));
            assert_eq!(store.fetch(slot), Err(41));
            assert_eq!(store.drop(slot), Err(41));
        }
        assert_eq!(store.save().unwrap(), [0; 64]);
        assert_eq!(store.load(&[0; 64]), Ok(()));
        assert_eq!(store.load(&saved_of(&[(32, &NONE)])), Err(42));
        assert_eq!(store.buffer, vec![0xEE; length]);
    }
}

#[test]
fn lengths_12_and_13() {
    for length in [12, 13] {
        let mut store = Store::empty(length);
        assert_eq!(store.put(63, &NONE), Ok(()));
        assert_eq!(store.buffer[..6], [0xEE; 6]);
        assert_eq!(store.buffer[6..12], NONE);
        assert_eq!(store.place(63), (0, 6));
        // The other half is empty, and serves nobody else.
        assert_eq!(store.put(32, &NONE), Err(13));
        assert_eq!(store.put(63, &ZERO), Err(13));
        assert_eq!(store.put(31, &NONE), Ok(()));
        assert_eq!(store.place(31), (0, 6));
        assert_eq!(store.put(0, &NONE), Err(13));
        assert_eq!(store.buffer[..12], [NONE, NONE].concat());
        assert_eq!(store.buffer[12..], vec![0xEE; length - 12]);
    }
}

#[test]
fn length_21() {
    let mut store = Store::empty(21);
    for slot in [7, 40] {
        assert_eq!(store.put(slot, &ZONE), Err(13));
        assert_eq!(store.put(slot, &ZERO), Ok(()));
        assert_eq!(store.put(slot + 1, &NONE), Err(13));
        assert_eq!(store.place(slot as usize), (0, 10));
    }
    assert_eq!(store.buffer, [&ZERO[..], &ZERO, &[0xEE]].concat());
    assert_eq!(store.drop(7), Ok(()));
    assert_eq!(store.put(8, &NONE), Ok(()));
    assert_eq!(store.put(41, &NONE), Err(13));
    assert_eq!(store.fetch(40).unwrap(), ZERO);
}

#[test]
fn the_form_is_stored() {
    for bitmap in NOT_FORMS {
        let members = Bitmap::judge(bitmap).unwrap().members();
        let one_form = form(&members);
        let length = one_form.len();
        assert!(one_form != bitmap && length <= bitmap.len());
        for slot in [3, 35] {
            let mut store = Store::empty(2 * length);
            assert_eq!(store.put(slot, bitmap), Ok(()), "{bitmap:?}");
            assert_eq!(store.fetch(slot).unwrap(), one_form);
            assert_eq!(Store::empty(2 * length - 1).put(slot, bitmap), Err(13));
        }
    }
    let twelve = bytes("01 01 00 00 02 00 10 01 00 00 80 00");
    let mut store = Store::empty(20);
    assert_eq!(store.put(0, &twelve), Ok(()));
    assert_eq!(store.fetch(0).unwrap(), ZERO);
}

#[test]
fn large_by_small_and_back_in_a_full_half() {
    let large = form(&[2_097_151]);
    for base in [0, 32] {
        let mut store = Store::empty(2 * (large.len() + 22) + 1);
        for (slot, bitmap) in [(1, &ZERO[..]), (9, &large), (20, &ZONE)] {
            assert_eq!(store.put(base + slot, bitmap), Ok(()));
        }
        assert_eq!(store.put(base + 1, &ZONE), Err(13));
        assert_eq!(store.put(base + 9, &ZERO), Ok(()));
        assert_eq!(store.put(base + 2, &form(&[1_000_000])), Ok(()));
        assert_eq!(store.put(base + 9, &large), Err(13));
        assert_eq!(store.drop(base + 2), Ok(()));
        assert_eq!(store.put(base + 9, &large), Ok(()));
        let held = [1, 9, 20].map(|slot| store.fetch(base + slot).unwrap());
        assert_eq!(held, [ZERO.to_vec(), large.clone(), ZONE.to_vec()]);
    }
}

#[test]
fn falling_places_with_gaps() {
    for owner in [0, 1] {
        let mut entries: Entries = vec![Vec::new(); 64];
        for slot in own_slots(owner) {
            entries[slot] = form(&[slot as u32 * 300]);
        }
        let put = own_slots(owner).start + 17;
        let large = form(&(0..40).map(|i| i * 5).collect::<Vec<_>>());
        let half = own_total(&entries, owner) - entries[put].len() + large.len();
        let mut store = Store::empty(2 * half + 1);
        let gap = (half - own_total(&entries, owner)) / 32;
        let mut start = half;
        for slot in own_slots(owner) {
            start -= entries[slot].len() + gap;
            store.write(slot, start, &entries[slot]);
        }
        assert_eq!(store.put(put as u32, &large), Ok(()));
        entries[put] = large;
        assert_eq!(store.entries().unwrap(), entries);
        assert_eq!(store.put(put as u32 + 1, &form(&[2_097_151])), Err(13));
    }
}

/// Slot counted among the owner's, start and length, one after the other in the store below.
const WRONG_PLACES: [(usize, u32, u32); 21] = [
    (5, 13, 11),
    (5, 13, 13),
    (5, 12, 12),
    (9, 13, 12),
    (0, 3, 10),
    (31, 13, 12),
    (8, 3, 10),
    (1, 30, 1),
    (1, 0, 3),
    (1, 3, 5),
    (1, 30, 6),
    (5, 43, 12),
    (9, 33, 10),
    (1, 24, 6),
    (1, u32::MAX, 1),
    (1, u32::MAX - 5, 6),
    (1, u32::MAX - 2, 13),
    (1, 3, u32::MAX - 2),
    (1, 3, u32::MAX),
    (9, u32::MAX, u32::MAX),
    (9, u32::MAX - 26, 10),
];

/// Bad stores by hand: the forms of {0} and {0, 34, 255} lie at 3 and at 13 of both halves.
#[test]
fn bad_stores() {
    let mut sound = Store::empty(61);
    for owner in [0, 1] {
        let base = own_slots(owner).start;
        sound.write(base + 9, 3, &ZERO);
        sound.write(base + 5, 13, &ZONE);
        sound.set(base + 11, u32::MAX, 0);
    }
    assert_eq!(sound.judged(), [Ok(()), Ok(())]);
    for owner in [0, 1] {
        for (slot, start, length) in WRONG_PLACES {
            let mut bad = sound.clone();
            bad.set(own_slots(owner).start + slot, start, length);
            assert!(bad.is_bad_alone(owner), "{owner} {slot} {start} {length}");
        }
        let mut bad = sound.clone();
        bad.own_bytes_mut(owner)[4] = 2;
        assert!(bad.is_bad_alone(owner));
    }
    for numbers in [0, 1, 64, 126, 127, 129, 256] {
        let mut bad = sound.clone();
        bad.directory.resize(numbers, 0);
        assert_eq!(bad.load(&[0; 64]), Err(42), "{numbers}");
        assert_eq!(bad.save(), Err(42));
        for owner in [0, 1] {
            assert_eq!(bad.own_judged(owner as usize), Err(42));
            assert_eq!(bad.put_as(owner, 64, &[]), Err(40));
            assert_eq!(bad.put_as(1 - owner, 32 * owner, &[]), Err(44));
        }
    }
}

/// Owner 0's form ends past the middle: its calls and save are refused, owner 1's are not.
#[test]
fn over_the_middle() {
    for past in 1..=9 {
        let mut store = Store::empty(40);
        store.write(32, 9, &NONE);
        store.buffer[10 + past..20 + past].copy_from_slice(&ZERO);
        store.set(8, 10 + past as u32, 10);
        assert!(store.is_bad_alone(0), "{past}");
        assert_eq!([store.drop(8), store.put(8, &NONE)], [Err(42), Err(42)]);
        assert_eq!(store.fetch(8), Err(42));
        assert_eq!(store.fetch(32).unwrap(), NONE);
        assert_eq!(store.put(33, &ZERO), Ok(()));
        assert_eq!(store.drop(32), Ok(()));
        assert_eq!(store.save(), Err(42));
        store.set(8, 10, 10);
        store.own_bytes_mut(0)[10..].copy_from_slice(&ZERO);
        assert_eq!(store.judged(), [Ok(()), Ok(())]);
    }
}

/// Owner 1's form ends with the odd byte.
#[test]
fn into_the_odd_byte() {
    let mut store = Store::empty(41);
    store.write(0, 14, &NONE);
    store.buffer[31..].copy_from_slice(&ZERO);
    store.set(63, 11, 10);
    assert!(store.is_bad_alone(1));
    assert_eq!(store.put(1, &ZERO), Ok(()));
    store.buffer.push(0);
    assert_eq!(store.half(), 21);
    store.set(63, 10, 10);
    assert_eq!(store.judged(), [Ok(()), Ok(())]);
    assert_eq!(store.fetch(63).unwrap(), ZERO);
}

/// A start counts from the first byte of its owner's half.
#[test]
fn places_in_the_other_half() {
    let mut store = Store::empty(40);
    store.buffer[25..35].copy_from_slice(&ZERO);
    store.buffer[2..14].copy_from_slice(&ZONE);
    store.set(32, 5, 10);
    store.set(0, 2, 12);
    assert_eq!(store.judged(), [Ok(()), Ok(())]);
    assert_eq!([store.fetch(32).unwrap(), store.fetch(0).unwrap()], [ZERO.to_vec(), ZONE.to_vec()]);
    for (slot, start, length) in [(32, 25, 10), (33, 2u32.wrapping_sub(20), 12), (1, 25, 10)] {
        let mut bad = store.clone();
        bad.set(slot, start, length);
        assert!(bad.is_bad_alone(owner_of(slot)), "{slot} {start}");
    }
}

/// Forms of one owner that share bytes are bad; those of two owners have the same numbers in two halves.
#[test]
fn forms_that_share_bytes() {
    for inner in [&NONE[..], &ZERO, &ZONE] {
        for at in 4..=31 {
            let (bytes, start) = spoil::overlapping(inner, at);
            assert!(is_form(&bytes[..41]) && is_form(&bytes[start..start + inner.len()]));
            for slots in [[0, 1], [1, 0], [3, 30], [31, 0], [32, 63], [60, 59]] {
                let mut store = Store::empty(3);
                spoil::overlap(&mut store, slots, inner, at);
                assert!(store.is_bad_alone(owner_of(slots[0])), "{at} {slots:?}");
                for slot in slots {
                    let mut alone = store.clone();
                    alone.set(slot, 0, 0);
                    assert_eq!(alone.judged(), [Ok(()), Ok(())]);
                }
            }
            for slots in [[0, 32], [31, 32], [32, 31], [63, 0]] {
                let mut store = Store::empty(3);
                spoil::overlap(&mut store, slots, inner, at);
                assert_eq!(store.judged(), [Ok(()), Ok(())], "{at} {slots:?}");
                assert_eq!(store.fetch(slots[1] as u32).unwrap(), inner);
            }
        }
    }
}

#[test]
fn accepted_is_not_enough() {
    for bitmap in NOT_FORMS {
        assert!(Bitmap::judge(bitmap).is_ok() && !is_form(bitmap));
        for slot in [17, 50] {
            let mut store = Store::empty(4);
            store.append(slot, bitmap);
            assert!(store.is_bad_alone(owner_of(slot)), "{bitmap:?}");
        }
    }
}

/// An owner has its own slots alone; an owner over 1 has none.
#[test]
fn slots_of_owners() {
    let mut store = Store::empty(100);
    store.put(5, &ZERO).unwrap();
    store.put(40, &ZONE).unwrap();
    for slot in 0..64 {
        let owners = OTHER_OWNERS.iter().copied().chain([1 - slot / 32]);
        for owner in owners {
            assert_eq!(store.put_as(owner, slot, &NONE), Err(44), "{owner} {slot}");
            assert_eq!(store.fetch_as(owner, slot), Err(44));
            assert_eq!(store.drop_as(owner, slot), Err(44));
        }
        assert!(matches!(store.fetch(slot), Ok(_) | Err(41)));
    }
    for owner in [0, 1, 2, u32::MAX] {
        for slot in [64, 65, 96, 256, u32::MAX] {
            assert_eq!(store.put_as(owner, slot, &NONE), Err(40));
            assert_eq!(store.fetch_as(owner, slot), Err(40));
            assert_eq!(store.drop_as(owner, slot), Err(40));
        }
    }
    for owner in [2, u32::MAX] {
        assert_eq!([store.drop_as(owner, 5), store.drop_as(owner, 64)], [Err(44), Err(40)]);
    }
    assert_eq!([store.fetch(5).unwrap(), store.fetch(40).unwrap()], [ZERO.to_vec(), ZONE.to_vec()]);
}

/// What is due at once: the slot is absent, it is not the caller's, the own half is bad, the mask is refused
/// or the slot empty, there is no room; and the other half is bad.
#[derive(Clone, Copy)]
struct Due {
    absent: bool,
    strange: bool,
    bad: bool,
    third: bool,
    room: bool,
    other_bad: bool,
}

impl Due {
    fn all() -> impl Iterator<Item = Due> {
        (0..64).map(|n| {
            let [absent, strange, bad, third, room, other_bad] =
                [0, 1, 2, 3, 4, 5].map(|bit| n >> bit & 1 == 1);
            Due { absent, strange, bad, third, room, other_bad }
        })
    }

    /// Both halves hold {0} and the empty set, and have room for one more or none.
    fn store(self, owner: usize) -> Store {
        let mut store = Store::empty(if self.room { 32 } else { 60 });
        for (each, bad) in [(owner, self.bad), (1 - owner, self.other_bad)] {
            let base = own_slots(each).start;
            store.write(base, 0, &ZERO);
            store.write(base + 3, 10, &NONE);
            store.own_bytes_mut(each)[1] ^= u8::from(bad);
        }
        store
    }

    fn callers(self, owner: usize) -> Vec<u32> {
        if self.strange {
            vec![1 - owner as u32, 2, u32::MAX]
        } else {
            vec![owner as u32]
        }
    }

    /// The owner's slot of this number among its own, or an absent one.
    fn slot(self, owner: usize, number: usize) -> u32 {
        if self.absent {
            64
        } else {
            (own_slots(owner).start + number) as u32
        }
    }

    /// The first refusal that is due: 40, 44, 42, the third, 13; 0 for none.
    fn first(self, third: Refusal, room: bool) -> Refusal {
        match self {
            Due { absent: true, .. } => 40,
            Due { strange: true, .. } => 44,
            Due { bad: true, .. } => 42,
            Due { third: true, .. } => third,
            _ if room => 13,
            _ => 0,
        }
    }
}

fn refusal<T>(outcome: Result<T, Refusal>) -> Refusal {
    outcome.err().unwrap_or(0)
}

/// Every two refusals of put at once, and all the others with them.
#[test]
fn the_order_of_put() {
    for (due, owner) in Due::all().flat_map(|due| [(due, 0), (due, 1)]) {
        let store = due.store(owner);
        for caller in due.callers(owner) {
            for (number, refused) in (1..).zip(edges::REFUSED) {
                let bitmap = if due.third { refused } else { &NONE };
                let put = store.clone().put_as(caller, due.slot(owner, 1), bitmap);
                assert_eq!(refusal(put), due.first(number, due.room));
            }
        }
    }
}

/// The same of fetch and drop, whose third is 41, and of save.
#[test]
fn the_order_of_fetch_drop_and_save() {
    for (due, owner) in Due::all().flat_map(|due| [(due, 0), (due, 1)]) {
        let mut store = due.store(owner);
        let Store { buffer, directory } = &store;
        let mut out = vec![0; if due.room { 95 } else { 96 }];
        let saved = save(buffer, directory, &mut out);
        let bad = Due {
            absent: false,
            strange: false,
            third: false,
            bad: due.bad || due.other_bad,
            ..due
        };
        assert_eq!(refusal(saved), bad.first(0, due.room));
        let slot = due.slot(owner, if due.third { 1 } else { 3 });
        for caller in due.callers(owner) {
            let mut out = vec![0; if due.room { 5 } else { 6 }];
            let fetched = fetch(&store.buffer, &store.directory, caller, slot, &mut out);
            assert_eq!(refusal(fetched), due.first(41, due.room));
            assert_eq!(refusal(store.drop_as(caller, slot)), due.first(41, false));
        }
    }
}

/// Saved bytes of these entries.
fn saved_of(held: &[(usize, &[u8])]) -> Vec<u8> {
    let mut entries = vec![Vec::new(); 64];
    for (slot, form) in held {
        entries[*slot] = form.to_vec();
    }
    saved(&entries)
}

#[test]
fn saved_by_hand() {
    let mut store = Store::empty(500);
    assert_eq!(store.save().unwrap(), [0; 64]);
    store.put(63, &ZERO).unwrap();
    store.put(1, &NONE).unwrap();
    let dense = form(&(0..900).map(|i| i * 2).collect::<Vec<_>>());
    assert_eq!(dense.len(), 242);
    store.put(0, &dense).unwrap();
    let expected = [&[0xF2, 1][..], &dense, &[6], &NONE, &[0; 61], &[10], &ZERO].concat();
    assert_eq!(store.save().unwrap(), expected);
    let mut other = Store::empty(2 * 248);
    other.set(0, 7, u32::MAX);
    other.set(40, 7, 3);
    assert_eq!(other.load(&expected), Ok(()));
    assert_eq!(other.entries(), store.entries());
    other.buffer.pop();
    assert_eq!(other.load(&expected), Err(42));
}

/// Forms of 10 bytes need halves of 10, whatever the other half has to spare.
#[test]
fn loads_into_halves() {
    for held in [vec![0], vec![31], vec![32], vec![63], vec![0, 63], vec![31, 32]] {
        let entries: Vec<(usize, &[u8])> = held.iter().map(|&slot| (slot, &ZERO[..])).collect();
        let saved = saved_of(&entries);
        for (length, outcome) in [(18, Err(42)), (19, Err(42)), (20, Ok(())), (21, Ok(()))] {
            let mut store = Store::empty(length);
            store.set(1, 3, u32::MAX);
            store.set(62, 3, 6);
            assert_eq!(store.load(&saved), outcome, "{held:?} {length}");
            if outcome.is_ok() {
                assert!(held.iter().all(|&slot| store.fetch(slot as u32).unwrap() == ZERO));
                assert!(held.iter().all(|&slot| store.place(slot) == (0, 10)));
                assert_eq!(store.filled(), held);
                assert_eq!(store.buffer[20..], vec![0xEE; length - 20]);
            }
        }
    }
    // Two of one owner do not fit where one of each does.
    for (slots, outcome) in [([0, 1], Err(42)), ([40, 41], Err(42)), ([0, 40], Ok(()))] {
        let saved = saved_of(&[(slots[0], &ZERO), (slots[1], &NONE)]);
        assert_eq!(Store::empty(20).load(&saved), outcome);
        assert_eq!(Store::empty(31).load(&saved), outcome);
        assert_eq!(Store::empty(32).load(&saved), Ok(()));
    }
}

#[test]
fn loads_that_are_refused() {
    let mut store = Store::empty(24);
    let entry = |bytes: &[u8]| [bytes, &[0; 63]].concat();
    let with_form = |length: &[u8], form: &[u8]| entry(&[length, form].concat());
    assert_eq!(store.load(&[0; 64]), Ok(()));
    assert_eq!(Store::empty(0).load(&[0; 64]), Ok(()));
    assert_eq!(Store::empty(0).load(&with_form(&[6], &NONE)), Err(42));
    assert_eq!(store.load(&with_form(&[6], &NONE)), Ok(()));
    assert_eq!(store.load(&with_form(&[12], &ZONE)), Ok(()));
    let bad = [
        vec![],
        vec![0; 63],
        vec![0; 65],
        entry(&[0x80, 0]),
        entry(&[0x80, 0x80, 0]),
        entry(&[0x80, 0x80, 0x80, 0x80, 0]),
        entry(&[0x80, 0x80, 0x80, 0x80, 0x10]),
        [vec![0; 63], vec![0x80, 0]].concat(),
        [vec![0; 63], vec![0x80]].concat(),
        [vec![0; 63], vec![6], NONE[..5].to_vec()].concat(),
        with_form(&[0x86, 0], &NONE),
        with_form(&[0x8A, 0x80, 0], &ZERO),
        with_form(&[7], &[&NONE[..], &[0]].concat()),
        with_form(&[5], &NONE[..5]),
        with_form(&[1], &[1]),
        with_form(&[11], NOT_FORMS[0]),
        with_form(&[0xFF, 0xFF, 0xFF, 0xFF, 0x0F], &NONE),
        [vec![0; 61], vec![6], NONE.to_vec(), vec![6], NONE.to_vec(), vec![6], NONE.to_vec()]
            .concat(),
    ];
    for saved in bad {
        assert_eq!(store.load(&saved), Err(42), "{saved:?}");
        assert_eq!(store.fetch(0).unwrap(), ZONE);
    }
}

/// Random calls against plain lists of bytes.
#[test]
fn as_plain_lists() {
    let mut random = Random::new(11);
    let mut put = [0; 2];
    for _ in 0..300 {
        let half = random.pick(&[0, 6, 12, 30, 60, 200, 1000]);
        let mut store = Store::empty(2 * half + random.below(2));
        let mut held: Entries = vec![Vec::new(); 64];
        for _ in 0..60 {
            let slot = random.pick(&[0, 1, 2, 31, 32, 33, 62, 63]);
            let owner = owner_of(slot);
            let set: Vec<u32> = (0..random.below(40)).map(|i| 9 * i as u32).collect();
            let entry = if random.once_in(4) { Vec::new() } else { form(&set) };
            let before = std::mem::replace(&mut held[slot], entry.clone());
            let caller = if random.once_in(9) { 1 - owner } else { owner } as u32;
            let expected = match (entry.is_empty(), before.is_empty()) {
                _ if caller as usize != owner => Err(44),
                (true, true) => Err(41),
                (false, _) if own_total(&held, owner) > half => Err(13),
                _ => Ok(()),
            };
            let outcome = match entry.is_empty() {
                true => store.drop_as(caller, slot as u32),
                false => store.put_as(caller, slot as u32, &entry),
            };
            assert_eq!(outcome, expected);
            put[usize::from(outcome.is_ok())] += usize::from(!entry.is_empty());
            if expected.is_err() {
                held[slot] = before;
            }
            assert_eq!(store.entries().unwrap(), held);
        }
        assert_eq!(store.save().unwrap(), saved(&held));
        let mut other = Store::empty(2 * needed(&held));
        assert_eq!(other.load(&saved(&held)), Ok(()));
        assert_eq!(other.entries().unwrap(), held);
    }
    assert!(put[0] > 2000 && put[1] > 4000, "{put:?}");
}

/// Each way to spoil a store or a saved store is mostly refused, but the one that is sound; mostly for one
/// owner alone.
#[test]
fn spoiled_stores_are_refused() {
    let mut random = Random::new(12);
    let mut spoiled = |spoil, owner| {
        let kind = Kind { scale: Scale::Small, slots: 10 };
        let store = kind.store(&mut random);
        assert_eq!(store.judged(), [Ok(()), Ok(())]);
        spoil::spoil_by(&mut random, &store, owner, spoil)
    };
    for (name, spoil) in SPOILS {
        for owner in [0, 1] {
            let bad: Vec<Store> = (0..100).map(|_| spoiled(spoil, owner)).collect();
            let refused = bad.iter().filter(|bad| bad.judged()[owner].is_err()).count();
            let alone = bad.iter().filter(|bad| bad.is_bad_alone(owner)).count();
            match name {
                "empty with a wild start" => assert_eq!(refused, 0, "{name}"),
                "bit flipped" | "damaged" => assert!(alone == refused && refused > 50, "{name}"),
                "half cut" => assert!(refused == 100 && alone > 30, "{name}: {alone}"),
                _ => assert_eq!([refused, alone], [100, 100], "{name}"),
            }
        }
    }
    for (name, spoil) in SHARED_SPOILS {
        let bad: Vec<Store> = (0..200).map(|n| spoiled(spoil, n % 2)).collect();
        let refused = bad.iter().filter(|bad| bad.save() == Err(42)).count();
        let least = if name == "other length" { 60 } else { 200 };
        assert!(refused >= least, "{name}: {refused}");
    }
}

#[test]
fn spoiled_saved_stores_are_refused() {
    let mut random = Random::new(14);
    for (name, spoil) in SAVED_SPOILS {
        let refused = |random: &mut Random| {
            let kind = Kind { scale: Scale::Small, slots: 10 };
            let entries = kind.entries(random);
            let length = 2 * needed(&entries) + 4000;
            let mut store = lay(random, &vec![Vec::new(); 64], length);
            assert_eq!(store.load(&saved(&entries)), Ok(()));
            store.load(&spoil::saved_by(random, &entries, spoil)).is_err()
        };
        let refused = (0..200).filter(|_| refused(&mut random)).count();
        let least = if name == "cut or damaged" || name == "damaged" { 150 } else { 190 };
        assert!(refused >= least, "{name}: {refused}");
    }
}

/// Half of the buffers have an odd byte, and most bad stores are bad for one owner alone.
#[test]
fn shares_of_random_stores() {
    let mut random = Random::new(15);
    let (mut odd, mut bad, mut alone) = (0, [0; 2], [0; 2]);
    for _ in 0..1000 {
        let kind = Kind { scale: Scale::Tiny, slots: 4 };
        let store = kind.store(&mut random);
        odd += store.buffer.len() % 2;
        let spoiled = spoil::store(&mut random, &store);
        for owner in [0, 1] {
            bad[owner] += usize::from(spoiled.own_judged(owner).is_err());
            alone[owner] += usize::from(spoiled.is_bad_alone(owner));
        }
    }
    assert!((400..600).contains(&odd), "{odd}");
    assert!(bad.iter().chain(&alone).all(|&count| count > 250), "{bad:?} {alone:?}");
}

/// The self-test's cases reach all chosen ones.
#[test]
fn chosen_calls() {
    let count = (0..).map_while(edges::edge).count();
    assert!((200..2000).contains(&count), "{count} cases");
}

/// One case in a hundred has large masks: forms of up to some hundred thousand bytes.
#[test]
fn large_masks() {
    let mut random = Random::new(13);
    let mut longest = 0;
    for _ in 0..2000 {
        let kind = Kind::any(&mut random);
        if kind.scale == Scale::Large {
            let entries = kind.entries(&mut random);
            longest = longest.max(entries.iter().map(Vec::len).max().unwrap_or(0));
        }
    }
    assert!(longest > 200_000, "{longest}");
}
