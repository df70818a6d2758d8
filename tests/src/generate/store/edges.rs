//! Chosen stores and calls: every refusal with every later one, rooms at the very byte, places at the
//! ends of numbers and of halves, all pairs of slots in one place.

use super::spoil::{
    from_the_buffer, in_the_other_half, into_the_odd_byte, over_the_middle, overlap, NOT_FORMS,
    OTHER_NUMBERS,
};
use super::{
    form, lay, needed, own_slots, own_total, owner_of, saved, shorten, Call, Entries, Random,
    Store, OTHER_OWNERS, SLOTS,
};
use std::sync::OnceLock;

/// Calls one after the other. Where a store is named it is lent, else the one that the call before left.
pub type Case = Vec<(Option<Store>, Call)>;

pub fn edge(number: u64) -> Option<&'static Case> {
    static CASES: OnceLock<Vec<Case>> = OnceLock::new();
    let parts = [
        small_buffers,
        room,
        full,
        falling,
        wild,
        numbers,
        overlaps,
        middle,
        owners,
        orders,
        load_orders,
        load_halves,
        entries,
    ];
    CASES.get_or_init(|| parts.iter().flat_map(|part| part()).collect()).get(number as usize)
}

/// The owner of a slot; of a number over 63 either one.
fn own(slot: u32) -> u32 {
    slot / 32 % 2
}

fn put(slot: u32, bitmap: &[u8]) -> Call {
    Call::Put { owner: own(slot), slot, bitmap: bitmap.to_vec() }
}

fn fetch(slot: u32, room: usize) -> Call {
    Call::Fetch { owner: own(slot), slot, room }
}

fn drop(slot: u32) -> Call {
    Call::Drop { owner: own(slot), slot }
}

/// All five calls, the first three on this owner's slot, with room for all.
fn each_call(owner: u32, slot: u32) -> [Call; 5] {
    let saved = saved(&entries_of(&[(3, form(&[7]))]));
    [
        Call::Put { owner, slot, bitmap: form(&[0]) },
        Call::Fetch { owner, slot, room: 300 },
        Call::Drop { owner, slot },
        Call::Save { room: 6_000 },
        Call::Load { saved },
    ]
}

/// The calls, each on the same store.
fn on_each<'a>(
    store: &'a Store,
    calls: impl IntoIterator<Item = Call> + 'a,
) -> impl Iterator<Item = (Option<Store>, Call)> + 'a {
    calls.into_iter().map(|call| (Some(store.clone()), call))
}

fn entries_of(held: &[(usize, Vec<u8>)]) -> Entries {
    let mut entries = vec![Vec::new(); SLOTS];
    for (slot, form) in held {
        entries[*slot] = form.clone();
    }
    entries
}

/// Forms of 6 to 105 bytes for every slot.
fn all_slots() -> Entries {
    let set = |slot: u32| match slot % 5 {
        0 => Vec::new(),
        1 => vec![slot],
        2 => (slot..slot + 32).collect(),
        3 => vec![0, 256 * slot],
        _ if slot == 19 || slot == 44 => vec![2_097_151 - slot],
        _ => vec![20_000 + 900 * slot],
    };
    (0..SLOTS as u32).map(|slot| form(&set(slot))).collect()
}

/// A store without gaps, in the order of the slots. The buffer has so many bytes more than two halves that
/// take the entries.
fn dense(entries: &[Vec<u8>], more: usize) -> Store {
    let mut store = Store::empty(2 * needed(entries) + more);
    let mut ends = [0; 2];
    for (slot, entry) in entries.iter().enumerate().filter(|(_, entry)| !entry.is_empty()) {
        let end = &mut ends[owner_of(slot)];
        store.write(slot, *end, entry);
        *end += entry.len();
    }
    store
}

/// Halves that take no, one, two or three forms of the empty set, and bytes that serve none.
fn small_buffers() -> Vec<Case> {
    let case = |length: usize| {
        let mut case: Case = vec![(Some(Store::empty(length)), put(0, &form(&[])))];
        for slot in [63, 0, 5, 32, 63, 31] {
            case.push((None, put(slot, &form(&[]))));
            case.push((None, fetch(slot, 6)));
            case.push((None, fetch(slot, 5)));
            case.extend([64, 70, 75, 76, 82].map(|room| (None, Call::Save { room })));
        }
        for slot in [0, 0, 5, 32, 63] {
            case.push((None, drop(slot)));
            case.push((None, put(7, &form(&[]))));
            case.push((None, put(39, &form(&[]))));
        }
        case
    };
    (0..=41).map(case).collect()
}

/// Bitmaps that have longer or equally long forms, into halves around both lengths.
fn room() -> Vec<Case> {
    let bitmaps = NOT_FORMS.iter().map(|bytes| bytes.to_vec()).chain([form(&[0]), form(&[0, 34])]);
    let case = |bitmap: Vec<u8>| {
        let mut case = Case::new();
        let halves = (0..=13).chain(bitmap.len().saturating_sub(3)..=bitmap.len() + 1);
        for (n, half) in halves.enumerate() {
            let more = 2 * half + n % 2;
            for slot in [9, 40] {
                let held = entries_of(&[(slot as usize, form(&[]))]);
                let next = slot + 1;
                case.push((Some(Store::empty(more)), put(slot, &bitmap)));
                case.push((Some(dense(&held, more)), put(slot, &bitmap)));
                case.push((Some(dense(&held, more)), put(next, &bitmap)));
                case.push((None, fetch(next, half)));
                case.push((None, fetch(slot, 300)));
            }
        }
        case
    };
    bitmaps.map(case).collect()
}

/// Full halves: large forms replaced by small ones and back, at the very byte and at one less.
fn full() -> Vec<Case> {
    let sizes = [form(&[]), form(&(0..32).collect::<Vec<_>>()), form(&[2_097_151])];
    let mut cases = Vec::new();
    for more in 0..5 {
        for (first, second) in [(0, 1), (1, 0), (0, 2), (2, 0), (1, 2), (2, 1)] {
            let held: Vec<(usize, Vec<u8>)> = [0, 32]
                .into_iter()
                .flat_map(|base| [(base, first), (base + 14, second), (base + 31, first)])
                .map(|(slot, size)| (slot, sizes[size].clone()))
                .collect();
            let mut case: Case =
                vec![(Some(dense(&entries_of(&held), more)), put(14, &sizes[first]))];
            for (slot, size) in [(0, second), (31, second), (14, second), (0, 0), (14, 2), (31, 1)]
            {
                case.push((None, put(slot, &sizes[size])));
                case.push((None, put(slot + 32, &sizes[size])));
                case.push((None, Call::Save { room: 1000 }));
            }
            cases.push(case);
        }
    }
    cases
}

/// All slots in falling places with gaps, and puts that need every byte of a half. Where it is too short for
/// the other owner's forms, the longest of them are left out.
fn falling() -> Vec<Case> {
    let large: Vec<u32> = (0..60).map(|i| i * 300).collect();
    let case = |slot: usize| {
        let new = form(&large);
        let owner = owner_of(slot);
        let mut entries = all_slots();
        let half = own_total(&entries, owner) - entries[slot].len() + new.len();
        shorten(&mut entries[own_slots(1 - owner)], half - 1);
        let mut case = Case::new();
        for length in [2 * half - 2, 2 * half - 1, 2 * half, 2 * half + 1] {
            let mut store = Store::empty(length);
            for owner in [0, 1] {
                let gap = (store.half() - own_total(&entries, owner)) / own_slots(owner).len();
                let mut start = store.half();
                for slot in own_slots(owner).filter(|&slot| !entries[slot].is_empty()) {
                    start -= gap + entries[slot].len();
                    store.write(slot, start, &entries[slot]);
                }
            }
            case.push((Some(store), put(slot as u32, &new)));
            case.push((None, Call::Save { room: 6_000 }));
            case.push((None, put(63 - slot as u32, &form(&[]))));
            case.push((None, drop(20)));
            case.push((None, drop(43)));
            case.push((None, put(slot as u32, &form(&[1]))));
        }
        case
    };
    [0, 1, 17, 31, 32, 46, 62, 63].map(case).into()
}

/// Starts and lengths at the ends of numbers, short lengths, and wild starts of empty slots; with all five
/// calls on the slot, on another one, and on one of the other owner.
fn wild() -> Vec<Case> {
    let entries = all_slots();
    let mut places: Vec<(u32, u32)> = (0..=6).map(|length| (0, length)).collect();
    let end = needed(&entries) as u32;
    for start in
        [u32::MAX, u32::MAX - 1, u32::MAX - 5, u32::MAX - 9, 1 << 31, end, end - 1, end - 5]
    {
        places.extend([0, 1, 2, 6, 10, 1 << 31, u32::MAX].map(|length| (start, length)));
        places.push((start, 0u32.wrapping_sub(start)));
        places.push((start, 6u32.wrapping_sub(start)));
        places.push((start, end.wrapping_sub(start)));
    }
    let case = |slot: usize| {
        let mut case = Case::new();
        for (n, &(start, length)) in places.iter().enumerate() {
            let mut store = dense(&entries, n % 2);
            store.set(slot, start, length);
            let asked = if n % 2 == 0 { slot } else { (slot + 1 + n) % SLOTS } as u32;
            case.extend(on_each(&store, each_call(own(asked), asked)));
            let other = (asked + 32) % 64;
            case.push((Some(store.clone()), [fetch(other, 300), drop(other)][n % 2].clone()));
        }
        case
    };
    [0, 1, 30, 31, 32, 63].map(case).into()
}

/// Directories of other numbers, with all five calls of each owner.
fn numbers() -> Vec<Case> {
    let case = |&numbers: &usize| {
        let mut store = dense(&entries_of(&[(0, form(&[])), (32, form(&[]))]), 40);
        store.directory.resize(numbers, 0);
        let mut case = Case::new();
        for (owner, slot) in [0, 31, 32, 63, 64].map(|slot| [(0, slot), (1, slot)]).concat() {
            case.extend(on_each(&store, each_call(owner, slot)));
        }
        case
    };
    OTHER_NUMBERS.iter().map(case).collect()
}

/// Each two slots in one place, one in the other, and sharing one byte; and touching, which is sound. Slots
/// of two owners have the same numbers, each in its own half, and are sound too.
fn overlaps() -> Vec<Case> {
    let case = |first: usize| {
        let mut case = Case::new();
        for second in (0..SLOTS).filter(|&second| second != first) {
            let asked = ((first + second) % SLOTS) as u32;
            let calls = each_call(own(asked), asked);
            let mut add = |store: &Store, n: usize| {
                case.push((Some(store.clone()), calls[n % 4].clone()));
            };
            let mut twice = dense(&entries_of(&[(first, form(&[0]))]), 20);
            let (start, length) = twice.place(first);
            twice.write(second, start as usize, &form(&[0]));
            assert_eq!(twice.place(second), (start, length));
            add(&twice, first + second);
            for (n, (inner, at)) in
                [(form(&[]), 26), (form(&[]), 8), (form(&[0, 34]), 31)].iter().enumerate()
            {
                let mut store = Store::empty(3);
                overlap(&mut store, [first, second], inner, *at);
                add(&store, n + second);
            }
            let touching = entries_of(&[(first, form(&[1])), (second, form(&[2]))]);
            add(&dense(&touching, 0), second);
        }
        case
    };
    (0..SLOTS).map(case).collect()
}

/// Whole forms that do not lie within their half: over the middle, into the odd byte, in the other half,
/// and with starts that count from the buffer. Each with calls of both owners.
fn middle() -> Vec<Case> {
    let held = [0, 9, 31, 32, 47, 63].map(|slot| (slot, form(&[slot as u32, 300])));
    let calls = |store: &Store| -> Case {
        let asked = [0, 9, 12, 31, 32, 47, 50, 63];
        let calls = asked.map(|slot| [put(slot, &form(&[])), fetch(slot, 300), drop(slot)]);
        let save = Call::Save { room: 300 };
        on_each(store, calls.concat().into_iter().chain([save])).collect()
    };
    let mut stores = Vec::new();
    for more in [0, 1, 24, 25] {
        let sound = dense(&entries_of(&held), more);
        for slot in [0, 9, 12, 31] {
            for past in [1, 5, 9] {
                let mut store = sound.clone();
                over_the_middle(&mut store, slot, &form(&[0]), past);
                stores.push(store);
            }
        }
        for slot in [32, 47, 50, 63] {
            let mut store = sound.clone();
            into_the_odd_byte(&mut store, slot, &form(&[]));
            stores.push(store);
        }
        for slot in [0, 31, 32, 63] {
            let mut store = sound.clone();
            in_the_other_half(&mut store, slot, &form(&[0]));
            stores.push(store);
        }
        let mut counted = sound.clone();
        from_the_buffer(&mut counted);
        let mut longer = sound.clone();
        longer.buffer.push(0);
        let mut shorter = sound.clone();
        shorter.buffer.pop();
        stores.extend([sound, counted, longer, shorter]);
    }
    stores.iter().map(calls).collect()
}

/// Every owner with slots of each, of none, and at the border between the two.
fn owners() -> Vec<Case> {
    let entries = all_slots();
    let mut empty = entries.clone();
    for slot in [0, 31, 32, 63] {
        empty[slot].clear();
    }
    let stores = [dense(&entries, 1000), dense(&empty, 1001)];
    let case = |owner: u32| {
        let mut case = Case::new();
        for slot in [0, 5, 30, 31, 32, 33, 62, 63, 64, 65, 95, 96, u32::MAX] {
            for store in &stores {
                let calls = each_call(owner, slot);
                case.extend(on_each(store, calls.into_iter().take(3)));
            }
        }
        case
    };
    [0, 1].into_iter().chain(OTHER_OWNERS).map(case).collect()
}

/// A bitmap for each refusal, 1 to 11.
pub const REFUSED: [&[u8]; 11] = [
    &[1, 0, 0, 0, 0],
    &[2, 0, 0, 0, 0, 0],
    &[1, 0, 0, 0, 1, 0x20],
    &[1, 1, 0, 0, 1, 0],
    &[1, 1, 0, 0, 1, 0, 9, 0, 1, 0],
    &[1, 1, 0, 0, 1, 0, 0, 1, 1, 5, 0],
    &[1, 1, 0, 0, 1, 0, 1, 0, 0, 0xC0, 0],
    &[1, 1, 0, 0, 1, 0, 0, 0, 64, 0],
    &[1, 1, 0, 0, 1, 0, 0, 0, 1],
    &[1, 2, 0, 0, 1, 0, 0, 0, 2, 5, 5],
    &[1, 2, 0, 0, 1, 0, 0, 0, 1, 0],
];

/// Put, fetch, drop and save of an owner where each of their refusals is due or not, in every combination,
/// and the other owner's half is bad or not.
fn orders() -> Vec<Case> {
    let cases = [0, 1].map(|owner| (0..64).flat_map(|n| order(owner, n)).collect());
    let slots = [62, 63, 64, 65, 127, 128, 191, 255, 256, 319, 65_536, 1 << 31, u32::MAX];
    let store = dense(&all_slots(), 500);
    let at_slots = slots.map(|slot| on_each(&store, each_call(own(slot), slot)).collect());
    [Vec::from(cases), at_slots.into()].concat()
}

/// One combination: the slot is absent, not the owner's, the own half is bad, the slot is empty or the mask
/// bad, there is no room, the other half is bad.
fn order(owner: usize, combination: u32) -> Case {
    let due = |bit: u32| combination >> bit & 1 == 1;
    let base = own_slots(owner).start;
    let held = |base: usize, empty: bool| {
        [(base, form(&[3])), (base + 5, if empty { Vec::new() } else { form(&[]) })]
    };
    let entries = entries_of(&[held(base, due(3)), held(32 - base, false)].concat());
    let mut store = dense(&entries, if due(4) { 3 } else { 600 });
    for (owner, bad) in [(owner, due(2)), (1 - owner, due(5))] {
        if bad {
            store.own_bytes_mut(owner)[1] = 2;
        }
    }
    let slot = if due(0) { 64 } else { base as u32 + 5 };
    let strangers = if due(1) { vec![1 - owner as u32, 2, u32::MAX] } else { vec![owner as u32] };
    let large = form(&(0..200).collect::<Vec<_>>());
    let mut calls = Vec::new();
    for owner in strangers {
        for bitmap in REFUSED {
            let bitmap = if due(3) { bitmap } else { &large };
            calls.push(Call::Put { owner, slot, bitmap: bitmap.to_vec() });
            calls.push(Call::Put { owner, slot: u32::MAX, bitmap: bitmap.to_vec() });
        }
        for room in if due(4) { [0, 5] } else { [6, 300] } {
            calls.push(Call::Fetch { owner, slot, room });
        }
        calls.push(Call::Drop { owner, slot });
    }
    calls.push(Call::Save { room: if due(4) { 60 } else { 300 } });
    on_each(&store, calls).collect()
}

/// Loads over sound and bad stores, with saved bytes that are good, bad, or do not fit.
fn load_orders() -> Vec<Case> {
    let held = entries_of(&[(0, form(&[3])), (63, form(&[2_097_151]))]);
    let good = saved(&all_slots());
    let short = good[..good.len() - 1].to_vec();
    let longer = [&good[..], &[0]].concat();
    let needed = needed(&all_slots());
    let mut case = Case::new();
    for bytes in [good, short, longer, vec![0; 63], vec![0; 64], vec![0; 65], Vec::new()] {
        for length in [0, 1, 10, 2 * needed - 1, 2 * needed, 2 * needed + 1, 2 * needed + 2] {
            let mut store = Store::empty(length);
            let call = Call::Load { saved: bytes.clone() };
            case.push((Some(store.clone()), call.clone()));
            store.set(1, 3, u32::MAX);
            store.set(63, 0, 6);
            case.push((Some(store.clone()), call.clone()));
            case.push((None, Call::Save { room: 6_000 }));
            if length > 210 {
                let random = &mut Random::new(length as u64);
                case.push((Some(lay(random, &held, length)), call.clone()));
                case.push((None, fetch(63, 105)));
            }
            store.directory.truncate(127);
            case.push((Some(store), call));
        }
    }
    vec![case]
}

/// Saved stores of one to three forms into halves around what they need, for either owner and for both.
fn load_halves() -> Vec<Case> {
    let forms = [form(&[]), form(&[0]), form(&[0, 34, 255])];
    let case = |slots: &[usize]| {
        let mut case = Case::new();
        for n in 0..forms.len() {
            let held: Vec<(usize, Vec<u8>)> =
                slots.iter().zip(n..).map(|(&slot, n)| (slot, forms[n % 3].clone())).collect();
            let entries = entries_of(&held);
            let call = Call::Load { saved: saved(&entries) };
            let needed = needed(&entries);
            for length in 2 * needed - 2..=2 * needed + 2 {
                let store = Store::empty(length);
                case.push((Some(store), call.clone()));
                for &slot in slots {
                    case.push((None, fetch(slot as u32, 12)));
                }
            }
        }
        case
    };
    let slots: [&[usize]; 10] = [
        &[0],
        &[31],
        &[32],
        &[63],
        &[0, 32],
        &[31, 32],
        &[5, 31],
        &[32, 60],
        &[0, 1, 63],
        &[31, 33, 63],
    ];
    slots.map(case).into()
}

/// Saved bytes: each entry padded to each length, and no form; cut at every byte.
fn entries() -> Vec<Case> {
    let entries = entries_of(&[(0, form(&[3])), (31, form(&[2_097_151])), (63, form(&[]))]);
    let store = dense(&all_slots(), 300);
    let load = |saved: Vec<u8>| (Some(store.clone()), Call::Load { saved });
    let padded = |slot: usize| {
        let number = saved(&entries[..slot]).len();
        let length = entries[slot].len() as u8;
        let mut case = Case::new();
        for bytes in 2..=5 {
            let mut padding = vec![0x80; bytes];
            padding[0] |= length;
            padding[bytes - 1] = 0;
            let mut bytes = saved(&entries);
            bytes.splice(number..number + 1, padding);
            case.push(load(bytes));
        }
        for entry in NOT_FORMS {
            let mut others = entries.clone();
            others[slot] = entry.to_vec();
            case.push(load(saved(&others)));
        }
        case
    };
    let mut cases: Vec<Case> = (0..SLOTS).map(padded).collect();
    let bytes = saved(&entries);
    cases.push((0..=bytes.len()).map(|cut| load(bytes[..cut].to_vec())).collect());
    cases
}
