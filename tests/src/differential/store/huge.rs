//! Stores in buffers over 4 GiB and over 8 GiB, of which only a few pages are touched. Without that much
//! address room there is nothing to compare.

use crate::differential::same;
use crate::ffi::store as library;
use crate::generate::store::{
    form, huge_buffer, own_half, own_slots, saved, Call, Store, HUGE, NUMBERS, SLOTS,
};
use crate::reference::store as reference;

/// The length of the buffer in a case of huge buffers.
pub fn length(case: u64) -> Option<usize> {
    HUGE.get(case.checked_sub(FIRST)? as usize).copied()
}

/// The number of the first case.
const FIRST: u64 = 40;

/// Forms at the front of both halves, and across 4 GiB: of the second half or of the whole buffer.
fn store(length: usize) -> Option<Store> {
    let mut store = Store { buffer: huge_buffer(length)?, directory: vec![0; NUMBERS] };
    let large = form(&(0..1000).map(|i| 3 * i).collect::<Vec<_>>());
    let half = store.half();
    for owner in [0, 1] {
        let slots = own_slots(owner);
        store.write(slots.start + 4, 0, &form(&[0]));
        store.write(slots.start, 5000, &large);
        let across = (1 << 32) - 6;
        let start = if half > across + 12 { across } else { across - half };
        store.write(slots.start + 3, start, &form(&[0, 34, 255]));
        store.write(slots.start + 31, (half - 10).min(across - 10), &form(&[1]));
    }
    Some(store)
}

pub fn run(length: usize) -> Result<(), String> {
    let (Some(mut first), Some(mut second)) = (store(length), store(length)) else {
        return Ok(());
    };
    let entries: Vec<Vec<u8>> = (0..SLOTS as u32).map(|slot| form(&[slot * 999])).collect();
    let put = |slot: u32, set: &[u32]| Call::Put { owner: slot / 32, slot, bitmap: form(set) };
    let calls = [
        Call::Fetch { owner: 0, slot: 3, room: 300 },
        Call::Fetch { owner: 1, slot: 35, room: 300 },
        Call::Fetch { owner: 1, slot: 63, room: 300 },
        put(5, &[]),
        put(37, &[]),
        put(36, &[7, 2_000_000]),
        put(4, &[7, 2_000_000]),
        put(3, &[256]),
        put(35, &[256]),
        Call::Load { saved: saved(&entries) },
        put(63, &[1, 2, 3]),
        put(0, &[1, 2, 3]),
    ];
    for call in &calls {
        compare(call, &mut first, &mut second)?;
    }
    let places = [(u32::MAX, 201), (u32::MAX, 202), (99, u32::MAX), (u32::MAX, u32::MAX), (0, 0)];
    for slot in [9, 41] {
        for (start, length) in places {
            for store in [&mut first, &mut second] {
                store.set(slot, start, length);
            }
            for asked in [8, 40] {
                compare(&put(asked, &[]), &mut first, &mut second)?;
            }
        }
    }
    Ok(())
}

fn compare(call: &Call, first: &mut Store, second: &mut Store) -> Result<(), String> {
    let length = first.buffer.len();
    let question = || format!("in a buffer of {length} bytes: {call:?}");
    let before = sights(first, call);
    let (code, expected) = match call {
        Call::Put { owner, slot, bitmap } => (
            library::put_in_place(first, *owner, *slot, bitmap),
            reference::put(&mut second.buffer, &mut second.directory, *owner, *slot, bitmap),
        ),
        Call::Load { saved } => (
            library::load_in_place(first, saved),
            reference::load(&mut second.buffer, &mut second.directory, saved),
        ),
        Call::Fetch { owner, slot, room } => {
            let (mut out, mut other) = (vec![0; *room], vec![0; *room]);
            let (code, length) = library::fetch_in_place(first, *owner, *slot, &mut out);
            let Store { buffer, directory } = &second;
            let expected = reference::fetch(buffer, directory, *owner, *slot, &mut other);
            same(question, Ok((length, out)), (expected.unwrap_or(0), other))?;
            (code, expected.map(|_| ()))
        }
        _ => return Ok(()),
    };
    same(question, Ok(code), expected.err().unwrap_or(0))?;
    same(question, Ok(sights(first, call)), before)?;
    for owner in (0..2).filter(|_| code == 0) {
        if second.own_entries(owner).is_ok() {
            same(question, first.own_entries(owner), second.own_entries(owner)?)?;
        }
    }
    Ok(())
}

/// What the call leaves as it is: the odd byte, and the other owner's numbers and bytes around chosen places
/// of its half.
fn sights(store: &Store, call: &Call) -> (Vec<u32>, Vec<u8>) {
    let odd = store.buffer[2 * store.half()..].to_vec();
    let Some(owner) = call.owner() else { return (Vec::new(), odd) };
    let other = 1 - owner;
    let half = own_half(store.buffer.len(), other);
    let numbers = own_slots(other).flat_map(|slot| [store.place(slot).0, store.place(slot).1]);
    let mut bytes = odd;
    for place in [half.start, half.start + 4000, 1 << 32, half.start + (1 << 32), half.end] {
        let near = place.saturating_sub(3000).max(half.start)..(place + 3000).min(half.end);
        if near.start < near.end {
            bytes.extend_from_slice(&store.buffer[near]);
        }
    }
    (numbers.collect(), bytes)
}
