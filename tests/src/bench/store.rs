//! Calls on a store of 64 masks, 32 of each owner, in a buffer without a spare byte.

use super::{earlier, form, measure, random_set, Line, Print};
use crate::generate::store::{own_slots, saved, total, Entries, Store, OWN_SLOTS, SLOTS};
use crate::generate::Random;
use crate::reference::store as reference;
use barcovento::{bitmap, raw, Store as Wrapped};
use std::hint::black_box;
use std::sync::OnceLock;

type Put = unsafe extern "C" fn(*mut u8, usize, *mut u32, usize, u32, u32, *const u8, usize) -> u32;
type Fetch = unsafe extern "C" fn(
    *const u8,
    usize,
    *const u32,
    usize,
    u32,
    u32,
    *mut u8,
    usize,
    *mut usize,
) -> u32;
type Drop = unsafe extern "C" fn(*const u8, usize, *mut u32, usize, u32, u32) -> u32;
type Save =
    unsafe extern "C" fn(*const u8, usize, *const u32, usize, *mut u8, usize, *mut usize) -> u32;
type Load = unsafe extern "C" fn(*mut u8, usize, *mut u32, usize, *const u8, usize) -> u32;

/// The slot that is put, fetched and dropped, and its owner.
const SLOT: usize = 47;
const OWNER: u32 = 1;

pub fn run(print: Print) {
    let mut random = Random::new(6);
    for (name, chance) in [("0.05 %", 0.0005), ("5 %", 0.05), ("20 %", 0.2), ("50 %", 0.5)] {
        let sets = [(); 8].map(|()| random_set(&mut random, 8192, chance));
        let masks = sets.each_ref().map(|set| form(set));
        let entries: Entries = (0..SLOTS).map(|slot| masks[slot % masks.len()].clone()).collect();
        let bench = Bench { name, moved: form(&moved(&sets[SLOT % sets.len()])), entries };
        let lines =
            [put_line, replace_line, swap_line, fetch_line, drop_line, save_line, load_line];
        for line in lines {
            print(line(&bench));
        }
        print(judge_line(&bench));
    }
}

/// The call of an earlier library, unless its stores have no halves.
fn halved<C: Copy>(call: Option<C>) -> Option<C> {
    static HALVES: OnceLock<bool> = OnceLock::new();
    call.filter(|_| *HALVES.get_or_init(earlier_has_halves))
}

/// Whether the earlier library saves a store of two forms, each at the start of its half.
fn earlier_has_halves() -> bool {
    let Some(save) = earlier::call::<Save>("bv_store_save") else { return false };
    let (mut store, mut out) = (Store::empty(12), [0; 76]);
    store.write(0, 0, &form(&[]));
    store.write(32, 0, &form(&[]));
    let Store { buffer, directory } = &store;
    let (from, numbers) = (directory.as_ptr(), directory.len());
    let (to, room, mut length) = (out.as_mut_ptr(), out.len(), 0);
    unsafe { save(buffer.as_ptr(), buffer.len(), from, numbers, to, room, &mut length) == 0 }
}

/// The set with one member at the next place of its container: a form of the same length.
fn moved(set: &[u32]) -> Vec<u32> {
    let mut set = set.to_vec();
    let free = |pair: &[u32]| pair[0] + 1 < pair[1] && pair[0] % 256 < 255;
    let at = set.windows(2).position(free).expect("a gap");
    set[at] += 1;
    set
}

/// The masks of one density.
struct Bench {
    name: &'static str,
    entries: Entries,
    /// A mask for the slot, of the same length.
    moved: Vec<u8>,
}

impl Bench {
    fn input(&self) -> String {
        format!("64 masks, {}, {} bytes", self.name, total(&self.entries))
    }

    /// The full store, in the order of the slots: both owners' forms are equally long together.
    fn store(&self) -> Store {
        let mut store = Store::empty(total(&self.entries));
        for owner in [0, 1] {
            let mut start = 0;
            for slot in own_slots(owner) {
                store.write(slot, start, &self.entries[slot]);
                start += self.entries[slot].len();
            }
            assert_eq!(start, store.half());
        }
        store
    }

    /// The same full store, as the wrapper holds it.
    fn wrapped(&self) -> Wrapped {
        Wrapped::load(&saved(&self.entries), total(&self.entries)).expect("a sound store")
    }
}

/// What the slots of a store of the wrapper's hold.
fn held(store: &Wrapped) -> Entries {
    let form = |slot| store.fetch(Wrapped::owner_of(slot), slot).map(|held| held.into_bytes());
    (0..Wrapped::SLOTS).map(|slot| form(slot).unwrap_or_default()).collect()
}

/// Into an empty slot. Its length is set to 0 by hand before each call, which is what drop does, so it is the
/// C call that is measured.
fn put_line(bench: &Bench) -> Line {
    let (mut first, mut second) = (bench.store(), bench.store());
    let mask = &bench.entries[SLOT];
    let line = measure(
        "store put, slot empty",
        &bench.input(),
        halved(earlier!(bv_store_put as Put)),
        &mut |call| {
            first.directory[2 * SLOT + 1] = 0;
            put(call.unwrap_or(raw::bv_store_put), &mut first, SLOT, mask);
        },
        &mut || {
            second.directory[2 * SLOT + 1] = 0;
            put_second(&mut second, SLOT, mask);
        },
    );
    assert!(first.entries() == second.entries());
    line
}

/// A form of the same length in place of the other, by turns.
fn replace_line(bench: &Bench) -> Line {
    let (mut first, mut before, mut second) = (bench.wrapped(), bench.store(), bench.store());
    let masks = [&bench.moved, &bench.entries[SLOT]];
    assert_eq!(masks[0].len(), masks[1].len());
    let turns = masks.into_iter().cycle();
    let (mut turn, mut before_turn, mut second_turn) = (turns.clone(), turns.clone(), turns);
    let line = measure(
        "store put, same length replaced",
        &bench.input(),
        halved(earlier!(bv_store_put as Put)),
        &mut |call| match call {
            None => put_wrapped(&mut first, SLOT, turn.next().expect("no end")),
            Some(call) => put(call, &mut before, SLOT, before_turn.next().expect("no end")),
        },
        &mut || put_second(&mut second, SLOT, second_turn.next().expect("no end")),
    );
    // The next one is not the one that the slot holds.
    assert!(turn.next() != Some(&held(&first)[SLOT]));
    put_wrapped(&mut first, SLOT, masks[0]);
    put_second(&mut second, SLOT, masks[0]);
    assert!(Ok(held(&first)) == second.entries());
    line
}

/// Two puts: {0} in place of a large mask, and a large mask in place of another slot's {0}. No byte is
/// spare, so all forms of the owner that lie between the two have to be moved. Each time it is another
/// slot that becomes {0}.
fn swap_line(bench: &Bench) -> Line {
    let (small, large) = (form(&[0]), bench.entries[SLOT].clone());
    let mut entries = vec![large.clone(); SLOTS];
    entries[small_slot(0)] = small.clone();
    entries[small_slot(0) - OWN_SLOTS] = small.clone();
    let bench = Bench { name: bench.name, entries, moved: Vec::new() };
    let (mut first, mut before, mut second) = (bench.wrapped(), bench.store(), bench.store());
    let (mut turn, mut before_turn, mut second_turn) = (0, 0, 0);
    let swap = |turn: &mut usize, put: &mut dyn FnMut(usize, &[u8])| {
        put(small_slot(*turn + 1), &small);
        put(small_slot(*turn), &large);
        *turn += 1;
    };
    let line = measure(
        "store put twice, large by small, small by large",
        &bench.input(),
        halved(earlier!(bv_store_put as Put)),
        &mut |call| match call {
            None => swap(&mut turn, &mut |slot, mask| put_wrapped(&mut first, slot, mask)),
            Some(call) => {
                swap(&mut before_turn, &mut |slot, mask| put(call, &mut before, slot, mask))
            }
        },
        &mut || swap(&mut second_turn, &mut |slot, mask| put_second(&mut second, slot, mask)),
    );
    let second = second.entries().expect("a sound store");
    for (entries, turn) in [(held(&first), turn), (second, second_turn)] {
        let held = |slot| if slot == small_slot(turn) { &small } else { &large };
        assert!(own_slots(1).all(|slot| entries[slot] == *held(slot)));
    }
    line
}

/// The slot that holds {0}: all slots of the owner in turn, far from each other.
fn small_slot(turn: usize) -> usize {
    own_slots(1).start + (turn * 11 + SLOT) % OWN_SLOTS
}

fn put_wrapped(store: &mut Wrapped, slot: usize, mask: &[u8]) {
    assert_eq!(store.put(OWNER, slot as u32, mask), Ok(()));
}

fn put(call: Put, store: &mut Store, slot: usize, mask: &[u8]) {
    let Store { buffer, directory } = store;
    let code = unsafe {
        call(
            buffer.as_mut_ptr(),
            buffer.len(),
            directory.as_mut_ptr(),
            directory.len(),
            OWNER,
            slot as u32,
            mask.as_ptr(),
            mask.len(),
        )
    };
    assert_eq!(code, 0);
}

fn put_second(store: &mut Store, slot: usize, mask: &[u8]) {
    let Store { buffer, directory } = store;
    assert_eq!(reference::put(buffer, directory, OWNER, slot as u32, black_box(mask)), Ok(()));
}

fn fetch_line(bench: &Bench) -> Line {
    let (wrapped, store) = (bench.wrapped(), bench.store());
    let Store { buffer, directory } = &store;
    let length = bench.entries[SLOT].len();
    let (mut first, mut second) = (vec![0; length], vec![0; length]);
    let line = measure(
        "store fetch",
        &bench.input(),
        halved(earlier!(bv_store_fetch as Fetch)),
        &mut |call| match call {
            None => assert_eq!(wrapped.fetch_into(OWNER, SLOT as u32, &mut first), Ok(length)),
            Some(call) => assert_eq!(fetch(call, &store, SLOT, &mut first), 0),
        },
        &mut || {
            let buffer = black_box(buffer);
            black_box(reference::fetch(buffer, directory, OWNER, SLOT as u32, &mut second)).ok();
        },
    );
    assert!(first == bench.entries[SLOT] && second == first);
    line
}

fn fetch(call: Fetch, store: &Store, slot: usize, out: &mut [u8]) -> u32 {
    let Store { buffer, directory } = store;
    let mut length = 0;
    let code = unsafe {
        call(
            buffer.as_ptr(),
            buffer.len(),
            directory.as_ptr(),
            directory.len(),
            OWNER,
            slot as u32,
            out.as_mut_ptr(),
            out.len(),
            &mut length,
        )
    };
    black_box(length);
    code
}

/// The slot's length is set again by hand before each call, so it is the C call that is measured.
fn drop_line(bench: &Bench) -> Line {
    let length = bench.entries[SLOT].len() as u32;
    let (mut first, mut second) = (bench.store(), bench.store());
    let line = measure(
        "store drop",
        &bench.input(),
        halved(earlier!(bv_store_drop as Drop)),
        &mut |call| {
            let call = call.unwrap_or(raw::bv_store_drop);
            first.directory[2 * SLOT + 1] = length;
            let (buffer, directory) = (&first.buffer, &mut first.directory);
            let (numbers, to) = (directory.len(), directory.as_mut_ptr());
            let (from, slot) = (buffer.as_ptr(), SLOT as u32);
            assert_eq!(unsafe { call(from, buffer.len(), to, numbers, OWNER, slot) }, 0);
        },
        &mut || {
            second.directory[2 * SLOT + 1] = length;
            let (buffer, directory) = (&second.buffer, &mut second.directory);
            let buffer = black_box(buffer);
            assert_eq!(reference::drop(buffer, directory, OWNER, SLOT as u32), Ok(()));
        },
    );
    assert!(first == second);
    line
}

fn save_line(bench: &Bench) -> Line {
    let (wrapped, store) = (bench.wrapped(), bench.store());
    let expected = saved(&bench.entries);
    let length = expected.len();
    let (mut first, mut second) = (vec![0; length], vec![0; length]);
    let line = measure(
        "store save",
        &bench.input(),
        halved(earlier!(bv_store_save as Save)),
        &mut |call| match call {
            None => assert_eq!(wrapped.save_into(&mut first), Ok(length)),
            Some(call) => assert_eq!(save(call, &store, &mut first), (0, length)),
        },
        &mut || {
            let Store { buffer, directory } = black_box(&store);
            black_box(reference::save(buffer, directory, &mut second)).ok();
        },
    );
    assert!(first == expected && second == expected);
    line
}

fn save(call: Save, store: &Store, out: &mut [u8]) -> (u32, usize) {
    let Store { buffer, directory } = store;
    let (from, numbers) = (directory.as_ptr(), directory.len());
    let (to, room, mut length) = (out.as_mut_ptr(), out.len(), 0);
    let code = unsafe { call(buffer.as_ptr(), buffer.len(), from, numbers, to, room, &mut length) };
    (code, length)
}

fn load_line(bench: &Bench) -> Line {
    let saved = saved(&bench.entries);
    let length = total(&bench.entries);
    let mut first = Wrapped::new(length);
    let (mut before, mut second) = (Store::empty(length), Store::empty(length));
    let line = measure(
        "store load",
        &bench.input(),
        halved(earlier!(bv_store_load as Load)),
        &mut |call| match call {
            None => assert_eq!(first.reload(&saved), Ok(())),
            Some(call) => assert_eq!(load(call, &mut before, &saved), 0),
        },
        &mut || {
            let Store { buffer, directory } = &mut second;
            assert_eq!(reference::load(buffer, directory, black_box(&saved)), Ok(()));
        },
    );
    assert!(held(&first) == bench.entries && second.entries().as_ref() == Ok(&bench.entries));
    line
}

fn load(call: Load, store: &mut Store, saved: &[u8]) -> u32 {
    let Store { buffer, directory } = store;
    let (to, numbers) = (directory.as_mut_ptr(), directory.len());
    unsafe { call(buffer.as_mut_ptr(), buffer.len(), to, numbers, saved.as_ptr(), saved.len()) }
}

/// A fetch without room, which does nothing but judge the owner's forms; in the second program's column
/// the same library's 32 checks of them, one by one.
fn judge_line(bench: &Bench) -> Line {
    let (wrapped, store) = (bench.wrapped(), bench.store());
    let half = store.own_bytes(OWNER as usize);
    measure(
        "store judged, by 32 checks of the library",
        &bench.input(),
        halved(earlier!(bv_store_fetch as Fetch)),
        &mut |call| {
            let number = match call {
                None => wrapped.fetch_into(OWNER, SLOT as u32, &mut []).unwrap_err().number(),
                Some(call) => fetch(call, &store, SLOT, &mut []),
            };
            assert_eq!(number, 13);
        },
        &mut || {
            for slot in own_slots(OWNER as usize) {
                let (start, length) = store.place(slot);
                let form = &half[start as usize..][..length as usize];
                assert!(black_box(bitmap::check(form)).is_ok());
            }
        },
    )
}
