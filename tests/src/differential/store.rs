//! Calls on stores, one after the other. The library and the second program have a store each, and
//! place forms as they like: after every call the two stores hold the same.

use super::{edge_number, hex, same, short, Tally};
use crate::ffi::store as library;
use crate::generate::store::{
    call, edges, laid_for, own_slots, spoil, Call, Kind, Store, NUMBERS, OWN_SLOTS,
};
use crate::generate::Random;
use crate::reference::store as reference;

mod huge;
pub mod replay;

/// The outcomes that a run must reach: put's, then from 100 on fetch's, from 200 on drop's, from 300 on
/// save's, from 400 on load's. From 500 on those of put, fetch and drop where the other owner's half is
/// bad, from 800 on where the own half is bad and the other's is not. Then refusals for one half alone:
/// save's for a bad one, the first from 1100 on, the second from 1200 on; load's for one that does not fit
/// where both together would, from 1300 and from 1400 on.
pub const OUTCOMES: [u32; 45] = [
    1, 2, 3, 4, 5, 6, 7, 8, 9, 10, 11, 13, 40, 42, 44, 100, 113, 140, 141, 142, 144, 200, 240, 241,
    242, 244, 300, 313, 342, 400, 442, 500, 513, 600, 613, 641, 700, 741, 842, 942, 1042, 1142,
    1242, 1342, 1442,
];

pub fn run_case(case: u64, random: &mut Random, tally: &mut Tally) -> Result<(), String> {
    if let Some(length) = huge::length(case) {
        return huge::run(length);
    }
    if let Some(edge) = edge_number(case).and_then(edges::edge) {
        return run_edge(edge, random, tally);
    }
    let kind = Kind::any(random);
    let mut sides = Sides::same(kind.store(random));
    for _ in 0..kind.steps() {
        let entries = sides.library.readable_entries();
        let (call, turn) = call(random, kind, &entries);
        match random.below(8) {
            0 if sides.library.entries().is_ok() => {
                let bad = spoil::store(random, &sides.library);
                Sides::same(bad).compare(&call, random, tally)?;
            }
            1 if sides.library.entries().is_ok() => {
                sides = Sides::same(spoiled_beside(random, &sides.library, &call));
            }
            2 | 3 => {
                let mut store = laid_for(random, &entries, &call, turn);
                if random.once_in(4) {
                    store = spoiled_beside(random, &store, &call);
                }
                sides = Sides::same(store);
            }
            _ => {}
        }
        sides.compare(&call, random, tally)?;
    }
    Ok(())
}

/// The store, spoiled in one owner's half: mostly not in the caller's.
fn spoiled_beside(random: &mut Random, store: &Store, call: &Call) -> Store {
    let owner = match call.owner() {
        Some(owner) if !random.once_in(8) => 1 - owner,
        _ => random.below(2),
    };
    spoil::half(random, store, owner)
}

fn run_edge(edge: &edges::Case, random: &mut Random, tally: &mut Tally) -> Result<(), String> {
    let mut sides = Sides::same(Store::empty(0));
    for (store, call) in edge {
        if let Some(store) = store {
            sides = Sides::same(store.clone());
        }
        sides.compare(call, random, tally)?;
    }
    Ok(())
}

/// A call's place in the order of the counts.
fn number(call: &Call) -> u32 {
    match call {
        Call::Put { .. } => 0,
        Call::Fetch { .. } => 1,
        Call::Drop { .. } => 2,
        Call::Save { .. } => 3,
        Call::Load { .. } => 4,
    }
}

/// The library's store and the second program's, which hold the same.
struct Sides {
    library: Store,
    reference: Store,
}

impl Sides {
    fn same(store: Store) -> Sides {
        Sides { library: store.clone(), reference: store }
    }

    fn compare(
        &mut self,
        call: &Call,
        random: &mut Random,
        tally: &mut Tally,
    ) -> Result<(), String> {
        let Store { buffer, directory } = &self.reference;
        match call {
            Call::Put { owner, slot, bitmap } => {
                let put = |Store { buffer, directory }: &mut Store| {
                    reference::put(buffer, directory, *owner, *slot, bitmap)
                };
                let answer = library::put(&self.library, *owner, *slot, bitmap, random);
                self.replace(call, answer, put, tally)
            }
            Call::Load { saved } => {
                let load = |Store { buffer, directory }: &mut Store| {
                    reference::load(buffer, directory, saved)
                };
                let answer = library::load(&self.library, saved, random);
                self.replace(call, answer, load, tally)
            }
            Call::Drop { owner, slot } => self.compare_drop(call, [*owner, *slot], random, tally),
            Call::Fetch { owner, slot, room } => {
                let mut out = vec![0; *room];
                let length = reference::fetch(buffer, directory, *owner, *slot, &mut out);
                self.count(call, &length, tally);
                let expected = length.map(|length| out[..length].to_vec());
                let answer = library::fetch(&self.library, *owner, *slot, *room, random);
                same(|| self.question(call), answer, expected)
            }
            Call::Save { room } => {
                let mut out = vec![0; *room];
                let length = reference::save(buffer, directory, &mut out);
                self.count(call, &length, tally);
                let expected = length.map(|length| out[..length].to_vec());
                same(|| self.question(call), library::save(&self.library, *room, random), expected)
            }
        }
    }

    /// Compares a call that may move forms: the answers, and what the slots then hold.
    fn replace(
        &mut self,
        call: &Call,
        answer: Result<Result<Store, u32>, String>,
        second: impl FnOnce(&mut Store) -> Result<(), u32>,
        tally: &mut Tally,
    ) -> Result<(), String> {
        let mut reference = self.reference.clone();
        let expected = second(&mut reference);
        self.count(call, &expected, tally);
        let done = answer.clone().map(|answer| answer.map(|_| ()));
        same(|| self.question(call), done, expected)?;
        let Ok(Ok(library)) = answer else {
            let kept = Ok(reference == self.reference);
            return same(|| format!("the second program, {}", self.question(call)), kept, true);
        };
        let question = |slot: usize| {
            format!("slot {slot} after {}\nand then {}", self.question(call), text(&library))
        };
        // What a put leaves of the other owner's is compared byte by byte in the wrapper.
        for owner in call.owner().map_or(vec![0, 1], |owner| vec![owner]) {
            let slots = own_slots(owner);
            let entries = library.own_entries(owner);
            let entries = entries.map_err(|harm| format!("{harm}: {}", question(slots.start)))?;
            for ((held, expected), slot) in
                entries.into_iter().zip(reference.own_entries(owner)?).zip(slots)
            {
                same(|| question(slot), Ok(held), expected)?;
            }
        }
        *self = Sides { library, reference };
        Ok(())
    }

    /// The slot's length alone becomes 0.
    fn compare_drop(
        &mut self,
        call: &Call,
        [owner, slot]: [u32; 2],
        random: &mut Random,
        tally: &mut Tally,
    ) -> Result<(), String> {
        let Store { buffer, directory } = &mut self.reference;
        let expected = reference::drop(buffer, directory, owner, slot);
        self.count(call, &expected, tally);
        let mut directory = self.library.directory.clone();
        let expected = expected.map(|()| {
            directory[2 * slot as usize + 1] = 0;
            directory.clone()
        });
        let answer = library::drop(&self.library, owner, slot, random);
        same(|| self.question(call), answer, expected)?;
        self.library.directory = directory;
        Ok(())
    }

    /// Counts the second program's outcome, and which half it is due to.
    fn count<T>(&self, call: &Call, outcome: &Result<T, u32>, tally: &mut Tally) {
        let number = number(call);
        tally.count_call(number, outcome);
        let Store { buffer, directory } = &self.reference;
        if directory.len() != NUMBERS {
            return;
        }
        let bad = |owner| !reference::is_sound(buffer, directory, owner);
        let refused = matches!(outcome, Err(42));
        match (call, call.owner()) {
            (_, Some(owner)) if bad(1 - owner) => tally.count_call(5 + number, outcome),
            (_, Some(_)) if refused => tally.count_call(8 + number, outcome),
            (Call::Save { .. }, _) if refused => match [bad(0), bad(1)] {
                [true, false] => tally.count_call(11, outcome),
                [false, true] => tally.count_call(12, outcome),
                _ => {}
            },
            (Call::Load { saved }, _) if refused => {
                if let Some(owner) = misfit(saved, buffer.len()) {
                    tally.count_call(13 + owner, outcome);
                }
            }
            _ => {}
        }
    }

    /// The call and the library's store before it.
    fn question(&self, call: &Call) -> String {
        let call = match call {
            Call::Put { owner, slot, bitmap } => {
                format!("owner {owner} puts into slot {slot} {}", hex(bitmap))
            }
            Call::Load { saved } => format!("load {}", hex(saved)),
            other => format!("{other:?}"),
        };
        format!("{call}\n{}", text(&self.library))
    }
}

/// The one owner whose sound entries are longer than a half, where all together fit the buffer.
fn misfit(saved: &[u8], length: usize) -> Option<u32> {
    let entries = reference::read_entries(saved)?;
    let total = |own: &[&[u8]]| own.iter().map(|entry| entry.len()).sum::<usize>();
    let [first, second] = [total(&entries[..OWN_SLOTS]), total(&entries[OWN_SLOTS..])];
    (first + second <= length).then_some(u32::from(second > first))
}

/// The directory's numbers, but empty slots at 0, and the buffer.
fn text(store: &Store) -> String {
    let slots: Vec<String> = store
        .directory
        .chunks(2)
        .enumerate()
        .filter(|(_, pair)| *pair != [0, 0])
        .map(|(slot, pair)| format!("{slot}: {pair:?}"))
        .collect();
    let (numbers, half) = (store.directory.len(), store.half());
    let buffer = hex(&store.buffer);
    format!("directory of {numbers}, {}\nhalves of {half}, buffer {buffer}", short(&slots))
}
