//! Two runs of the library that agree in one owner's calls give that owner the same answers, whatever the
//! other owner does between them. They start from one store, or from two that agree in the owner's own
//! numbers and half, one of them perhaps spoiled in the other's. The second program has no part in this.

use super::{number, text};
use crate::differential::{hex, short, Tally};
use crate::ffi::{store as library, Called};
use crate::generate::store::{
    call_of, own_slots, saved, spoil, Call, Kind, Scale, Store, OTHER_OWNERS, OWN_SLOTS,
};
use crate::generate::Random;

/// The outcomes of the first run that must be reached: of the owner's put, from 100 on of its fetch, from
/// 200 on of its drop, from 300 on of saves. From 500 on again those of put, fetch and drop, where the runs
/// start from a store that is spoiled.
pub const OUTCOMES: [u32; 25] = [
    13, 40, 42, 44, 100, 113, 140, 141, 142, 144, 200, 240, 241, 242, 244, 300, 313, 342, 500, 513,
    542, 600, 641, 700, 741,
];

pub fn run_case(_: u64, random: &mut Random, tally: &mut Tally) -> Result<(), String> {
    let pair = Pair::any(random);
    let first = pair.first(random)?;
    pair.count(&first, tally);
    pair.second(&first, random)
}

/// Two runs of this kind that agree in the calls of this owner, the first from this store, the second from
/// its twin, which is the same in all that is the owner's.
struct Pair {
    kind: Kind,
    owner: usize,
    store: Store,
    twin: Store,
    spoiled: bool,
}

impl Pair {
    fn any(random: &mut Random) -> Pair {
        let scale = match random.below(16) {
            0 => Scale::Any,
            1..=6 => Scale::Small,
            _ => Scale::Tiny,
        };
        let kind = Kind { scale, slots: random.pick(&[1, 2, 4, 4, OWN_SLOTS]) };
        let owner = random.below(2);
        let sound = kind.store(random);
        let store = match random.below(16) {
            0..=4 => spoil::half(random, &sound, 1 - owner),
            5 => spoil::half(random, &sound, owner),
            6 => spoil::store(random, &sound),
            _ => sound.clone(),
        };
        let twin = match random.below(4) {
            0 => sound.clone(),
            1 => spoil::half(random, &sound, 1 - owner),
            _ => store.clone(),
        };
        let twin = if own_same(&store, &twin, owner) { twin } else { store.clone() };
        Pair { kind, owner, spoiled: store != sound, store, twin }
    }

    /// Calls of both owners, and saves, in any order; at last the owner looks at what it has.
    fn first(&self, random: &mut Random) -> Result<Run, String> {
        let mut run = Run::from(&self.store);
        for _ in 0..2 * self.kind.steps() {
            let own = random.once_in(2);
            let call = match own {
                true => call_of(random, self.kind, &run.store.readable_entries(), self.owner),
                false => self.other_call(random, &run.store),
            };
            run.step(own, call, random)?;
        }
        for slot in own_slots(self.owner).filter(|slot| slot % 32 < 3 || slot % 32 > 29) {
            let call = Call::Fetch { owner: self.owner as u32, slot: slot as u32, room: 300 };
            run.step(true, call, random)?;
        }
        Ok(run)
    }

    /// The owner's calls of the first run, with others between them or none at all.
    fn second(&self, first: &Run, random: &mut Random) -> Result<(), String> {
        let mut run = Run::from(&self.twin);
        let most = random.pick(&[0, 1, 2, 4]);
        for Step { call, answer, .. } in first.steps.iter().filter(|step| step.own) {
            for _ in 0..random.below(most + 1) {
                let other = self.other_call(random, &run.store);
                run.step(false, other, random)?;
            }
            let again = run.step(true, call.clone(), random)?.answer.clone();
            if again != *answer {
                return Err(format!(
                    "owner {} in two runs\nfirst run: {}\n{}\nsecond run: {}\n{}\nfirst:  {}\nsecond: {}",
                    self.owner,
                    text(&self.store),
                    first.told(),
                    text(&self.twin),
                    run.told(),
                    short(answer),
                    short(&again)
                ));
            }
        }
        Ok(())
    }

    /// A call of the other owner or of one that has no slot, or a save.
    fn other_call(&self, random: &mut Random, store: &Store) -> Call {
        let entries = store.readable_entries();
        match random.below(12) {
            0 | 1 => {
                let length = saved(&entries).len();
                Call::Save { room: random.pick(&[length, length + 9, length - 1, 0]) }
            }
            2 => {
                let call = call_of(random, self.kind, &entries, self.owner);
                by_nobody(random, call)
            }
            _ => call_of(random, self.kind, &entries, 1 - self.owner),
        }
    }

    fn count(&self, run: &Run, tally: &mut Tally) {
        for Step { own, call, answer } in &run.steps {
            if *own || matches!(call, Call::Save { .. }) {
                tally.count_call(number(call), answer);
            }
            if *own && self.spoiled {
                tally.count_call(5 + number(call), answer);
            }
        }
    }
}

/// Whether two stores are as long as each other and the same in all that is the owner's.
fn own_same(a: &Store, b: &Store, owner: usize) -> bool {
    let numbers = 2 * own_slots(owner).start..2 * own_slots(owner).end;
    a.buffer.len() == b.buffer.len()
        && a.directory.len() == b.directory.len()
        && a.own_bytes(owner) == b.own_bytes(owner)
        && a.directory.get(numbers.clone()) == b.directory.get(numbers)
}

/// The same call by an owner that has no slot.
fn by_nobody(random: &mut Random, mut call: Call) -> Call {
    if let Call::Put { owner, .. } | Call::Fetch { owner, .. } | Call::Drop { owner, .. } =
        &mut call
    {
        *owner = random.pick(&OTHER_OWNERS);
    }
    call
}

/// A call, whether the owner makes it whose answers are compared, and what it gives: its refusal, or the
/// bytes that it writes.
struct Step {
    own: bool,
    call: Call,
    answer: Result<Vec<u8>, u32>,
}

/// Calls on a store that is handed on unchanged, and the store that they leave.
struct Run {
    store: Store,
    steps: Vec<Step>,
}

impl Run {
    fn from(store: &Store) -> Run {
        Run { store: store.clone(), steps: Vec::new() }
    }

    /// Makes the call and takes it down.
    fn step(&mut self, own: bool, call: Call, random: &mut Random) -> Result<&Step, String> {
        let answer = self
            .answer(&call, random)
            .map_err(|harm| format!("{harm}: {call:?}\n{}\n{}", text(&self.store), self.told()))?;
        self.steps.push(Step { own, call, answer });
        self.steps.last().ok_or("no step".to_string())
    }

    fn answer(&mut self, call: &Call, random: &mut Random) -> Called<Vec<u8>> {
        let store = &mut self.store;
        Ok(match call {
            Call::Put { owner, slot, bitmap } => {
                library::put(store, *owner, *slot, bitmap, random)?.map(|left| {
                    *store = left;
                    Vec::new()
                })
            }
            Call::Drop { owner, slot } => {
                library::drop(store, *owner, *slot, random)?.map(|left| {
                    store.directory = left;
                    Vec::new()
                })
            }
            Call::Fetch { owner, slot, room } => {
                library::fetch(store, *owner, *slot, *room, random)?
            }
            Call::Save { room } => library::save(store, *room, random)?,
            Call::Load { .. } => return Err("a load stands between".to_string()),
        })
    }

    /// The calls with their refusals, 0 for none.
    fn told(&self) -> String {
        let told = |Step { call, answer, .. }: &Step| {
            let refusal = answer.as_ref().err().unwrap_or(&0);
            match call {
                Call::Put { owner, slot, bitmap } => {
                    format!("put {owner} {slot} {}: {refusal}", hex(bitmap))
                }
                other => format!("{other:?}: {refusal}"),
            }
        };
        short(&self.steps.iter().map(told).collect::<Vec<_>>())
    }
}
