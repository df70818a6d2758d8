//! Stores in any layout, and calls on them.

use super::bitmap::packing::{packed_by, Width};
use super::bitmap::{self as masks};
use super::numbers::{fewest, push_form};
use super::Random;
use std::alloc::{alloc_zeroed, Layout};
use std::ops::Range;

pub mod edges;
pub mod spoil;

pub const SLOTS: usize = 64;
pub const NUMBERS: usize = 2 * SLOTS;
/// The slots of one owner, and its numbers.
pub const OWN_SLOTS: usize = SLOTS / 2;
pub const OWN_NUMBERS: usize = 2 * OWN_SLOTS;

/// What each slot holds: the bytes of a form, none in an empty slot.
pub type Entries = Vec<Vec<u8>>;

/// A store as its caller keeps it.
#[derive(Clone, Debug, PartialEq, Eq)]
pub struct Store {
    pub buffer: Vec<u8>,
    pub directory: Vec<u32>,
}

/// The owner of a slot.
pub fn owner_of(slot: usize) -> usize {
    slot / OWN_SLOTS
}

/// The slots of an owner.
pub fn own_slots(owner: usize) -> Range<usize> {
    OWN_SLOTS * owner..OWN_SLOTS * (owner + 1)
}

impl Store {
    /// The empty store, with a buffer of this length.
    pub fn empty(length: usize) -> Store {
        Store { buffer: vec![FREE; length], directory: vec![0; NUMBERS] }
    }

    pub fn set(&mut self, slot: usize, start: u32, length: u32) {
        self.directory[2 * slot..2 * slot + 2].copy_from_slice(&[start, length]);
    }

    /// Start and length of a slot.
    pub fn place(&self, slot: usize) -> (u32, u32) {
        (self.directory[2 * slot], self.directory[2 * slot + 1])
    }

    pub fn filled(&self) -> Vec<usize> {
        (0..SLOTS).filter(|&slot| self.place(slot).1 > 0).collect()
    }

    pub fn own_filled(&self, owner: usize) -> Vec<usize> {
        own_slots(owner).filter(|&slot| self.place(slot).1 > 0).collect()
    }

    /// The length of a half.
    pub fn half(&self) -> usize {
        self.buffer.len() / 2
    }

    /// An owner's half.
    pub fn own_bytes(&self, owner: usize) -> &[u8] {
        &self.buffer[own_half(self.buffer.len(), owner)]
    }

    pub fn own_bytes_mut(&mut self, owner: usize) -> &mut [u8] {
        let half = own_half(self.buffer.len(), owner);
        &mut self.buffer[half]
    }

    /// Lets the slot lie at this start, and hold these bytes.
    pub fn write(&mut self, slot: usize, start: usize, bytes: &[u8]) {
        self.set(slot, start as u32, bytes.len() as u32);
        self.own_bytes_mut(owner_of(slot))[start..start + bytes.len()].copy_from_slice(bytes);
    }

    /// Gives both halves another length: they stay from their first byte on, and so does an odd byte.
    pub fn resize(&mut self, half: usize) {
        let [mut first, mut second] = [0, 1].map(|owner| self.own_bytes(owner).to_vec());
        first.resize(half, FREE);
        second.resize(half, FREE);
        let odd = &self.buffer[2 * self.half()..];
        self.buffer = [&first, &second, odd].concat();
    }

    /// Lengthens both halves by these bytes, and lets the slot lie there.
    pub fn append(&mut self, slot: usize, bytes: &[u8]) {
        let start = self.half();
        self.resize(start + bytes.len());
        self.write(slot, start, bytes);
    }

    /// What an owner's slots hold, read straight out of directory and buffer: an error unless each one that
    /// is not empty lies within the owner's half and apart from its others.
    pub fn own_entries(&self, owner: usize) -> Result<Entries, String> {
        if self.directory.len() != NUMBERS {
            return Err(format!("a directory of {} numbers", self.directory.len()));
        }
        let ends = |slot: usize| {
            let (start, length) = self.place(slot);
            (u64::from(start), u64::from(start) + u64::from(length))
        };
        let half = self.own_bytes(owner);
        let filled = self.own_filled(owner);
        let mut entries = vec![Vec::new(); OWN_SLOTS];
        for (n, &slot) in filled.iter().enumerate() {
            let (start, end) = ends(slot);
            if end > half.len() as u64 {
                return Err(format!("slot {slot}, {start} to {end}, lies outside of its half"));
            }
            let apart = |&other: &usize| end <= ends(other).0 || ends(other).1 <= start;
            if let Some(other) = filled[..n].iter().find(|other| !apart(other)) {
                return Err(format!("slots {other} and {slot} share bytes"));
            }
            entries[slot % OWN_SLOTS] = half[start as usize..end as usize].to_vec();
        }
        Ok(entries)
    }

    /// What all slots hold.
    pub fn entries(&self) -> Result<Entries, String> {
        Ok([self.own_entries(0)?, self.own_entries(1)?].concat())
    }

    /// What all slots hold, nothing where an owner's do not lie apart within its half.
    pub fn readable_entries(&self) -> Entries {
        let own = |owner| self.own_entries(owner).unwrap_or(vec![Vec::new(); OWN_SLOTS]);
        [own(0), own(1)].concat()
    }
}

/// A byte outside of all forms.
const FREE: u8 = 0xEE;

/// An owner's half of a buffer of this length. An owner of another number has none.
pub fn own_half(length: usize, owner: usize) -> Range<usize> {
    let half = length / 2;
    match owner {
        0 => 0..half,
        1 => half..2 * half,
        _ => 0..0,
    }
}

/// Lengths of buffers over 4 GiB, and with halves over 4 GiB.
pub const HUGE: [usize; 2] = [(1 << 32) + 201, (1 << 33) + 401];

/// A buffer of zeros, so long that no page of it is touched yet; none without address room for it.
pub fn huge_buffer(length: usize) -> Option<Vec<u8>> {
    let start = unsafe { alloc_zeroed(Layout::array::<u8>(length).ok()?) };
    (!start.is_null()).then(|| unsafe { Vec::from_raw_parts(start, length, length) })
}

/// A call on a store.
#[derive(Clone, Debug)]
pub enum Call {
    Put { owner: u32, slot: u32, bitmap: Vec<u8> },
    Fetch { owner: u32, slot: u32, room: usize },
    Drop { owner: u32, slot: u32 },
    Save { room: usize },
    Load { saved: Vec<u8> },
}

impl Call {
    /// The owner that calls, if it is one of the two.
    pub fn owner(&self) -> Option<usize> {
        match self {
            Call::Put { owner, .. } | Call::Fetch { owner, .. } | Call::Drop { owner, .. } => {
                (*owner < 2).then_some(*owner as usize)
            }
            Call::Save { .. } | Call::Load { .. } => None,
        }
    }
}

/// How large the masks of a case are.
#[derive(Clone, Copy, PartialEq, Eq)]
pub enum Scale {
    Tiny,
    Small,
    Any,
    Large,
}

/// The one written form, by the generator's own packing.
pub fn form(set: &[u32]) -> Vec<u8> {
    packed_by(set, Width::cost)
}

pub fn total(entries: &[Vec<u8>]) -> usize {
    entries.iter().map(Vec::len).sum()
}

/// How long an owner's entries are together, of all 64.
pub fn own_total(entries: &[Vec<u8>], owner: usize) -> usize {
    total(&entries[own_slots(owner)])
}

/// The least half that takes each owner's entries.
pub fn needed(entries: &[Vec<u8>]) -> usize {
    own_total(entries, 0).max(own_total(entries, 1))
}

/// 64 entries, each a shortest length and the bytes.
pub fn saved(entries: &[Vec<u8>]) -> Vec<u8> {
    let mut out = Vec::new();
    for entry in entries {
        push_form(entry.len() as u32, fewest(entry.len() as u32), &mut out);
        out.extend_from_slice(entry);
    }
    out
}

fn set(random: &mut Random, scale: Scale) -> Vec<u32> {
    match scale {
        Scale::Tiny => {
            let sets: [&[u32]; 6] = [&[], &[], &[0], &[0, 34, 255], &[256], &[0, 256]];
            random.pick(&sets).to_vec()
        }
        Scale::Small => {
            let count = random.below(60);
            let bound = random.pick(&[40, 300, 3000]);
            let mut set: Vec<u32> = (0..count).map(|_| random.below(bound) as u32).collect();
            set.sort_unstable();
            set.dedup();
            set
        }
        Scale::Any => masks::set(random),
        Scale::Large => large_set(random),
    }
}

/// A set whose form has up to some hundred thousand bytes: runs in most of up to all containers.
fn large_set(random: &mut Random) -> Vec<u32> {
    let containers = if random.once_in(4) { 8192 } else { random.between(500, 8192) };
    let most = random.pick(&[3, 30, 40, 40, 40]);
    let mut set = Vec::new();
    for k in 0..containers as u32 {
        let start = random.below(200) as u32;
        let count = random.between(most / 2, most) as u32;
        set.extend((0..count).map(|low| 256 * k + start + low));
    }
    set
}

/// What a random case goes on with: the size of its masks, and how many slots of each owner it uses.
#[derive(Clone, Copy)]
pub struct Kind {
    pub scale: Scale,
    pub slots: usize,
}

impl Kind {
    pub fn any(random: &mut Random) -> Kind {
        match random.below(400) {
            0..=3 => Kind { scale: Scale::Large, slots: 2 },
            4..=149 => Kind { scale: Scale::Tiny, slots: random.pick(&[1, 2, 4, OWN_SLOTS]) },
            150..=309 => Kind { scale: Scale::Small, slots: random.pick(&[2, 4, OWN_SLOTS]) },
            _ => Kind { scale: Scale::Any, slots: random.pick(&[2, 4, 4, OWN_SLOTS]) },
        }
    }

    pub fn steps(self) -> usize {
        match self.scale {
            Scale::Tiny => 14,
            Scale::Small => 10,
            Scale::Any => 6,
            Scale::Large => 4,
        }
    }

    /// Some slots of the owner, its first and its last one among them.
    fn slot(self, random: &mut Random, owner: usize) -> usize {
        let number = random.below(self.slots);
        let slots = own_slots(owner);
        if number % 2 == 1 {
            slots.end - 1 - number / 2
        } else {
            slots.start + number / 2
        }
    }

    /// Entries for some, all or none of each owner's slots.
    pub fn entries(self, random: &mut Random) -> Entries {
        let mut entries = vec![Vec::new(); SLOTS];
        for owner in [0, 1] {
            for _ in 0..random.pick(&[0, 1, 2, self.slots / 2, 2 * self.slots]) {
                let slot = self.slot(random, owner);
                entries[slot] = form(&set(random, self.scale));
            }
        }
        entries
    }

    /// A store to begin with: little or no room to spare, or much. Every other buffer has an odd byte.
    pub fn store(self, random: &mut Random) -> Store {
        let entries = self.entries(random);
        let more = match self.scale {
            Scale::Large => random.pick(&[0, 1000, 300_000, 600_000]),
            _ => random.pick(&[0, 6, 12, 30, 300, 4000]),
        };
        let more = if random.once_in(2) { more } else { random.below(more + 1) };
        let length = 2 * (needed(&entries) + more / 2) + random.below(2);
        lay(random, &entries, length)
    }
}

/// A store of these entries in a buffer of this length, whose halves take them all: in any order, with
/// gaps anywhere, and with any starts of empty slots.
pub fn lay(random: &mut Random, entries: &[Vec<u8>], length: usize) -> Store {
    let mut store = Store { buffer: filler(random, length), directory: vec![0; NUMBERS] };
    for owner in [0, 1] {
        lay_own(random, &mut store, entries, owner);
    }
    store
}

/// Lays one owner's of the entries into its half.
fn lay_own(random: &mut Random, store: &mut Store, entries: &[Vec<u8>], owner: usize) {
    let mut slack = store.half() - own_total(entries, owner);
    let order = order(random, entries, owner);
    let gaps = random.below(4);
    let mut place = 0;
    for (n, &slot) in order.iter().enumerate() {
        let gap = match gaps {
            0 => 0,
            1 => slack,
            2 => slack / (order.len() + 1 - n),
            _ => random.below(slack + 1),
        };
        slack -= gap;
        place += gap;
        store.write(slot, place, &entries[slot]);
        place += entries[slot].len();
    }
    for slot in own_slots(owner).filter(|&slot| entries[slot].is_empty()) {
        let start = empty_start(random, store.buffer.len());
        store.set(slot, start, 0);
    }
}

/// An owner's slots that are not empty, in the order in which their forms lie: rising, falling or any.
fn order(random: &mut Random, entries: &[Vec<u8>], owner: usize) -> Vec<usize> {
    let mut order: Vec<usize> =
        own_slots(owner).filter(|&slot| !entries[slot].is_empty()).collect();
    match random.below(3) {
        0 => {}
        1 => order.reverse(),
        _ => {
            for n in 1..order.len() {
                order.swap(n, random.below(n + 1));
            }
        }
    }
    order
}

/// Bytes that mean nothing: zeros, any bytes, the empty set's form over and over.
fn filler(random: &mut Random, length: usize) -> Vec<u8> {
    let pattern = match random.below(3) {
        0 => vec![0],
        1 => random.bytes(61),
        _ => form(&[]),
    };
    pattern.into_iter().cycle().take(length).collect()
}

fn empty_start(random: &mut Random, length: usize) -> u32 {
    match random.below(6) {
        0 => random.word() as u32,
        1 => u32::MAX - random.below(3) as u32,
        2 => length as u32 + 1,
        3 => random.below(length + 1) as u32,
        _ => 0,
    }
}

/// A bitmap to put, and the length of its form if it is accepted.
fn mask(random: &mut Random, kind: Kind) -> (Vec<u8>, usize) {
    let set = set(random, kind.scale);
    let form = form(&set);
    let length = form.len();
    match random.below(6) {
        0 => (masks::damaged(random, &set), length),
        1 | 2 => (form, length),
        _ => (masks::sound(random, &set), length),
    }
}

/// Mostly a slot that the case uses; at times one over 63, also one that would wrap.
fn slot_number(random: &mut Random, kind: Kind, entries: &[Vec<u8>]) -> u32 {
    let filled: Vec<u32> = (0..64).filter(|&slot| !entries[slot as usize].is_empty()).collect();
    match random.below(16) {
        0 => random.pick(&[64, 65, 127, 128, 256, 320, 65_536, 1 << 31, u32::MAX - 63, u32::MAX]),
        1 => random.pick(&[0, 31, 32, 63]),
        2..=8 if !filled.is_empty() => random.pick(&filled),
        _ => {
            let owner = random.below(2);
            kind.slot(random, owner) as u32
        }
    }
}

/// Owners that have no slot, also ones that would wrap.
pub const OTHER_OWNERS: [u32; 12] = [2, 3, 4, 32, 33, 64, 255, 256, 257, 65_536, 1 << 31, u32::MAX];

/// Mostly the slot's owner, at times the other one, at times one that has no slot.
fn owner_number(random: &mut Random, slot: u32) -> u32 {
    let owner = if slot < 64 { owner_of(slot as usize) as u32 } else { random.below(2) as u32 };
    match random.below(16) {
        0 => random.pick(&OTHER_OWNERS),
        1 => 1 - owner,
        _ => owner,
    }
}

/// A room near a length, or far from it.
fn room(random: &mut Random, length: usize) -> usize {
    match random.below(8) {
        0 => 0,
        1 => random.below(length),
        2 | 3 => length - 1,
        4 => length + random.below(300),
        _ => length,
    }
}

/// A call on a store of these entries, and a length of the halves at which its answer turns.
pub fn call(random: &mut Random, kind: Kind, entries: &[Vec<u8>]) -> (Call, usize) {
    match random.below(20) {
        0..=14 => {
            let slot = slot_number(random, kind, entries);
            let owner = owner_number(random, slot);
            own_call(random, kind, entries, [owner, slot])
        }
        15..=16 => (save_call(random, entries), needed(entries)),
        _ => {
            let others = if random.once_in(3) { entries.to_vec() } else { kind.entries(random) };
            let sound = random.once_in(2);
            let saved = if sound { saved(&others) } else { spoil::saved(random, &others) };
            (Call::Load { saved }, needed(&others))
        }
    }
}

/// An owner's call on a slot.
fn own_call(
    random: &mut Random,
    kind: Kind,
    entries: &[Vec<u8>],
    [owner, slot]: [u32; 2],
) -> (Call, usize) {
    let held = entries.get(slot as usize).map_or(0, Vec::len);
    let filled = own_total(entries, owner_of(slot as usize % SLOTS));
    match random.below(5) {
        0..=2 => {
            let (bitmap, length) = mask(random, kind);
            (Call::Put { owner, slot, bitmap }, filled - held + length)
        }
        3 => (Call::Fetch { owner, slot, room: room(random, held.max(6)) }, filled),
        _ => (Call::Drop { owner, slot }, filled),
    }
}

fn save_call(random: &mut Random, entries: &[Vec<u8>]) -> Call {
    Call::Save { room: room(random, saved(entries).len()) }
}

/// Another layout of these entries, in halves near the length at which the call's answer turns, with or
/// without an odd byte. The halves take the caller's entries; where they are too short for the other
/// owner's, its longest are left out. The store of a load is empty instead.
pub fn laid_for(random: &mut Random, entries: &[Vec<u8>], call: &Call, turn: usize) -> Store {
    let mut half = match random.below(8) {
        0 | 1 => turn.saturating_sub(1),
        2 => turn + 1,
        3 => turn + random.below(40),
        _ => turn,
    };
    let mut entries = entries.to_vec();
    match (call, call.owner()) {
        (_, Some(owner)) => {
            half = half.max(own_total(&entries, owner));
            shorten(&mut entries[own_slots(1 - owner)], half);
        }
        (Call::Load { .. }, _) if half < needed(&entries) => entries = vec![Vec::new(); SLOTS],
        _ => half = half.max(needed(&entries)),
    }
    let length = 2 * half + random.below(2);
    lay(random, &entries, length)
}

/// Leaves the longest entries out until the rest fits.
fn shorten(entries: &mut [Vec<u8>], room: usize) {
    while total(entries) > room {
        if let Some(longest) = entries.iter_mut().max_by_key(|entry| entry.len()) {
            longest.clear();
        }
    }
}

/// A call of this owner, mostly on its own slots.
pub fn call_of(random: &mut Random, kind: Kind, entries: &[Vec<u8>], owner: usize) -> Call {
    let filled: Vec<usize> = own_slots(owner).filter(|&slot| !entries[slot].is_empty()).collect();
    let slot = match random.below(12) {
        0 | 1 => slot_number(random, kind, entries),
        2..=6 if !filled.is_empty() => random.pick(&filled) as u32,
        _ => kind.slot(random, owner) as u32,
    };
    own_call(random, kind, entries, [owner as u32, slot]).0
}
