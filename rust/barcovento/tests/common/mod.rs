//! What the tests have in common: random numbers by a fixed seed, sets, bitmaps as other writers lay them,
//! tables, and the samples.
#![allow(dead_code)]

use std::collections::BTreeSet;
use std::path::Path;

pub mod table;

/// Random numbers, the same in every run.
pub struct Random(u64);

impl Random {
    pub fn new(seed: u64) -> Random {
        Random(seed)
    }

    pub fn word(&mut self) -> u64 {
        self.0 = self.0.wrapping_add(0x9E37_79B9_7F4A_7C15);
        let mixed = (self.0 ^ (self.0 >> 30)).wrapping_mul(0xBF58_476D_1CE4_E5B9);
        let mixed = (mixed ^ (mixed >> 27)).wrapping_mul(0x94D0_49BB_1331_11EB);
        mixed ^ (mixed >> 31)
    }

    pub fn below(&mut self, bound: u32) -> u32 {
        (self.word() % u64::from(bound)) as u32
    }

    /// Each position of the first containers with this chance, in thousandths.
    pub fn set(&mut self, containers: u32, thousandths: u32) -> Vec<u32> {
        (0..256 * containers).filter(|_| self.below(1_000) < thousandths).collect()
    }
}

/// The bytes of a sample file.
pub fn sample(name: &str) -> Vec<u8> {
    let folder = Path::new(env!("CARGO_MANIFEST_DIR")).join("../../samples");
    std::fs::read(folder.join(name)).expect("a sample")
}

/// Sets at the edges, and random ones.
pub fn sets() -> Vec<Vec<u32>> {
    let mut random = Random::new(1);
    let mut sets = vec![
        vec![],
        vec![0],
        vec![0, 34, 255],
        vec![256],
        vec![0, 256],
        vec![2_097_151],
        (0..31).collect(),
        (0..32).collect(),
        (0..2_097_152).collect(),
        (0..2_097_152).step_by(2).collect(),
        (0..2_097_152).step_by(256).collect(),
        longest(),
        with_exceptions(),
    ];
    for (containers, thousandths) in
        [(1, 100), (3, 500), (255, 20), (257, 130), (300, 3), (1_000, 200)]
    {
        sets.push(random.set(containers, thousandths));
    }
    sets.push(random.set(8_192, 125));
    sets
}

/// The set whose form is longest: in every chunk one empty container, and 255 dense ones.
pub fn longest() -> Vec<u32> {
    (0..2_097_152).filter(|position| position / 256 % 256 != 0).collect()
}

/// Containers of one member, but in each chunk up to 30 of more or many members.
pub fn with_exceptions() -> Vec<u32> {
    let members = |container: u32| match container % 256 {
        n if n < container / 256 => 1 + 8 * (n + 1),
        _ => 1,
    };
    let of = |container| (0..members(container)).map(move |member| 256 * container + member);
    (0..8_192).flat_map(of).collect()
}

/// How another writer lays a set: this many bits for each descriptor from 6 to 8, least descriptor 0,
/// this many exceptions of no worth in each chunk, and empty containers up to this many.
pub struct Writer {
    pub bits: u8,
    pub exceptions: u8,
    pub containers: usize,
}

impl Writer {
    pub fn lay(&self, set: &[u32]) -> Vec<u8> {
        let count = set.last().map_or(0, |last| *last as usize / 256 + 1).max(self.containers);
        let mut lists = vec![Vec::new(); count];
        for position in set {
            lists[*position as usize / 256].push((position % 256) as u8);
        }
        let mut out = vec![1];
        out.extend(&(set.len() as u32).to_le_bytes()[..3]);
        out.extend((count as u16).to_le_bytes());
        for chunk in lists.chunks(256) {
            self.lay_chunk(chunk, &mut out);
        }
        for list in &lists {
            lay_container(list, &mut out);
        }
        out
    }

    /// The low bits of a dense container's descriptor are free.
    fn lay_chunk(&self, lists: &[Vec<u8>], out: &mut Vec<u8>) {
        let descriptor = |list: &Vec<u8>| match list.len() {
            members if members < 32 => members as u8,
            members => 32 + members as u8 % 32,
        };
        let descriptors: Vec<u8> = lists.iter().map(descriptor).collect();
        let exceptions = self.exceptions.min(lists.len().min(255) as u8);
        let more = if exceptions > 0 { 8 - self.bits } else { 0 };
        out.extend([self.bits | more << 4, exceptions, 0]);
        pack(&descriptors, self.bits, out);
        out.extend(0..exceptions);
        pack(&vec![0; exceptions.into()], more, out);
    }
}

/// Values of so many bits each, the first in the highest bits.
fn pack(values: &[u8], bits: u8, out: &mut Vec<u8>) {
    let start = out.len();
    out.resize(start + (values.len() * usize::from(bits)).div_ceil(8), 0);
    for (i, value) in values.iter().enumerate() {
        for bit in 0..usize::from(bits) {
            let at = i * usize::from(bits) + bit;
            let set = value >> (usize::from(bits) - 1 - bit) & 1;
            out[start + at / 8] |= set << (7 - at % 8);
        }
    }
}

fn lay_container(list: &[u8], out: &mut Vec<u8>) {
    if list.len() < 32 {
        out.extend(list);
        return;
    }
    let start = out.len();
    out.resize(start + 32, 0);
    for member in list {
        out[start + usize::from(*member) / 8] |= 0x80 >> (member % 8);
    }
}

/// Other writers of sets.
pub fn writers() -> [Writer; 4] {
    [
        Writer { bits: 8, exceptions: 0, containers: 0 },
        Writer { bits: 6, exceptions: 255, containers: 0 },
        Writer { bits: 7, exceptions: 3, containers: 600 },
        Writer { bits: 6, exceptions: 0, containers: 8_192 },
    ]
}

pub fn tree(set: &[u32]) -> BTreeSet<u32> {
    set.iter().copied().collect()
}
