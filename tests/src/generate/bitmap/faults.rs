//! Bitmaps with faults at chosen places: each refusal at its first and last places, and two faults at
//! once. What is to be told of them comes from how they are built, not from reading them.

use super::{dense, pack_chunk, Chunk, Draft, CHUNK};
use std::sync::OnceLock;
use Damage::*;

/// Number, index, byte, found and wanted.
pub type Told = [usize; 5];

/// How many bitmaps there are.
pub fn count() -> usize {
    cases().len()
}

/// The bitmap of this number, and its first fault.
pub fn fault(number: usize) -> Option<(Vec<u8>, Told)> {
    cases().get(number).map(Case::build)
}

fn cases() -> &'static [Case] {
    static CASES: OnceLock<Vec<Case>> = OnceLock::new();
    CASES.get_or_init(|| {
        let lists = [
            pairs_with_header(),
            pairs_of_chunks(),
            pairs_in_a_chunk(),
            pairs_with_containers(),
            header(),
            cut(),
            widths(),
            offsets(),
            spare_of_primary(),
            spare_of_parts(),
            over_63(),
            two_over_63(),
            behind(),
            sparse(),
            thin(),
            cardinality(),
            farthest(),
        ];
        lists.into_iter().flatten().collect()
    })
}

/// A sound bitmap: the number of its containers, and what all its chunks have.
#[derive(Clone, Copy)]
struct Base {
    count: usize,
    m: u8,
    b1: usize,
    b2: usize,
    /// As many exceptions, or one for each descriptor if these are fewer.
    e: usize,
}

impl Base {
    /// Sparse containers, and arrays with spare bits as far as n leaves some.
    fn mixed(count: usize) -> Base {
        Base { count, m: 0, b1: 3, b2: 4, e: 3 }
    }

    /// Every descriptor is the same.
    fn alike(count: usize, descriptor: u8) -> Base {
        Base { count, m: descriptor, b1: 0, b2: 0, e: 0 }
    }

    /// The longest accepted bitmap.
    fn longest() -> Base {
        Base { count: 8192, m: 32, b1: 7, b2: 1, e: 255 }
    }

    /// How many descriptors the chunk has.
    fn n(&self, chunk: usize) -> usize {
        (self.count - CHUNK * chunk).min(CHUNK)
    }

    fn offsets(&self, n: usize) -> Vec<u8> {
        let e = self.e.min(n);
        (1..=e).map(|i| (i * n / e - 1) as u8).collect()
    }

    fn chunk(&self, chunk: usize) -> Chunk {
        let n = self.n(chunk);
        let offsets = self.offsets(n);
        let mut values: Vec<u32> = (0..n).map(|i| (i % 3) as u32 & ((1 << self.b1) - 1)).collect();
        if self.b2 > 0 && self.b1 < 6 {
            offsets.iter().for_each(|&offset| values[usize::from(offset)] += 1 << self.b1);
        }
        pack_chunk(&values, self.m, self.b1, self.b2, offsets)
    }

    fn draft(&self) -> Draft {
        let chunks: Vec<Chunk> = (0..self.count.div_ceil(CHUNK)).map(|i| self.chunk(i)).collect();
        let descriptors = || chunks.iter().flat_map(|chunk| &chunk.descriptors);
        let containers: Vec<Vec<u8>> = descriptors()
            .map(|&d| if d < 32 { (0..d).map(|i| i * 8 + 3).collect() } else { vec![255; 32] })
            .collect();
        let cardinality = descriptors().map(|&d| if d < 32 { u32::from(d) } else { 256 }).sum();
        Draft { version: 1, cardinality, count: self.count as u16, chunks, containers }
    }

    /// The bytes of all containers.
    fn size(&self) -> usize {
        size(&self.draft().containers)
    }
}

fn size(containers: &[Vec<u8>]) -> usize {
    containers.iter().map(Vec::len).sum()
}

/// One fault. The first number is the chunk, or the container.
#[derive(Clone, Copy)]
enum Damage {
    /// 1: so many first bytes alone are there.
    Short(usize),
    /// 2
    Version(u8),
    /// 3
    Count(u16),
    /// 4: so many bytes of the chunk alone are there.
    Cut(usize, usize),
    /// 5: other b1, b2 and e; the arrays stay.
    Widths(usize, [u8; 3]),
    /// 6: this offset has this value.
    Offset(usize, usize, u8),
    /// 7: this bit, from the low end, of the primary array's last byte is set.
    PrimarySpare(usize, usize),
    /// 7: this bit, from the low end, of the parts' last byte is set.
    PartsSpare(usize, usize),
    /// 8: another m.
    Least(usize, u8),
    /// 8: other descriptors.
    Over(usize, Values),
    /// 9: so many bytes are behind the descriptors.
    Behind(usize),
    /// 10: this byte of a sparse container is the one before it, less so much.
    Falls(usize, usize, u8),
    /// 10: a dense container has so many members.
    Thin(usize, usize),
    /// 11
    Cardinality(usize),
}

/// The descriptors of a chunk: at most 63, or m if that is over 63, but for two (or one, given
/// twice).
#[derive(Clone, Copy)]
struct Values {
    m: u8,
    b1: usize,
    b2: usize,
    over: [(usize, usize); 2],
}

impl Values {
    /// The descriptors, less m.
    fn less_m(&self, n: usize) -> Vec<u32> {
        let m = usize::from(self.m);
        let other = 63usize.saturating_sub(m).min((1 << self.b1) - 1) as u32;
        let mut values = vec![other; n];
        for (at, descriptor) in self.over {
            values[at] = (descriptor - m) as u32;
        }
        values
    }

    fn chunk(&self, n: usize) -> Chunk {
        let mut offsets: Vec<u8> = self.over.iter().map(|&(at, _)| at as u8).collect();
        offsets.dedup();
        offsets.truncate(if self.b2 == 0 { 0 } else { 2 });
        pack_chunk(&self.less_m(n), self.m, self.b1, self.b2, offsets)
    }

    fn first_over_63(&self, n: usize) -> usize {
        let mut sums = self.less_m(n).into_iter().map(|value| value as usize + usize::from(self.m));
        sums.find(|&sum| sum > 63).unwrap_or(0)
    }
}

impl Damage {
    fn apply(&self, draft: &mut Draft) {
        match *self {
            Version(version) => draft.version = version,
            Count(count) => draft.count = count,
            Widths(chunk, [b1, b2, e]) => {
                let chunk = &mut draft.chunks[chunk];
                (chunk.b1, chunk.b2, chunk.e) = (b1, b2, e);
            }
            Offset(chunk, at, value) => draft.chunks[chunk].offsets[at] = value,
            PrimarySpare(chunk, bit) => {
                *draft.chunks[chunk].primary.last_mut().unwrap() |= 1 << bit
            }
            PartsSpare(chunk, bit) => *draft.chunks[chunk].parts.last_mut().unwrap() |= 1 << bit,
            Least(chunk, m) => draft.chunks[chunk].m = m,
            Over(chunk, values) => {
                draft.chunks[chunk] = values.chunk(draft.chunks[chunk].descriptors.len())
            }
            Falls(container, at, less) => {
                let container = &mut draft.containers[container];
                container[at] = container[at - 1] - less;
            }
            Thin(container, members) => {
                let members: Vec<u8> = (0..members as u8).map(|i| i * 8 + 3).collect();
                draft.containers[container] = dense(&members);
            }
            Cardinality(cardinality) => draft.cardinality = cardinality as u32,
            Short(_) | Cut(..) | Behind(_) => {}
        }
    }

    fn change_length(&self, draft: &Draft, bytes: &mut Vec<u8>) {
        match *self {
            Short(length) => bytes.truncate(length),
            Cut(chunk, kept) => bytes.truncate(start(draft, chunk) + kept),
            Behind(there) => bytes.resize(start(draft, draft.chunks.len()) + there, 0),
            _ => {}
        }
    }

    /// Document 01's order: the stage, the chunk or container, the step in a chunk, the offset.
    fn order(&self) -> [usize; 4] {
        match *self {
            Short(_) => [1, 0, 0, 0],
            Version(_) => [2, 0, 0, 0],
            Count(_) => [3, 0, 0, 0],
            Cut(chunk, kept) => [4, chunk, if kept < 3 { 0 } else { 2 }, 0],
            Widths(chunk, _) => [4, chunk, 1, 0],
            Offset(chunk, at, _) => [4, chunk, 3, at],
            PrimarySpare(chunk, _) => [4, chunk, 4, 0],
            PartsSpare(chunk, _) => [4, chunk, 5, 0],
            Least(chunk, _) | Over(chunk, _) => [4, chunk, 6, 0],
            Behind(_) => [5, 0, 0, 0],
            Falls(container, ..) | Thin(container, _) => [6, container, 0, 0],
            Cardinality(_) => [7, 0, 0, 0],
        }
    }

    /// What is told of this fault if it is the first. `sound` is the bitmap before the damage.
    fn told(&self, sound: &Draft, draft: &Draft, length: usize) -> Told {
        let containers = start(draft, draft.chunks.len());
        match *self {
            Short(_) => [1, 0, 0, length, 6],
            Version(version) => [2, 0, 0, version.into(), 1],
            Count(count) => [3, 0, 4, count.into(), 8192],
            Behind(there) => [9, 0, containers, there, size(&sound.containers)],
            Falls(container, ..) | Thin(container, _) => {
                [10, container, containers + size(&sound.containers[..container]), 0, 0]
            }
            Cardinality(stored) => [11, 0, 1, stored, sound.cardinality as usize],
            Cut(chunk, _)
            | Widths(chunk, _)
            | Offset(chunk, ..)
            | PrimarySpare(chunk, _)
            | PartsSpare(chunk, _)
            | Least(chunk, _)
            | Over(chunk, _) => {
                let place = start(draft, chunk);
                let [number, byte, found, wanted] =
                    self.told_in_chunk(&sound.chunks[chunk], &draft.chunks[chunk]);
                [number, chunk, place + byte, found, wanted]
            }
        }
    }

    /// Number, byte in the chunk, found and wanted of a fault in a chunk.
    fn told_in_chunk(&self, sound: &Chunk, damaged: &Chunk) -> [usize; 4] {
        let n = sound.descriptors.len();
        let offsets = 3 + damaged.primary.len();
        match *self {
            Cut(..) => [4, 0, 0, 0],
            Widths(..) => [5, 0, 0, 0],
            Offset(_, at, value) => {
                let over_previous = at == 0 || damaged.offsets[at - 1] < value;
                let right = over_previous && usize::from(value) < n;
                [6, offsets + at + usize::from(right), 0, 0]
            }
            PrimarySpare(..) => [7, offsets - 1, 0, 0],
            PartsSpare(..) => [7, length(damaged) - 1, 0, 0],
            Least(_, m) => {
                let mut sums =
                    sound.descriptors.iter().map(|&d| usize::from(d - sound.m) + usize::from(m));
                [8, 0, sums.find(|&sum| sum > 63).unwrap_or(0), 63]
            }
            Over(_, values) => [8, 0, values.first_over_63(n), 63],
            _ => [0; 4],
        }
    }
}

/// Where the chunk starts; for one past the last, where the containers start.
fn start(draft: &Draft, chunk: usize) -> usize {
    6 + draft.chunks[..chunk].iter().map(length).sum::<usize>()
}

fn length(chunk: &Chunk) -> usize {
    3 + chunk.primary.len() + chunk.offsets.len() + chunk.parts.len()
}

struct Case {
    base: Base,
    damages: Vec<Damage>,
}

impl Case {
    fn build(&self) -> (Vec<u8>, Told) {
        let sound = self.base.draft();
        let mut draft = self.base.draft();
        self.damages.iter().for_each(|damage| damage.apply(&mut draft));
        let mut bytes = draft.bytes();
        self.damages.iter().for_each(|damage| damage.change_length(&draft, &mut bytes));
        let first = self.damages.iter().min_by_key(|damage| damage.order());
        let told = first.map_or([0; 5], |first| first.told(&sound, &draft, bytes.len()));
        (bytes, told)
    }
}

fn case(base: Base, damages: &[Damage]) -> Case {
    Case { base, damages: damages.to_vec() }
}

/// How many containers, and a chunk of them: the first, a middle and the last one, whole or short.
const PLACES: [(usize, usize); 11] = [
    (1, 0),
    (5, 0),
    (256, 0),
    (601, 0),
    (601, 1),
    (601, 2),
    (257, 1),
    (8191, 31),
    (8192, 0),
    (8192, 15),
    (8192, 31),
];

fn header() -> Vec<Case> {
    let mut cases = Vec::new();
    for length in 0..6 {
        cases.push(case(Base::mixed(5), &[Short(length)]));
        cases.push(case(Base::mixed(5), &[Short(length), Version(0)]));
        cases.push(case(Base::mixed(5), &[Short(length), Count(65_535)]));
    }
    for count in [0, 5] {
        let base = Base::mixed(count);
        cases.extend([0, 2, 3, 129, 255].map(|version| case(base, &[Version(version)])));
        cases.extend([8193, 8194, 8448, 16_384, 65_535].map(|count| case(base, &[Count(count)])));
    }
    cases
}

/// None of the chunk, parts of its three bytes, each array without its last byte or without all.
fn cut() -> Vec<Case> {
    let mut cases = Vec::new();
    for (count, chunk) in PLACES {
        for (b1, b2, e) in [(3, 4, 3), (3, 0, 0), (0, 0, 3)] {
            let base = Base { count, m: 0, b1, b2, e };
            let whole = base.chunk(chunk);
            let (offsets, end) = (3 + whole.primary.len(), length(&whole));
            let parts = offsets + whole.offsets.len();
            let mut kept = vec![end - 1];
            if b2 > 0 {
                kept.extend([0, 1, 2, 3, offsets - 1, offsets, parts - 1, parts]);
            }
            kept.sort_unstable();
            kept.dedup();
            cases.extend(kept.into_iter().map(|kept| case(base, &[Cut(chunk, kept)])));
        }
    }
    cases
}

fn widths() -> Vec<Case> {
    let all = [
        [9, 0, 0],
        [7, 2, 3],
        [8, 0, 1],
        [15, 0, 0],
        [0, 9, 0],
        [1, 8, 3],
        [4, 5, 0],
        [8, 1, 0],
        [8, 8, 0],
        [8, 0, 255],
        [15, 15, 255],
    ];
    let mut cases = Vec::new();
    for (count, chunk) in PLACES {
        let base = Base::mixed(count);
        let some = if count == 5 || chunk == 1 { &all[..] } else { &all[..3] };
        cases.extend(some.iter().map(|&widths| case(base, &[Widths(chunk, widths)])));
    }
    cases
}

/// The last chunk and the containers as far back as they can start: behind chunks of 514 bytes.
fn farthest() -> Vec<Case> {
    let whole = Base::longest();
    let short = Base { count: 8191, ..whole };
    let last = [
        Cut(31, 0),
        Cut(31, 2),
        Cut(31, 513),
        Widths(31, [9, 0, 0]),
        Offset(31, 254, 0),
        PartsSpare(31, 0),
        Least(31, 255),
        Behind(0),
        Behind(262_143),
    ];
    let mut cases: Vec<Case> = last.iter().map(|&damage| case(whole, &[damage])).collect();
    cases.push(case(short, &[PrimarySpare(31, 0)]));
    cases
}

/// The first, second and last offset not below n, or not over the one before it.
fn offsets() -> Vec<Case> {
    let mut cases = Vec::new();
    for (count, chunk) in PLACES {
        for e in [1, 2, 3, 255] {
            let base = Base { e, ..Base::mixed(count) };
            if e <= base.n(chunk) && (e != 2 || count < 300) {
                let wrong = wrong_offsets(&base.offsets(base.n(chunk)), base.n(chunk));
                let damage = |(at, value)| case(base, &[Offset(chunk, at, value)]);
                cases.extend(wrong.into_iter().map(damage));
            }
        }
    }
    cases
}

/// Places of an offset, and values that are wrong there or make the next one wrong.
fn wrong_offsets(offsets: &[u8], n: usize) -> Vec<(usize, u8)> {
    let last = offsets.len() - 1;
    let mut wrong = vec![(0, n), (0, 255), (last, n), (last, 255), (last, 0)];
    for at in [1, last] {
        if (1..=last).contains(&at) {
            let before = usize::from(offsets[at - 1]);
            wrong.extend([(at, before), (at, before.saturating_sub(1))]);
            wrong.push((at - 1, usize::from(offsets[at])));
        }
    }
    wrong.retain(|&(at, value)| {
        let falls = at > 0 && value <= usize::from(offsets[at - 1]);
        let next_falls = at < last && value >= usize::from(offsets[at + 1]);
        value < 256 && (value >= n || falls || next_falls)
    });
    wrong.sort_unstable();
    wrong.dedup();
    wrong.into_iter().map(|(at, value)| (at, value as u8)).collect()
}

/// The lowest and the highest spare bit of so many bits packed.
fn spare_bits(used: usize) -> Vec<usize> {
    let spare = (8 - used % 8) % 8;
    let mut bits: Vec<usize> = [0, spare].into_iter().filter(|_| spare > 0).collect();
    bits.iter_mut().for_each(|bit| *bit = bit.saturating_sub(1));
    bits.dedup();
    bits
}

/// Each width; a whole chunk's primary array has no spare bits.
fn spare_of_primary() -> Vec<Case> {
    let mut cases = Vec::new();
    for (count, chunk) in [(1, 0), (5, 0), (257, 1), (601, 2), (8191, 31)] {
        for b1 in 1..=7 {
            let base = Base { count, m: 0, b1, b2: 1, e: 1 };
            let bits = spare_bits(base.n(chunk) * b1);
            cases.extend(bits.into_iter().map(|bit| case(base, &[PrimarySpare(chunk, bit)])));
        }
    }
    cases
}

fn spare_of_parts() -> Vec<Case> {
    let places = [(5, 0, 1), (256, 0, 3), (601, 1, 255), (8191, 31, 3), (8192, 31, 1)];
    let mut cases = Vec::new();
    for (count, chunk, e) in places {
        for b2 in 1..=7 {
            let base = Base { count, m: 0, b1: (8 - b2).min(2), b2, e };
            let bits = spare_bits(e * b2);
            cases.extend(bits.into_iter().map(|bit| case(base, &[PartsSpare(chunk, bit)])));
        }
    }
    cases
}

/// The first and the last descriptor over 63, by its primary value and by an exception's part; then
/// m over 63.
fn over_63() -> Vec<Case> {
    let mut cases = Vec::new();
    for (count, chunk) in PLACES {
        let base = Base::mixed(count);
        let all = [(8, 0), (4, 4), (0, 8), (6, 2), (7, 1)];
        for &(b1, b2) in if count == 5 { &all[..] } else { &all[..2] } {
            let one = |m, at, descriptor| {
                let over = [(at, descriptor); 2];
                case(base, &[Over(chunk, Values { m, b1, b2, over })])
            };
            let all = [64usize, 256, 318, 255, 65];
            for &found in if count == 5 { &all[..] } else { &all[..2] } {
                let m = found.saturating_sub(255) as u8;
                cases.extend([one(m, 0, found), one(m, base.n(chunk) - 1, found)]);
            }
            let all = [510, 256, 255, 319, 320, 384];
            let some = if count == 5 { &all[..] } else { &all[..1] };
            cases.extend(some.iter().map(|&found| one(255, 0, found)));
        }
    }
    cases
}

/// Two descriptors over 63; the first of them is told, whichever is larger.
fn two_over_63() -> Vec<Case> {
    let mut cases = Vec::new();
    for (count, chunk) in [(5, 0), (256, 0), (601, 1), (601, 2), (8192, 31)] {
        let base = Base::mixed(count);
        let last = base.n(chunk) - 1;
        for (first, second) in [(0, 1), (0, last), (last - 1, last)] {
            for found in [(64, 300), (300, 64)] {
                for (b1, b2) in [(8, 0), (4, 4)] {
                    let over = [(first, found.0), (second, found.1)];
                    let values = Values { m: 45, b1, b2, over };
                    cases.push(case(base, &[Over(chunk, values)]));
                }
            }
        }
    }
    cases
}

/// Bytes too few and too many: one, 256, 65,536, all.
fn behind() -> Vec<Case> {
    let bases = [
        Base::mixed(0),
        Base::alike(5, 0),
        Base::alike(1, 3),
        Base::mixed(5),
        Base::mixed(601),
        Base::alike(8192, 8),
        Base::alike(2304, 31),
        Base::alike(8192, 32),
    ];
    let mut cases = Vec::new();
    for base in bases {
        let wanted = base.size();
        let mut there = vec![0, 1, wanted + 1, wanted + 256, wanted + 65_536];
        there.extend([1, 256, 65_536].iter().filter_map(|&less| wanted.checked_sub(less)));
        there.sort_unstable();
        there.dedup();
        there.retain(|&there| there != wanted);
        cases.extend(there.into_iter().map(|there| case(base, &[Behind(there)])));
    }
    cases
}

/// Sparse containers that don't rise at the second or the last byte. Container 2,113 of the 2,304
/// of 31 bytes starts at byte 65,536.
fn sparse() -> Vec<Case> {
    let places: [(usize, u8, &[usize]); 9] = [
        (1, 2, &[0]),
        (5, 2, &[0, 2, 4]),
        (257, 2, &[0, 255, 256]),
        (601, 3, &[0, 255, 256, 511, 512, 600]),
        (8192, 2, &[0, 4096, 8191]),
        (1, 31, &[0]),
        (257, 31, &[255, 256]),
        (2304, 31, &[2112, 2113, 2114, 2303]),
        (8192, 31, &[0, 4444, 8191]),
    ];
    let mut cases = Vec::new();
    for (count, size, containers) in places {
        for &container in containers {
            let mut bytes = vec![1, usize::from(size) - 1];
            bytes.dedup();
            bytes.truncate(if count < 2304 { 2 } else { 1 });
            let base = Base::alike(count, size);
            for at in bytes {
                cases.extend([0, 1].map(|less| case(base, &[Falls(container, at, less)])));
            }
        }
    }
    cases
}

/// Dense containers with too few members. The last container of the longest bitmap starts at byte
/// 278,566, the greatest start there is.
fn thin() -> Vec<Case> {
    let places: [(Base, &[usize]); 6] = [
        (Base::alike(1, 32), &[0]),
        (Base::alike(5, 63), &[0, 2, 4]),
        (Base::alike(257, 47), &[0, 255, 256]),
        (Base { count: 601, m: 0, b1: 5, b2: 3, e: 3 }, &[84, 511, 600]),
        (Base::alike(8192, 32), &[0, 2044, 2045, 8191]),
        (Base::longest(), &[0, 1533, 1534, 8191]),
    ];
    let mut cases = Vec::new();
    for (base, containers) in places {
        for &container in containers {
            cases.push(case(base, &[Thin(container, 31)]));
        }
        cases.push(case(base, &[Thin(containers[0], 0)]));
    }
    cases
}

fn cardinality() -> Vec<Case> {
    let bases = [
        Base::mixed(0),
        Base::alike(8192, 0),
        Base::alike(1, 1),
        Base::alike(1, 32),
        Base::mixed(601),
        Base::alike(8192, 8),
        Base::alike(8192, 32),
    ];
    let mut cases = Vec::new();
    for base in bases {
        let counted = base.draft().cardinality as usize;
        let mut stored = vec![counted + 1, 0, 16_777_215];
        stored.extend(counted.checked_sub(1));
        stored.extend([256, 65_536, 8_388_608].map(|bit| counted ^ bit));
        stored.sort_unstable();
        stored.dedup();
        stored.retain(|&stored| stored != counted);
        cases.extend(stored.into_iter().map(|stored| case(base, &[Cardinality(stored)])));
    }
    cases
}

/// The bitmap of the pairs: two whole chunks and one of 89.
const PAIRED: Base = Base { count: 601, m: 0, b1: 3, b2: 4, e: 3 };
const WIDTHS: [u8; 3] = [3, 8, 3];
const STORED: usize = 255 * 65_536 + 7;

/// A fault of each rule in this chunk that leaves the chunks behind it.
fn in_chunk(chunk: usize) -> Vec<Damage> {
    let mut damages =
        vec![Widths(chunk, WIDTHS), Offset(chunk, 1, 0), PartsSpare(chunk, 0), Least(chunk, 64)];
    if chunk == 2 {
        damages.push(PrimarySpare(chunk, 0));
    }
    damages
}

fn cut_chunk(chunk: usize) -> [Damage; 2] {
    [Cut(chunk, 2), Cut(chunk, length(&PAIRED.chunk(chunk)) - 1)]
}

fn behind_chunks() -> [Damage; 5] {
    let size = PAIRED.size();
    [Behind(0), Behind(size + 1), Falls(2, 1, 0), Falls(600, 1, 1), Cardinality(STORED)]
}

fn pairs_with_header() -> Vec<Case> {
    let mut later: Vec<Damage> = [0, 2].into_iter().flat_map(in_chunk).collect();
    later.extend(cut_chunk(0));
    later.extend(behind_chunks());
    let mut cases = vec![case(PAIRED, &[Version(2), Count(8193)])];
    for damage in later {
        cases.push(case(PAIRED, &[Version(2), damage]));
        cases.push(case(PAIRED, &[Count(8193), damage]));
    }
    cases
}

/// A fault in an earlier chunk and one in a later chunk.
fn pairs_of_chunks() -> Vec<Case> {
    let mut cases = Vec::new();
    for (first, second) in [(0, 1), (0, 2), (1, 2)] {
        for earlier in in_chunk(first) {
            let later = in_chunk(second).into_iter().chain(cut_chunk(second));
            cases.extend(later.map(|later| case(PAIRED, &[later, earlier])));
        }
    }
    cases
}

/// Two faults in one chunk.
fn pairs_in_a_chunk() -> Vec<Case> {
    let mut cases = Vec::new();
    for chunk in 0..3 {
        let damages = in_chunk(chunk);
        for (i, &first) in damages.iter().enumerate() {
            cases.extend(damages[i + 1..].iter().map(|&second| case(PAIRED, &[second, first])));
        }
        let [_, cut] = cut_chunk(chunk);
        for kept in 1..=3 {
            cases.push(case(PAIRED, &[Cut(chunk, kept), Widths(chunk, WIDTHS)]));
        }
        cases.push(case(PAIRED, &[cut, Widths(chunk, WIDTHS)]));
        cases.push(case(PAIRED, &[cut, Offset(chunk, 1, 0)]));
        cases.push(case(PAIRED, &[cut, Least(chunk, 64)]));
        cases.push(case(PAIRED, &[Cut(chunk, 3), Least(chunk, 64)]));
        cases.push(case(PAIRED, &[Offset(chunk, 2, 0), Offset(chunk, 1, 0)]));
    }
    cases.push(case(PAIRED, &[Cut(2, 40), PrimarySpare(2, 0)]));
    cases.push(case(PAIRED, &[Cut(2, 40), Offset(2, 0, 89)]));
    for offsets in [[(0, 89), (1, 28)], [(0, 89), (2, 0)], [(1, 0), (2, 89)], [(1, 89), (2, 0)]] {
        cases.push(case(PAIRED, &offsets.map(|(at, value)| Offset(2, at, value))));
    }
    cases
}

/// Faults of the containers with each other and with those of a chunk.
fn pairs_with_containers() -> Vec<Case> {
    let mut cases = Vec::new();
    for chunk in 0..3 {
        for earlier in in_chunk(chunk) {
            cases.extend(behind_chunks().map(|later| case(PAIRED, &[later, earlier])));
        }
        cases.extend(cut_chunk(chunk).map(|cut| case(PAIRED, &[Cardinality(STORED), cut])));
    }
    for there in [0, 1, PAIRED.size() - 1, PAIRED.size() + 1] {
        let later = [Falls(2, 1, 0), Falls(598, 1, 0), Cardinality(STORED)];
        cases.extend(later.map(|later| case(PAIRED, &[later, Behind(there)])));
    }
    let mixed = Base { b1: 5, b2: 3, ..PAIRED };
    let containers = [
        (PAIRED, [Falls(2, 1, 0), Falls(5, 1, 0)]),
        (PAIRED, [Falls(255, 7, 0), Falls(258, 1, 0)]),
        (PAIRED, [Falls(2, 1, 0), Falls(600, 1, 0)]),
        (mixed, [Falls(2, 1, 0), Thin(84, 31)]),
        (mixed, [Thin(84, 31), Falls(86, 1, 0)]),
        (mixed, [Thin(84, 31), Thin(255, 0)]),
        (Base::alike(8192, 2), [Falls(0, 1, 0), Falls(8191, 1, 0)]),
        (Base::alike(8192, 2), [Falls(8190, 1, 0), Falls(8191, 1, 0)]),
    ];
    for (base, [first, second]) in containers {
        cases.push(case(base, &[second, first]));
        cases.push(case(base, &[Cardinality(STORED), first]));
        cases.push(case(base, &[second, Cardinality(STORED)]));
    }
    cases
}

#[cfg(test)]
mod tests {
    use super::*;
    use crate::reference::bitmap::explain::explain;
    use std::collections::BTreeSet;

    /// The number of this fault alone, which is told as it is built.
    fn alone(base: Base, damage: Damage) -> usize {
        let (bytes, told) = case(base, &[damage]).build();
        let fault = explain(&bytes).unwrap();
        assert_eq!([fault.number as usize, fault.index, fault.byte], told[..3]);
        assert_eq!([fault.found, fault.wanted], told[3..]);
        told[0]
    }

    #[test]
    fn every_two_rules_that_can_be_broken_at_once() {
        let mut pairs = BTreeSet::new();
        for case in cases() {
            if let [first, second] = case.damages[..] {
                let numbers = [alone(case.base, first), alone(case.base, second)];
                pairs.insert((numbers[0].min(numbers[1]), numbers[0].max(numbers[1])));
            }
        }
        for first in 1..=11 {
            for second in first..=11 {
                let apart = match first {
                    1 => second > 3,
                    4 => [4, 9, 10].contains(&second),
                    _ => false,
                };
                let once = first == second && [1, 2, 3, 9, 11].contains(&first);
                let both = pairs.contains(&(first, second));
                assert_eq!(both, !apart && !once, "{first} and {second}");
            }
        }
    }
}
