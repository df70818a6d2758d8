//! Sets of positions, bitmaps of every shape, and bitmaps damaged towards each refusal.

use super::{damage_bytes, Random};
use packing::{edge_set, packed_by, Width, LENGTHS};

pub mod faults;
pub mod packing;

const POSITIONS: usize = 2_097_152;
const CHUNK: usize = 256;

/// How many containers: mostly few, at times around a chunk's end, rarely all.
fn container_count(random: &mut Random) -> usize {
    match random.below(1000) {
        0..=1 => 31 * CHUNK + random.pick(&LENGTHS),
        2..=3 => random.between(1500, 8192),
        4..=13 => random.between(263, 1500),
        14..=63 => random.pick(&[0, 1, 1, 2]) * CHUNK + random.pick(&LENGTHS),
        64..=78 => random.between(1, 3) * CHUNK,
        79..=93 => random.between(250, 262),
        94..=250 => random.pick(&[1, 2, 8, 9, 16, 17]),
        251..=400 => random.between(1, 2),
        401..=850 => random.between(2, 12),
        _ => random.between(13, 60),
    }
}

/// How full the containers of one set are.
#[derive(Clone, Copy)]
enum Density {
    MostlyEmpty,
    Few,
    Sparse,
    Boundary,
    Dense,
    Full,
    Mixed,
    /// Around one size, with a spread and with a share of wide exceptions.
    Around(usize, usize, usize),
}

fn density(random: &mut Random) -> Density {
    match random.below(9) {
        0 => Density::MostlyEmpty,
        1 => Density::Few,
        2 => Density::Sparse,
        3 => Density::Boundary,
        4 => Density::Dense,
        5 if random.once_in(3) => Density::Full,
        5 | 6 => Density::Mixed,
        _ => {
            let spread = 1 << random.below(6);
            Density::Around(random.below(32), spread, random.between(2, 40))
        }
    }
}

fn member_count(random: &mut Random, density: Density) -> usize {
    match density {
        Density::MostlyEmpty if random.once_in(20) => random.between(1, 40),
        Density::MostlyEmpty => 0,
        Density::Few => random.below(5),
        Density::Sparse => random.below(32),
        Density::Boundary => random.between(30, 33),
        Density::Dense => random.between(32, 256),
        Density::Full => 256,
        Density::Mixed => match random.below(6) {
            0 => 0,
            1 => 256,
            2 => random.between(30, 33),
            3 => random.between(32, 256),
            _ => random.below(32),
        },
        Density::Around(size, spread, rare) => {
            if random.once_in(rare) {
                random.below(60)
            } else {
                size + random.below(spread)
            }
        }
    }
}

/// Appends `count` positions of the container that starts at `base`.
fn push_members(random: &mut Random, base: u32, count: usize, set: &mut Vec<u32>) {
    if random.once_in(4) {
        let start = random.below(257 - count) as u32;
        set.extend((0..count as u32).map(|i| base + start + i));
        return;
    }
    let kept = if count > 128 { 256 - count } else { count };
    let mut chosen = [false; 256];
    let mut left = kept;
    while left > 0 {
        let low = random.below(256);
        if !chosen[low] {
            chosen[low] = true;
            left -= 1;
        }
    }
    let members = (0..256).filter(|&low| chosen[low as usize] == (count <= 128));
    set.extend(members.map(|low| base + low));
}

/// A set of every shape: empty, one member, scattered, runs, by containers, full.
pub fn set(random: &mut Random) -> Vec<u32> {
    match random.below(4000) {
        0 => (0..POSITIONS as u32).collect(),
        1..=120 => Vec::new(),
        121..=300 => vec![random.pick(&[0, 255, 256, 65_535, 65_536, 2_097_151])],
        301..=400 => scattered(random),
        401..=440 => run(random),
        441..=540 => packing::near_tie(random),
        _ => by_containers(random),
    }
}

fn scattered(random: &mut Random) -> Vec<u32> {
    let count = 1 << random.below(11);
    let bound = random.pick(&[300, 70_000, POSITIONS]);
    let mut set: Vec<u32> = (0..count).map(|_| random.below(bound) as u32).collect();
    set.sort_unstable();
    set.dedup();
    set
}

fn run(random: &mut Random) -> Vec<u32> {
    let start = random.below(POSITIONS);
    let length = random.below((POSITIONS - start).min(20_000)) + 1;
    (start as u32..(start + length) as u32).collect()
}

/// A set of some containers, of which the last one is mostly not empty.
fn by_containers(random: &mut Random) -> Vec<u32> {
    let mut set = Vec::new();
    let mut density = self::density(random);
    let containers = container_count(random);
    let last = if random.once_in(3) { None } else { Some(containers - 1) };
    for k in 0..containers {
        if k % CHUNK == 0 && random.once_in(2) {
            density = self::density(random);
        }
        let least = usize::from(Some(k) == last);
        let count = member_count(random, density).clamp(least, 256);
        push_members(random, (k * 256) as u32, count, &mut set);
    }
    set
}

/// A set near another one: parts of it dropped, others added.
pub fn related_set(random: &mut Random, other: &[u32]) -> Vec<u32> {
    let last = other.last().map_or(1000, |&last| last as usize + 1);
    let drop = random.pick(&[1, 2, 8, 1000]);
    let from = random.below(last) as u32;
    let mut set: Vec<u32> = other
        .iter()
        .copied()
        .filter(|&position| position < from || !random.once_in(drop))
        .collect();
    for _ in 0..random.pick(&[0, 1, 40]) {
        set.push(random.below((last + 300).min(POSITIONS)) as u32);
    }
    set.sort_unstable();
    set.dedup();
    set
}

/// One chunk of descriptors, section by section.
struct Chunk {
    descriptors: Vec<u8>,
    b1: u8,
    b2: u8,
    e: u8,
    m: u8,
    primary: Vec<u8>,
    offsets: Vec<u8>,
    parts: Vec<u8>,
}

impl Chunk {
    fn append(&self, out: &mut Vec<u8>) {
        out.extend_from_slice(&[self.b1 | self.b2 << 4, self.e, self.m]);
        out.extend_from_slice(&self.primary);
        out.extend_from_slice(&self.offsets);
        out.extend_from_slice(&self.parts);
    }
}

/// Packs numbers of `width` bits, first one in the highest bits.
fn pack_high_first(values: &[u32], width: usize) -> Vec<u8> {
    let mut out = vec![0; (values.len() * width).div_ceil(8)];
    for (i, &value) in values.iter().enumerate() {
        for bit in 0..width {
            if value >> (width - 1 - bit) & 1 == 1 {
                let place = i * width + bit;
                out[place / 8] |= 0x80 >> (place % 8);
            }
        }
    }
    out
}

fn bit_width(value: u32) -> usize {
    32 - value.leading_zeros() as usize
}

/// A sound chunk of these descriptors in any of its shapes.
fn any_chunk(random: &mut Random, descriptors: &[u8]) -> Chunk {
    let least = descriptors.iter().copied().min().unwrap_or(0);
    let m = if random.once_in(3) { random.below(usize::from(least) + 1) as u8 } else { least };
    let values: Vec<u32> = descriptors.iter().map(|&d| u32::from(d - m)).collect();
    let widest = bit_width(values.iter().copied().max().unwrap_or(0));
    let mut b1 = random.below(9);
    if values.iter().filter(|&&value| value >> b1 != 0).count() > 255 {
        b1 = widest;
    }
    let useless = if b1 == 8 { 0 } else { random.pick(&[0, 0, 3, 40]) };
    let mut budget = 255 - values.iter().filter(|&&value| value >> b1 != 0).count();
    let mut offsets = Vec::new();
    for (i, &value) in values.iter().enumerate() {
        if value >> b1 != 0 {
            offsets.push(i as u8);
        } else if useless > 0 && budget > 0 && random.once_in(useless) {
            offsets.push(i as u8);
            budget -= 1;
        }
    }
    let wanted = if random.once_in(2) { 0 } else { random.below(9) };
    chunk_of(descriptors, m, b1, offsets, wanted)
}

/// The chunk of these descriptors with this m, this b1 and exceptions at these offsets. b2 is the wanted
/// one, within what the exceptions need and what b1 leaves.
fn chunk_of(descriptors: &[u8], m: u8, b1: usize, offsets: Vec<u8>, wanted: usize) -> Chunk {
    let values: Vec<u32> = descriptors.iter().map(|&d| u32::from(d - m)).collect();
    let largest = offsets.iter().map(|&o| values[usize::from(o)] >> b1).max();
    let needed = bit_width(largest.unwrap_or(0));
    pack_chunk(&values, m, b1, needed.max(wanted.min(8 - b1)), offsets)
}

/// The chunk of these descriptors, given less m, with these widths and exceptions.
fn pack_chunk(values: &[u32], m: u8, b1: usize, b2: usize, offsets: Vec<u8>) -> Chunk {
    let parts: Vec<u32> = offsets.iter().map(|&o| values[usize::from(o)] >> b1).collect();
    let low: Vec<u32> = values.iter().map(|&value| value & ((1 << b1) - 1)).collect();
    Chunk {
        descriptors: values.iter().map(|&value| (value + u32::from(m)) as u8).collect(),
        b1: b1 as u8,
        b2: b2 as u8,
        e: offsets.len() as u8,
        m,
        primary: pack_high_first(&low, b1),
        parts: pack_high_first(&parts, b2),
        offsets,
    }
}

/// A bitmap part by part, before damage.
struct Draft {
    version: u8,
    cardinality: u32,
    count: u16,
    chunks: Vec<Chunk>,
    containers: Vec<Vec<u8>>,
}

impl Draft {
    /// A sound bitmap of the set in any of its shapes.
    fn of(random: &mut Random, set: &[u32]) -> Draft {
        let mut count = used_containers(set);
        if random.once_in(4) {
            count += random.pick(&[1, 2, 5, 256, 300]);
        } else if random.once_in(200) {
            count = 8192;
        }
        let containers = containers(set, count.min(8192));
        let mut descriptors: Vec<u8> = containers.iter().map(|c| c.len() as u8).collect();
        for descriptor in &mut descriptors {
            if *descriptor == 32 && random.once_in(3) {
                *descriptor += random.below(32) as u8;
            }
        }
        let chunks = descriptors.chunks(CHUNK).map(|chunk| any_chunk(random, chunk)).collect();
        Draft::with(set, containers, chunks)
    }

    fn with(set: &[u32], containers: Vec<Vec<u8>>, chunks: Vec<Chunk>) -> Draft {
        Draft {
            version: 1,
            cardinality: set.len() as u32,
            count: containers.len() as u16,
            chunks,
            containers,
        }
    }

    fn descriptor_bytes(&self) -> Vec<u8> {
        let mut out = vec![self.version];
        out.extend_from_slice(&self.cardinality.to_le_bytes()[..3]);
        out.extend_from_slice(&self.count.to_le_bytes());
        for chunk in &self.chunks {
            chunk.append(&mut out);
        }
        out
    }

    fn bytes(&self) -> Vec<u8> {
        let mut out = self.descriptor_bytes();
        for container in &self.containers {
            out.extend_from_slice(container);
        }
        out
    }
}

/// How many containers the one written form of the set has.
pub fn used_containers(set: &[u32]) -> usize {
    set.last().map_or(0, |&last| (last >> 8) as usize + 1)
}

/// The bytes of each container.
fn containers(set: &[u32], count: usize) -> Vec<Vec<u8>> {
    let mut containers = vec![Vec::new(); count];
    for &position in set {
        containers[(position >> 8) as usize].push(position as u8);
    }
    for container in containers.iter_mut().filter(|container| container.len() >= 32) {
        *container = dense(container);
    }
    containers
}

fn dense(members: &[u8]) -> Vec<u8> {
    let mut bits = vec![0; 32];
    for &member in members {
        bits[usize::from(member / 8)] |= 0x80 >> (member % 8);
    }
    bits
}

/// A sound bitmap of the set: in the one written form, as the cost of a whole chunk packs it, or, mostly,
/// in any of its shapes.
pub fn sound(random: &mut Random, set: &[u32]) -> Vec<u8> {
    match random.below(8) {
        0 => packed_by(set, Width::cost),
        1 => packed_by(set, Width::whole_chunk_cost),
        _ => Draft::of(random, set).bytes(),
    }
}

/// A bitmap of the set, damaged once or twice, mostly towards a certain refusal.
pub fn damaged(random: &mut Random, set: &[u32]) -> Vec<u8> {
    let mut draft = Draft::of(random, set);
    let mut faults = if random.once_in(4) { 2 } else { 1 };
    let mut bytes = None;
    while faults > 0 {
        faults -= 1;
        match random.below(12) {
            1 => return draft.bytes()[..random.below(6)].to_vec(),
            2 => draft.version = random.pick(&[0, 2, 3, 129, 255]),
            3 => draft.count = random.between(8193, 65_535) as u16,
            4 => bytes = Some(cut_descriptors(random, &mut draft)),
            5 => break_widths(random, &mut draft),
            6 => break_offsets(random, &mut draft),
            7 => set_spare_bits(random, &mut draft),
            8 => raise_descriptor(random, &mut draft),
            9 => bytes = Some(change_length(random, &draft)),
            10 => break_container(random, &mut draft),
            11 => change_cardinality(random, &mut draft),
            _ => {
                let mut whole = bytes.unwrap_or_else(|| draft.bytes());
                damage_bytes(random, &mut whole);
                return whole;
            }
        }
    }
    bytes.unwrap_or_else(|| draft.bytes())
}

fn some_chunk<'a>(random: &mut Random, draft: &'a mut Draft) -> Option<&'a mut Chunk> {
    let count = draft.chunks.len();
    if count == 0 {
        return None;
    }
    draft.chunks.get_mut(random.below(count))
}

fn cut_descriptors(random: &mut Random, draft: &mut Draft) -> Vec<u8> {
    if random.once_in(2) {
        draft.count = draft.count.saturating_add(random.pick(&[1, 255, 256, 512])).min(8192);
        return draft.bytes();
    }
    let mut bytes = draft.descriptor_bytes();
    let cut = random.between(6, bytes.len().max(7) - 1);
    bytes.truncate(cut);
    bytes
}

fn break_widths(random: &mut Random, draft: &mut Draft) {
    let choice = random.below(4);
    let (b1, more) = (random.between(9, 15) as u8, random.byte());
    let Some(chunk) = some_chunk(random, draft) else { return };
    match choice {
        0 => chunk.b1 = b1,
        1 => chunk.b2 = (9 - chunk.b1.min(8) + more % 4).min(15),
        2 => (chunk.b1, chunk.b2, chunk.e) = (8, 0, more.max(1)),
        _ => (chunk.b1, chunk.b2) = (8, more % 15 + 1),
    }
}

fn break_offsets(random: &mut Random, draft: &mut Draft) {
    let choice = random.below(3);
    let (number, any) = (random.between(1, 3), random.bytes(3));
    let swap = random.byte();
    let Some(chunk) = some_chunk(random, draft) else { return };
    if chunk.offsets.len() < 2 || choice == 0 {
        chunk.offsets = any[..number].to_vec();
        chunk.e = number as u8;
        chunk.parts = vec![0; (number * usize::from(chunk.b2)).div_ceil(8)];
        return;
    }
    let at = usize::from(swap) % (chunk.offsets.len() - 1);
    match choice {
        1 => chunk.offsets[at + 1] = chunk.offsets[at],
        _ if chunk.descriptors.len() < 256 => {
            *chunk.offsets.last_mut().unwrap() = chunk.descriptors.len() as u8
        }
        _ => chunk.offsets.swap(at, at + 1),
    }
}

fn set_spare_bits(random: &mut Random, draft: &mut Draft) {
    let bit = random.below(8);
    let in_parts = random.once_in(2);
    let Some(chunk) = some_chunk(random, draft) else { return };
    let primary = (chunk.descriptors.len() * usize::from(chunk.b1), &mut chunk.primary);
    let parts = (usize::from(chunk.e) * usize::from(chunk.b2), &mut chunk.parts);
    let choices = if in_parts { [parts, primary] } else { [primary, parts] };
    for (used, array) in choices {
        let spare = (8 - used % 8) % 8;
        if let (1.., Some(last)) = (spare, array.last_mut()) {
            *last |= 1 << (bit % spare);
            return;
        }
    }
}

/// Makes a descriptor too large, also one that would wrap to a sound byte.
fn raise_descriptor(random: &mut Random, draft: &mut Draft) {
    let choice = random.below(3);
    let (more, at) = (random.between(1, 192), random.byte());
    let Some(chunk) = some_chunk(random, draft) else { return };
    if choice == 0 {
        chunk.m = chunk.m.saturating_add(more as u8);
        return;
    }
    let mut values: Vec<u32> = chunk.descriptors.iter().map(|&d| u32::from(d)).collect();
    let mut start = 0;
    if choice == 1 {
        start = 256 - more;
        values.iter_mut().for_each(|value| *value += more as u32);
    } else {
        let at = usize::from(at) % values.len();
        values[at] = if more.is_multiple_of(2) { 64 } else { 63 + more as u32 };
    }
    (chunk.b1, chunk.b2, chunk.e, chunk.m) = (8, 0, 0, start as u8);
    chunk.primary = pack_high_first(&values, 8);
    (chunk.offsets, chunk.parts) = (Vec::new(), Vec::new());
}

fn change_length(random: &mut Random, draft: &Draft) -> Vec<u8> {
    let mut bytes = draft.bytes();
    let heads = draft.descriptor_bytes().len();
    if random.once_in(2) && bytes.len() > heads {
        bytes.truncate(random.between(heads, bytes.len() - 1));
    } else {
        let more = random.pick(&[1, 1, 2, 32, 256]);
        let tail = random.bytes(more);
        bytes.extend(tail);
    }
    bytes
}

fn break_container(random: &mut Random, draft: &mut Draft) {
    let start = random.below(draft.containers.len().max(1));
    let (at, swap) = (random.byte(), random.once_in(2));
    let (before, after) = draft.containers.split_at_mut(start);
    let Some(container) = after.iter_mut().chain(before).find(|c| c.len() > 1) else { return };
    if container.len() == 32 {
        container.fill(0);
        container[4..8].fill(at);
        container[31] = 0x7F;
        return;
    }
    let at = usize::from(at) % (container.len() - 1);
    if swap {
        container.swap(at, at + 1);
    } else {
        container[at + 1] = container[at];
    }
}

fn change_cardinality(random: &mut Random, draft: &mut Draft) {
    draft.cardinality = match random.below(4) {
        0 => draft.cardinality.wrapping_add(1),
        1 => draft.cardinality.wrapping_sub(1),
        2 => draft.cardinality ^ 1 << random.below(24),
        _ => random.word() as u32,
    };
}

/// A list that is no strictly rising list of positions, or may not be.
pub fn damaged_list(random: &mut Random, mut list: Vec<u32>) -> Vec<u32> {
    let at = random.below(list.len().max(1));
    let length = list.len();
    match random.below(5) {
        0 => list.push(random.pick(&[2_097_152, 2_097_153, 16_777_216, u32::MAX])),
        1 if !list.is_empty() => list.insert(at, list[at]),
        2 if list.len() > 1 => list.swap(at, (at + 1) % length),
        3 if !list.is_empty() => list[at] = random.word() as u32,
        _ => list.insert(at, random.pick(&[0, 2_097_152])),
    }
    list
}

/// Bitmaps at the largest sizes, and one past them; then dense containers counted to the bit, faults at
/// chosen places, descriptors and containers that the library judges in ways of their own, and sets
/// packed by the cost of a whole chunk.
pub fn edge(number: u64) -> Option<Vec<u8>> {
    let number = number as usize;
    match number {
        0 => Some(longest()),
        1 => Some(empty_containers(8192)),
        2 => Some(empty_containers(8193)),
        3 => Some(full_bitmap([0x00, 0, 32], &[])),
        4..=792 => counted(number - 4).map(|members| one_dense(&members)),
        _ => match faults::fault(number - 793) {
            Some((bytes, _)) => Some(bytes),
            None => later_edge(number - 793 - faults::count()),
        },
    }
}

fn later_edge(number: usize) -> Option<Vec<u8>> {
    match number {
        0..=3071 => Some(alike(number)),
        3072..=3079 => Some(near_256(number - 3072)),
        3080..=5057 => not_rising(number - 3080).map(|containers| sparse_bitmap(&containers)),
        _ => edge_set(number - 5058).map(|set| packed_by(&set, Width::whole_chunk_cost)),
    }
}

/// A bitmap of 255 to 258 containers of two members; at odd numbers the last one does not rise.
fn near_256(number: usize) -> Vec<u8> {
    let mut containers = vec![vec![8, 200]; 255 + number / 2];
    if number % 2 == 1 {
        containers.last_mut().expect("some containers")[1] = 8;
    }
    sparse_bitmap(&containers)
}

/// A bitmap of 1 to 12 containers whose descriptors are alike, 0 to 255: its chunk has no bits.
fn alike(number: usize) -> Vec<u8> {
    let (count, descriptor) = (1 + number % 12, (number / 12) as u8);
    let (container, members) = match descriptor {
        0..=31 => ((0..descriptor).map(|low| low * 8 + 3).collect(), descriptor as usize),
        32..=63 => (vec![255; 32], 256),
        _ => (vec![], 0),
    };
    let members = count * members;
    let mut out = vec![1, (members % 256) as u8, (members / 256) as u8, 0, count as u8, 0];
    out.extend_from_slice(&[0, 0, descriptor]);
    out.extend(container.repeat(count));
    out
}

/// Sparse containers of which one byte is the byte before it, or one less: each byte in turn, the first
/// ones of containers too. Then few members, of which two are side by side: rising, equal, falling.
fn not_rising(number: usize) -> Option<Vec<Vec<u8>>> {
    let sizes = [31, 0, 1, 2, 30, 0, 0, 7, 16].repeat(10);
    let mut containers: Vec<Vec<u8>> =
        sizes.iter().map(|&size| (0..size).map(|low| low * 8 + 3).collect()).collect();
    let places: Vec<(usize, usize)> = (0..containers.len())
        .flat_map(|container| (0..containers[container].len()).map(move |low| (container, low)))
        .collect();
    let (place, less) = (1 + number / 2, (number % 2) as u8);
    if place < places.len() {
        let (before, (container, low)) = (places[place - 1], places[place]);
        containers[container][low] = containers[before.0][before.1] - less;
        return Some(containers);
    }
    let number = number - 2 * (places.len() - 1);
    let (container, pair) = (number / 3, [[5, 9], [9, 9], [9, 5]][number % 3]);
    let mut thin = vec![vec![]; 80];
    (container < 80).then(|| {
        thin[79 - container / 2] = vec![7];
        thin[container] = pair.to_vec();
        thin
    })
}

/// A bitmap of sparse containers of these bytes; its descriptors take eight bits each.
fn sparse_bitmap(containers: &[Vec<u8>]) -> Vec<u8> {
    let members: usize = containers.iter().map(Vec::len).sum();
    let count = containers.len();
    let mut out = vec![1, (members % 256) as u8, (members / 256) as u8, 0];
    out.extend_from_slice(&[(count % 256) as u8, (count / 256) as u8]);
    for chunk in containers.chunks(256) {
        out.extend_from_slice(&[8, 0, 0]);
        out.extend(chunk.iter().map(|container| container.len() as u8));
    }
    out.extend(containers.concat());
    out
}

/// Members of a container, chosen so that a count of them that misses a bit, a byte, a word or half of
/// one is seen: 32 from each place on, the last 31 of these, all but each place; a bit of each byte, and
/// of all bytes but the last; a whole word, all.
fn counted(number: usize) -> Option<Vec<u8>> {
    let place = (number % 256) as u8;
    let behind = (1..32).map(|step| place.wrapping_add(step));
    let each_byte = |bit: u8, bytes: u8| (0..bytes).map(|byte| byte * 8 + bit).collect();
    match (number / 256, place) {
        (0, _) => Some(behind.chain([place]).collect()),
        (1, _) => Some(behind.collect()),
        (2, _) => Some((0..=255).filter(|&low| low != place).collect()),
        (3, bit @ 0..=7) => Some(each_byte(bit, 32)),
        (3, bit @ 8..=15) => Some(each_byte(bit - 8, 31)),
        (3, word @ 16..=19) => Some((0..64).map(|low| (word - 16) * 64 + low).collect()),
        (3, 20) => Some((0..=255).collect()),
        _ => None,
    }
}

/// A bitmap of one dense container, also where it has too few members.
fn one_dense(members: &[u8]) -> Vec<u8> {
    let mut out = vec![1, (members.len() % 256) as u8, (members.len() / 256) as u8, 0, 1, 0];
    out.extend_from_slice(&[0, 0, 32]);
    out.extend(dense(members));
    out
}

/// Two bitmaps of `count` containers each: 20 members in every container, none in both; or of 300
/// containers with `bytes` bytes between them.
fn sized_pair(count: usize, bytes: usize) -> (Vec<u8>, Vec<u8>) {
    let rising = |size: usize, odd: u8| (0..size as u8).map(|low| low * 2 + odd).collect();
    if bytes == 0 {
        let all = |odd: u8| sparse_bitmap(&vec![rising(20, odd); count]);
        return (all(0), all(1));
    }
    let (half, more) = (bytes / 600, bytes % 600);
    let part = |first: usize, odd: u8| {
        let size = |container| half + usize::from(first + container < more);
        sparse_bitmap(&(0..300).map(|container| rising(size(container), odd)).collect::<Vec<_>>())
    };
    (part(0, 0), part(300, 1))
}

/// Pairs of bitmaps at the largest sizes; then containers of the 32 members from each place on, against
/// all places and against all but that one: 32 and 31 members are in both. Then pairs at the sizes where
/// the library goes another way: 32 containers, 256, 8,160 bytes. Then sets packed by both costs.
pub fn edge_pair(number: u64) -> Option<(Vec<u8>, Vec<u8>)> {
    let full = || full_bitmap([0x00, 0, 32], &[]);
    let counted_pair =
        |first, second| Some((one_dense(&counted(first)?), one_dense(&counted(second)?)));
    match number {
        0 => Some((longest(), full())),
        1 => Some((longest(), empty_containers(8192))),
        2 => Some((empty_containers(8192), full())),
        3 => Some((empty_containers(8192), empty_containers(8192))),
        4 => Some((full(), empty_containers(8193))),
        5..=260 => counted_pair(number as usize - 5, 3 * 256 + 20),
        261..=516 => counted_pair(number as usize - 261, number as usize - 261 + 2 * 256),
        517..=519 => Some(sized_pair(number as usize - 517 + 31, 0)),
        520..=522 => Some(sized_pair(number as usize - 520 + 255, 0)),
        523..=527 => Some(sized_pair(300, number as usize - 523 + 8158)),
        _ => packed_pair(number as usize - 528),
    }
}

/// A set packed by the cost of a whole chunk: with itself, with its form, in both orders, and with the
/// form of every third of its members.
fn packed_pair(number: usize) -> Option<(Vec<u8>, Vec<u8>)> {
    let set = edge_set(number / 4)?;
    let longer = packed_by(&set, Width::whole_chunk_cost);
    let form = |set: &[u32]| packed_by(set, Width::cost);
    Some(match number % 4 {
        0 => (longer.clone(), longer),
        1 => (longer, form(&set)),
        2 => (form(&set), longer),
        _ => (longer, form(&set.into_iter().skip(2).step_by(3).collect::<Vec<_>>())),
    })
}

/// Sets at the largest sizes, and one past them; then last chunks of chosen lengths.
pub fn edge_list(number: u64) -> Option<Vec<u32>> {
    let positions = 0..POSITIONS as u32;
    match number {
        0 => Some(positions.collect()),
        1 => Some(positions.filter(|p| (p >> 8) % 256 != 0 && p % 256 < 32).collect()),
        2 => Some(vec![2_097_151]),
        3 => Some(vec![2_097_152]),
        4 => Some((0..=POSITIONS as u32).collect()),
        _ => edge_set(number as usize - 5),
    }
}

/// The longest accepted bitmap, 278,598 bytes: useless exceptions and dense containers alone.
fn longest() -> Vec<u8> {
    let mut arrays = pack_high_first(&[32; CHUNK], 7);
    arrays.extend(0..255);
    arrays.extend([0; 32]);
    full_bitmap([0x17, 255, 0], &arrays)
}

/// 8,192 full containers; every chunk has the same bytes.
fn full_bitmap(head: [u8; 3], arrays: &[u8]) -> Vec<u8> {
    let mut out = vec![1, 0, 0, 0x20, 0, 0x20];
    for _ in 0..8192 / CHUNK {
        out.extend_from_slice(&head);
        out.extend_from_slice(arrays);
    }
    out.resize(out.len() + 32 * 8192, 0xFF);
    out
}

fn empty_containers(count: u16) -> Vec<u8> {
    let mut out = vec![1, 0, 0, 0];
    out.extend_from_slice(&count.to_le_bytes());
    out.resize(6 + 3 * usize::from(count).div_ceil(CHUNK), 0);
    out
}
