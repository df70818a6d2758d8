//! The choice of b1: the cost of a width, bitmaps packed by a cost, and sets that are packed otherwise
//! by a cost that is nearly right.

use super::{
    any_chunk, bit_width, chunk_of, containers, density, member_count, push_members,
    used_containers, Chunk, Draft, CHUNK,
};
use crate::generate::Random;

/// How many descriptors a last chunk has: around the ends of a byte of one bit each, and of a chunk.
pub const LENGTHS: [usize; 8] = [1, 2, 8, 9, 16, 17, 255, 256];

/// A width that b1 can have in a chunk of n descriptors: e of them are wider, by up to b2 bits.
#[derive(Clone, Copy)]
pub struct Width {
    pub n: usize,
    pub b: usize,
    pub e: usize,
    pub b2: usize,
}

impl Width {
    pub fn cost(&self) -> usize {
        (self.n * self.b).div_ceil(8) + self.exceptions()
    }

    /// The cost of a whole chunk, whatever n is.
    pub fn whole_chunk_cost(&self) -> usize {
        32 * self.b + self.exceptions()
    }

    /// The bytes of offsets and parts.
    pub fn exceptions(&self) -> usize {
        self.e + (self.e * self.b2).div_ceil(8)
    }
}

/// The width of each descriptor, less the least of them.
fn bit_widths(descriptors: &[u8]) -> Vec<usize> {
    let least = descriptors.iter().copied().min().unwrap_or(0);
    descriptors.iter().map(|&descriptor| bit_width((descriptor - least).into())).collect()
}

/// The widths that b1 can have in the chunk of these descriptors.
pub fn widths(descriptors: &[u8]) -> Vec<Width> {
    let each = bit_widths(descriptors);
    let largest = each.iter().copied().max().unwrap_or(0);
    let wider = |b: usize| each.iter().filter(|&&width| width > b).count();
    let width = |b: usize| Width { n: each.len(), b, e: wider(b), b2: largest - b };
    (0..=largest).map(width).collect()
}

/// A sound bitmap of the set whose chunks have m and exceptions as in the one written form, and the
/// chosen b1.
pub fn packed_with(set: &[u32], choose: impl Fn(&[Width]) -> usize) -> Vec<u8> {
    let containers = containers(set, used_containers(set));
    let descriptors: Vec<u8> = containers.iter().map(|c| c.len() as u8).collect();
    let chunk = |chunk: &[u8]| chunk_of_width(chunk, choose(&widths(chunk)));
    let chunks = descriptors.chunks(CHUNK).map(chunk).collect();
    Draft::with(set, containers, chunks).bytes()
}

fn chunk_of_width(descriptors: &[u8], b1: usize) -> Chunk {
    let least = descriptors.iter().copied().min().unwrap_or(0);
    let each = bit_widths(descriptors);
    let offsets = (0..each.len()).filter(|&i| each[i] > b1).map(|i| i as u8).collect();
    chunk_of(descriptors, least, b1, offsets, 0)
}

/// A sound bitmap of the set that differs from its form in one chunk, or in empty containers behind it;
/// at times not at all.
pub fn nearly_form(random: &mut Random, set: &[u32]) -> Vec<u8> {
    let behind = if random.once_in(6) { random.pick(&[1, 2, 255, 256]) } else { 0 };
    let containers = containers(set, (used_containers(set) + behind).min(8192));
    let mut descriptors: Vec<u8> = containers.iter().map(|c| c.len() as u8).collect();
    let count = descriptors.len().div_ceil(CHUNK);
    let other = if count == 0 || behind > 0 { count } else { random.below(count) };
    let mut chunks = Vec::new();
    for (index, chunk) in descriptors.chunks_mut(CHUNK).enumerate() {
        if index == other {
            chunks.push(other_chunk(random, chunk));
            continue;
        }
        let best = widths(chunk).into_iter().min_by_key(Width::cost).map_or(0, |width| width.b);
        chunks.push(chunk_of_width(chunk, best));
    }
    Draft::with(set, containers, chunks).bytes()
}

/// A chunk packed in another way than in the form, in one respect: b1, one more exception, b2, m or the
/// low bits of one dense descriptor; or in any way.
fn other_chunk(random: &mut Random, descriptors: &mut [u8]) -> Chunk {
    let choice = random.below(7);
    let dense: Vec<usize> = (0..descriptors.len()).filter(|&i| descriptors[i] == 32).collect();
    if choice == 0 && !dense.is_empty() {
        descriptors[random.pick(&dense)] += random.between(1, 31) as u8;
    }
    let widths = widths(descriptors);
    let least = descriptors.iter().copied().min().unwrap_or(0);
    let best = widths.iter().min_by_key(|width| width.cost()).map_or(0, |width| width.b);
    let each = bit_widths(descriptors);
    let mut offsets: Vec<u8> =
        (0..each.len()).filter(|&i| each[i] > best).map(|i| i as u8).collect();
    match choice {
        1 | 2 => return chunk_of_width(descriptors, random.pick(&widths).b),
        3 if offsets.len() < 255 && best < 8 => {
            offsets.push(random.below(each.len()) as u8);
            offsets.sort_unstable();
            offsets.dedup();
        }
        4 => return chunk_of(descriptors, least, best, offsets, random.between(1, 8)),
        5 if least > 0 && each.iter().all(|&width| width == 0) => {
            let m = random.below(least.into()) as u8;
            return chunk_of(descriptors, m, bit_width((least - m).into()), Vec::new(), 0);
        }
        6 => return any_chunk(random, descriptors),
        _ => {}
    }
    chunk_of(descriptors, least, best, offsets, 0)
}

/// The bitmap whose b1 are those of least cost, the smaller one on a tie.
pub fn packed_by<C: Ord>(set: &[u32], cost: impl Fn(&Width) -> C) -> Vec<u8> {
    packed_with(set, |widths| widths.iter().min_by_key(|width| cost(width)).map_or(0, |w| w.b))
}

/// The set whose containers have so many members, at most 32 each, at fixed places.
pub fn set_of(descriptors: &[u8]) -> Vec<u32> {
    let members =
        |(k, &size): (usize, &u8)| (0..u32::from(size)).map(move |i| (k * 256) as u32 + i * 8 + 3);
    descriptors.iter().enumerate().flat_map(members).collect()
}

/// Descriptors of every kind, of which the last one is not 0.
pub fn descriptors(random: &mut Random, count: usize) -> Vec<u8> {
    let density = density(random);
    let mut descriptors: Vec<u8> =
        (0..count).map(|_| member_count(random, density).min(32) as u8).collect();
    if let Some(last) = descriptors.last_mut() {
        *last = (*last).max(1);
    }
    descriptors
}

/// A last chunk where two widths cost the same, or nearly: values of at most `low` bits, and so many of
/// `high` bits that they cost as exceptions what all values cost in `high` bits.
pub fn near_tie(random: &mut Random) -> Vec<u32> {
    let (n, low, high, count) = loop {
        let n = if random.once_in(3) { CHUNK } else { random.between(2, CHUNK) };
        let high = random.between(1, 6);
        let low = random.below(high);
        let cost = |b: usize, e: usize| Width { n, b, e, b2: high - b }.cost();
        let (more, less) = random.pick(&[(0, 0), (0, 0), (0, 0), (0, 0), (0, 1), (1, 0)]);
        if let Some(count) = (1..n).find(|&e| cost(low, e) + more == cost(high, 0) + less) {
            break (n, low, high, count);
        }
    };
    let first = CHUNK * random.pick(&[0, 0, 0, 1, 2]);
    let mut set = Vec::new();
    for (k, size) in mixed_sizes(random, n, low, high, count).into_iter().enumerate() {
        push_members(random, ((first + k) * 256) as u32, size, &mut set);
    }
    set
}

/// Sizes of n containers: one is the least, `count` are wider by `high` bits, the others by at most
/// `low` bits. The last one is not 0.
fn mixed_sizes(random: &mut Random, n: usize, low: usize, high: usize, count: usize) -> Vec<usize> {
    let least = random.below(33 - (1 << high).min(32));
    let mut sizes: Vec<usize> = (0..n)
        .map(|k| match k {
            0 => least,
            k if k <= count => least + random.between(1 << (high - 1), ((1 << high) - 1).min(32)),
            _ => least + random.below(1 << low),
        })
        .collect();
    for k in 1..n {
        sizes.swap(k, random.below(k + 1));
    }
    if sizes[n - 1] == 0 {
        let other = sizes.iter().position(|&size| size > 0).unwrap_or(0);
        sizes.swap(other, n - 1);
    }
    sizes
}

/// Sets that are written shorter than by the cost of a whole chunk, and others beside them: one member
/// behind 1 to 255 empty containers; then last chunks of each length, alone, behind one whole chunk
/// and behind 31.
pub fn edge_set(number: usize) -> Option<Vec<u32>> {
    if number < 255 {
        return Some(vec![256 * (number as u32 + 1)]);
    }
    let number = number - 255;
    let whole = *[0, 1, 31].get(number / (4 * LENGTHS.len()))?;
    let mut descriptors: Vec<u8> = (0..whole * CHUNK).map(|k| (k % 5 / 4) as u8).collect();
    descriptors.extend(last_chunk(number % 4, LENGTHS[number / 4 % LENGTHS.len()]));
    Some(set_of(&descriptors))
}

/// Zeros and a one; a zero and ones; two bits with some dense containers; all sizes.
fn last_chunk(kind: usize, n: usize) -> Vec<u8> {
    let size = |i: usize| match kind {
        0 => usize::from(i == n - 1),
        1 => usize::from(i > 0),
        2 if i % 11 == 4 => 32,
        2 => (i + 1) % 4,
        _ => (i * 7 + 5) % 33,
    };
    let mut sizes: Vec<u8> = (0..n).map(|i| size(i) as u8).collect();
    sizes[n - 1] = sizes[n - 1].max(1);
    sizes
}

#[cfg(test)]
mod tests {
    use super::super::set;
    use super::*;

    /// Whether some chunk of the set has two widths of least cost.
    fn has_tie(set: &[u32]) -> bool {
        packed_by(set, Width::cost) != packed_by(set, |width| (width.cost(), 8 - width.b))
    }

    #[test]
    fn near_ties_are_mostly_ties() {
        let mut random = Random::new(9);
        let (mut short, mut whole) = (0, 0);
        for _ in 0..2000 {
            let set = near_tie(&mut random);
            let is_whole = used_containers(&set).is_multiple_of(CHUNK);
            *if is_whole { &mut whole } else { &mut short } += usize::from(has_tie(&set));
        }
        assert!(short > 800 && whole > 400, "{short} and {whole} ties");
    }

    #[test]
    fn sets_have_last_chunks_of_each_length() {
        let mut random = Random::new(10);
        let (mut alone, mut behind) = ([0; CHUNK], [0; CHUNK]);
        for _ in 0..6000 {
            if let Some(last) = used_containers(&set(&mut random)).checked_sub(1) {
                let counts = if last < CHUNK { &mut alone } else { &mut behind };
                counts[last % CHUNK] += 1;
            }
        }
        for n in LENGTHS {
            let (alone, behind) = (alone[n - 1], behind[n - 1]);
            assert!(alone > 10 && behind > 15, "{alone} alone, {behind} behind others, of {n}");
        }
    }

    #[test]
    fn edges_of_the_cost() {
        let sets: Vec<Vec<u32>> = (0..).map_while(edge_set).collect();
        assert_eq!(sets.len(), 255 + 3 * 4 * LENGTHS.len());
        let length = |set: &[u32], cost: fn(&Width) -> usize| packed_by(set, cost).len();
        let shorter = |set: &[u32]| length(set, Width::cost) < length(set, Width::whole_chunk_cost);
        let ties = sets.iter().filter(|set| has_tie(set)).count();
        let shorter = sets.iter().filter(|set| shorter(set)).count();
        assert!(ties >= 14 && shorter >= 50, "{ties} ties, {shorter} shorter");
        for (number, set) in sets.iter().enumerate().skip(255) {
            let (whole, last) = ((number - 255) / 32, (number - 255) / 4 % 8);
            assert_eq!(used_containers(set), [0, 256, 31 * 256][whole] + LENGTHS[last]);
        }
    }
}
