//! Numbers in groups of seven bits: shortest, padded and bad ones.

use super::Random;
use std::ops::Range;

/// The fewest bytes that hold the number.
pub fn fewest(value: u32) -> usize {
    (1..5).find(|&count| value >> (7 * count) == 0).unwrap_or(5)
}

/// Appends the number in so many bytes, at most five, which hold it.
pub fn push_form(value: u32, count: usize, out: &mut Vec<u8>) {
    for i in 0..count {
        let more = if i + 1 < count { 0x80 } else { 0 };
        out.push((value >> (7 * i)) as u8 & 0x7F | more);
    }
}

/// Appends the number in one of its forms, half of the time in the shortest.
pub fn push_any_form(random: &mut Random, value: u32, out: &mut Vec<u8>) {
    let fewest = fewest(value);
    let count = if random.once_in(2) { fewest } else { random.between(fewest, 5) };
    push_form(value, count, out);
}

/// A schema, and a number that stands between other bytes.
pub type Around<'a> = (&'a [u8], &'a [u8], u32, &'a [u8]);

/// The number in each of its forms, between other bytes.
pub fn all_forms(before: &[u8], value: u32, behind: &[u8]) -> Vec<Vec<u8>> {
    let form = |count| {
        let mut out = before.to_vec();
        push_form(value, count, &mut out);
        out.extend_from_slice(behind);
        out
    };
    (fewest(value)..=5).map(form).collect()
}

/// The number in five bytes, the last one with the high bit too.
fn five_high(value: u32) -> Vec<u8> {
    let mut out = Vec::new();
    push_form(value, 5, &mut out);
    out[4] |= 0x80;
    out
}

/// The number in five bytes with bits over 4,294,967,295. A reader that wraps gets the number.
fn over_the_largest(random: &mut Random, value: u32) -> Vec<u8> {
    let mut out = Vec::new();
    push_form(value, 5, &mut out);
    out[4] |= 0x10 << random.below(3);
    out
}

/// The number in six bytes. A reader that takes them all gets the number.
fn six_bytes(value: u32) -> Vec<u8> {
    let mut out = five_high(value);
    out.push(0);
    out
}

/// A number with five high bits, too large or in six bytes; or one whose last byte has the high bit.
pub fn bad_varint(random: &mut Random, value: u32) -> Vec<u8> {
    match random.below(8) {
        0 => five_high(value),
        1 | 2 => over_the_largest(random, value),
        3 => {
            let fifth = random.pick(&[0x10, 0x1F, 0x70, 0x7F, 0x80, 0xFF]);
            vec![random.pick(&[0x80, 0x83, 0xFF]), 0x80, 0x80, 0x80, fifth]
        }
        4 | 5 => six_bytes(value),
        _ => {
            let mut out = Vec::new();
            push_any_form(random, value, &mut out);
            out.iter_mut().for_each(|byte| *byte |= 0x80);
            out
        }
    }
}

/// Damages one of the numbers at the spots, or lets the bytes end with it; nothing without a spot.
pub fn damage_number(random: &mut Random, bytes: &mut Vec<u8>, spots: &[Range<usize>]) {
    if spots.is_empty() {
        return;
    }
    let spot = spots[random.below(spots.len())].clone();
    let value = number_at(bytes, &spot);
    let ends = random.once_in(2);
    let bad = match random.below(if ends { 5 } else { 3 }) {
        0 => five_high(value),
        1 => over_the_largest(random, value),
        2 => six_bytes(value),
        _ => {
            let mut high = five_high(value);
            high.truncate(random.between(1, 4));
            high
        }
    };
    let end = if ends { bytes.len() } else { spot.end };
    bytes.splice(spot.start..end, bad);
}

fn number_at(bytes: &[u8], spot: &Range<usize>) -> u32 {
    let groups = bytes[spot.clone()].iter().take(5).rev();
    groups.fold(0, |value, byte| value << 7 | u32::from(byte & 0x7F))
}

#[derive(Clone, Copy)]
enum Style {
    Shortest,
    /// Once in so many times in any form.
    Mixed(usize),
    FiveBytes,
}

/// Writes the numbers of an input.
pub struct Numbers {
    style: Style,
    random: Random,
    /// Where each number stands, if all go to the same bytes.
    pub spots: Vec<Range<usize>>,
}

impl Numbers {
    fn new(style: Style, random: Random) -> Numbers {
        Numbers { style, random, spots: Vec::new() }
    }

    /// Every number shortest.
    pub fn shortest() -> Numbers {
        Numbers::new(Style::Shortest, Random::new(0))
    }

    /// Every number in five bytes, as one maker's camera box writes them.
    pub fn five_bytes() -> Numbers {
        Numbers::new(Style::FiveBytes, Random::new(0))
    }

    /// Few, many or all numbers padded.
    pub fn padded(random: &mut Random) -> Numbers {
        let style = match random.below(4) {
            0 => Style::Mixed(8),
            1 => Style::FiveBytes,
            _ => Style::Mixed(2),
        };
        Numbers::new(style, Random::new(random.word()))
    }

    /// Half of the time every number shortest.
    pub fn any(random: &mut Random) -> Numbers {
        if random.once_in(2) {
            Numbers::shortest()
        } else {
            Numbers::padded(random)
        }
    }

    /// For a schema and for what comes with it. Half of the time every number of both is shortest.
    pub fn pair(random: &mut Random) -> [Numbers; 2] {
        if random.once_in(2) {
            [Numbers::shortest(), Numbers::shortest()]
        } else {
            [Numbers::any(random), Numbers::any(random)]
        }
    }

    pub fn push(&mut self, value: u32, out: &mut Vec<u8>) {
        let fewest = fewest(value);
        let count = match self.style {
            Style::FiveBytes => 5,
            Style::Mixed(times) if self.random.once_in(times) => self.random.between(fewest, 5),
            _ => fewest,
        };
        let start = out.len();
        push_form(value, count, out);
        self.spots.push(start..out.len());
    }

    /// Appends a number that may be damaged already.
    pub fn push_number(&mut self, number: &Number, out: &mut Vec<u8>) {
        match number {
            Number::Value(value) => self.push(*value, out),
            Number::Raw(bytes) => out.extend_from_slice(bytes),
        }
    }

    /// Appends a length and the bytes.
    pub fn push_counted(&mut self, bytes: &[u8], out: &mut Vec<u8>) {
        self.push(bytes.len() as u32, out);
        out.extend_from_slice(bytes);
    }
}

/// A number before it is laid out.
pub enum Number {
    Value(u32),
    /// Bytes as they are, for damage.
    Raw(Vec<u8>),
}

/// The least and the largest number of each number of bytes, and some more.
const BOUNDARIES: [u32; 12] = [
    0,
    1,
    127,
    128,
    (1 << 14) - 1,
    1 << 14,
    (1 << 21) - 1,
    1 << 21,
    (1 << 28) - 1,
    1 << 28,
    (1 << 31) - 1,
    u32::MAX,
];

/// What stands behind a number: nothing, or bytes that a reader must not take.
const BEHIND: [&[u8]; 6] = [&[], &[0], &[1], &[0x0F], &[0x80], &[0xFF; 6]];

/// High bytes before the last byte of a number.
const HIGH: [&[u8]; 12] = [
    &[0x80],
    &[0xFF],
    &[0x80, 0x80],
    &[0xFF, 0xFF],
    &[0x80, 0x80, 0x80],
    &[0xFF, 0xFF, 0xFF],
    &[0x80, 0x80, 0x80, 0x80],
    &[0x81, 0x80, 0x80, 0x80],
    &[0x80, 0x80, 0x80, 0x81],
    &[0xFF, 0xFF, 0xFF, 0xFF],
    &[0x80, 0x80, 0x80, 0x80, 0x80],
    &[0xFF, 0xFF, 0xFF, 0xFF, 0x8F],
];

/// Inputs for the call that reads a number: each boundary in each form, all inputs of up to two bytes,
/// and all last bytes behind some high ones.
pub fn edge(number: u64) -> Option<Vec<Vec<u8>>> {
    let number = number as usize;
    let forms: Vec<(u32, usize)> = BOUNDARIES
        .iter()
        .flat_map(|&value| (fewest(value)..=5).map(move |count| (value, count)))
        .collect();
    if let Some(&(value, count)) = forms.get(number) {
        return Some(form_and_prefixes(value, count));
    }
    let number = number - forms.len();
    match number {
        0 => Some(std::iter::once(Vec::new()).chain((0..=255).map(|byte| vec![byte])).collect()),
        1..=256 => Some((0..=255).map(|second| vec![(number - 1) as u8, second]).collect()),
        _ => {
            let high = HIGH.get((number - 257) / BEHIND.len())?;
            let behind = BEHIND[(number - 257) % BEHIND.len()];
            Some((0..=255).map(|last| [high, &[last][..], behind].concat()).collect())
        }
    }
}

fn form_and_prefixes(value: u32, count: usize) -> Vec<Vec<u8>> {
    let mut form = Vec::new();
    push_form(value, count, &mut form);
    let prefixes = (0..count).map(|cut| form[..cut].to_vec());
    let longer = BEHIND.iter().map(|behind| [&form, *behind].concat());
    prefixes.chain(longer).collect()
}

/// An input for the call that reads a number: sound, bad, cut, or any bytes.
pub fn input(random: &mut Random) -> Vec<u8> {
    let bits = random.between(0, 32);
    let value = (random.word() & ((1 << bits) - 1)) as u32;
    let mut out = Vec::new();
    match random.below(6) {
        0 => out = bad_varint(random, value),
        1 => {
            let length = random.below(8);
            out = random.bytes(length);
        }
        2 => {
            let length = random.below(8);
            out = random.bytes(length).iter().map(|byte| byte | 0x80).collect();
        }
        _ => push_form(value, random.between(fewest(value), 5), &mut out),
    }
    match random.below(4) {
        0 => {
            let more = random.between(1, 12);
            out.extend(random.bytes(more));
        }
        1 => out.truncate(random.below(out.len() + 1)),
        _ => {}
    }
    out
}
