use super::*;
use crate::generate::{bitmap as generate, Random};
use crate::reference::bitmap::{check, Bitmap};

fn bytes(hex: &str) -> Vec<u8> {
    hex.split_whitespace().map(|byte| u8::from_str_radix(byte, 16).unwrap()).collect()
}

/// Number, index, byte, found and wanted; zeros without a fault.
fn told(bytes: &[u8]) -> [usize; 5] {
    let fault = explain(bytes).unwrap_or_default();
    [fault.number as usize, fault.index, fault.byte, fault.found, fault.wanted]
}

#[test]
fn the_header() {
    for length in 0..6 {
        assert_eq!(told(&vec![7; length]), [1, 0, 0, length, 6]);
    }
    assert_eq!(told(&bytes("00 00 00 00 00 00")), [2, 0, 0, 0, 1]);
    assert_eq!(told(&bytes("FF 00 00 00 FF FF")), [2, 0, 0, 255, 1]);
    assert_eq!(told(&bytes("01 00 00 00 01 20")), [3, 0, 4, 8193, 8192]);
    assert_eq!(told(&bytes("01 00 00 00 FF FF 09")), [3, 0, 4, 65_535, 8192]);
}

#[test]
fn accepted_bytes_have_no_fault() {
    for hex in [
        "01 00 00 00 00 00",
        "01 01 00 00 01 00 00 00 01 00",
        "01 03 00 00 01 00 00 00 03 00 22 FF",
        "01 01 00 00 02 00 01 00 00 40 00",
        "01 01 00 00 02 00 10 01 00 01 80 00",
        "01 01 00 00 02 00 10 01 00 00 80 00",
    ] {
        assert_eq!(explain(&bytes(hex)), None, "{hex}");
    }
}

#[test]
fn cut_short() {
    // One chunk: none of it, one byte, two bytes, and a primary array that lacks its byte.
    assert_eq!(told(&bytes("01 00 00 00 01 00")), [4, 0, 6, 0, 0]);
    assert_eq!(told(&bytes("01 00 00 00 01 00 09")), [4, 0, 6, 0, 0]);
    assert_eq!(told(&bytes("01 00 00 00 01 00 09 00")), [4, 0, 6, 0, 0]);
    assert_eq!(told(&bytes("01 00 00 00 01 00 01 00 00")), [4, 0, 6, 0, 0]);
    // Offsets and parts that lack their last byte; the offset is wrong too.
    assert_eq!(told(&bytes("01 00 00 00 02 00 00 02 00 05")), [4, 0, 6, 0, 0]);
    assert_eq!(told(&bytes("01 00 00 00 02 00 10 01 00 05")), [4, 0, 6, 0, 0]);
    // 257 containers: the second chunk starts at the end of the bytes.
    assert_eq!(told(&bytes("01 00 00 00 01 01 00 00 00")), [4, 1, 9, 0, 0]);
    assert_eq!(told(&bytes("01 00 00 00 01 01 00 00 00 08 00 00")), [4, 1, 9, 0, 0]);
}

#[test]
fn widths() {
    assert_eq!(told(&bytes("01 00 00 00 01 00 09 00 00")), [5, 0, 6, 0, 0]);
    assert_eq!(told(&bytes("01 00 00 00 01 00 90 00 00")), [5, 0, 6, 0, 0]);
    assert_eq!(told(&bytes("01 00 00 00 01 00 27 00 00 00")), [5, 0, 6, 0, 0]);
    assert_eq!(told(&bytes("01 00 00 00 01 00 08 01 00 00 00")), [5, 0, 6, 0, 0]);
    assert_eq!(told(&bytes("01 00 00 00 01 01 00 00 00 18 00 00 00")), [5, 1, 9, 0, 0]);
}

#[test]
fn exception_offsets() {
    // Two descriptors in two bits: 5, 3 and 1, 0 and 0, 2 and 0, 0.
    assert_eq!(told(&bytes("01 00 00 00 02 00 01 02 00 00 05 03")), [6, 0, 10, 0, 0]);
    assert_eq!(told(&bytes("01 00 00 00 02 00 01 02 00 00 01 00")), [6, 0, 11, 0, 0]);
    assert_eq!(told(&bytes("01 00 00 00 02 00 01 02 00 00 00 02")), [6, 0, 11, 0, 0]);
    assert_eq!(told(&bytes("01 00 00 00 02 00 01 02 00 00 00 00")), [6, 0, 11, 0, 0]);
    // Behind a whole chunk: one descriptor, offset 1.
    assert_eq!(told(&bytes("01 00 00 00 01 01 00 00 00 00 01 00 01")), [6, 1, 12, 0, 0]);
}

#[test]
fn spare_bits_of_both_arrays() {
    // One descriptor in one bit, its part in one bit: 80 is sound, 81 has the lowest spare bit.
    assert_eq!(told(&bytes("01 00 00 00 01 00 11 01 00 01 00 01")), [7, 0, 9, 0, 0]);
    assert_eq!(told(&bytes("01 00 00 00 01 00 11 01 00 00 00 40")), [7, 0, 11, 0, 0]);
    assert_eq!(told(&bytes("01 00 00 00 01 00 11 01 FF 00 01 40")), [6, 0, 10, 0, 0]);
    assert_eq!(told(&bytes("01 00 00 00 01 00 11 01 FF 00 00 40")), [7, 0, 11, 0, 0]);
}

#[test]
fn descriptors_over_63() {
    assert_eq!(told(&bytes("01 00 00 00 01 00 08 00 FF FF")), [8, 0, 6, 510, 63]);
    assert_eq!(told(&bytes("01 00 00 00 01 00 08 00 01 FF")), [8, 0, 6, 256, 63]);
    assert_eq!(told(&bytes("01 00 00 00 01 00 00 00 40")), [8, 0, 6, 64, 63]);
    // 63, 64, 255: the second one is the first over 63.
    assert_eq!(told(&bytes("01 00 00 00 03 00 08 00 00 3F 40 FF")), [8, 0, 6, 64, 63]);
    // 1 + 16 · 15 by a part: m 2, primary value 1, b1 4, b2 4.
    assert_eq!(told(&bytes("01 00 00 00 01 00 44 01 02 10 00 F0")), [8, 0, 6, 243, 63]);
    assert_eq!(told(&bytes("01 00 00 00 01 01 00 00 00 00 00 41")), [8, 1, 9, 65, 63]);
}

#[test]
fn the_containers() {
    assert_eq!(told(&bytes("01 00 00 00 00 00 00")), [9, 0, 6, 1, 0]);
    assert_eq!(told(&bytes("01 00 00 00 01 00 00 00 03")), [9, 0, 9, 0, 3]);
    assert_eq!(told(&bytes("01 00 00 00 01 00 00 00 3F 00")), [9, 0, 9, 1, 32]);
    assert_eq!(told(&bytes("01 00 00 00 02 00 00 00 02 01 02 02 02")), [10, 1, 11, 0, 0]);
    assert_eq!(told(&bytes("01 00 00 00 02 00 00 00 02 02 01 02 02")), [10, 0, 9, 0, 0]);
    assert_eq!(told(&bytes("01 04 00 01 01 00 00 00 01 05")), [11, 0, 1, 65_540, 1]);
    assert_eq!(told(&bytes("01 FF FF FF 00 00")), [11, 0, 1, 16_777_215, 0]);
}

#[test]
fn the_last_container() {
    // 8,192 containers of two bytes each, in 32 chunks of three bytes.
    let mut all = bytes("01 00 40 00 00 20");
    all.extend([0, 0, 2].repeat(32));
    all.extend([4, 9].repeat(8192));
    assert_eq!(told(&all), [0; 5]);
    *all.last_mut().unwrap() = 4;
    assert_eq!(told(&all), [10, 8191, 102 + 2 * 8191, 0, 0]);
}

/// A line of vectors: words of hexadecimal pairs, or a number, * and the pairs that many times.
fn line(text: &str) -> Vec<u8> {
    let mut all = Vec::new();
    for word in text.split_whitespace() {
        let (times, digits) = word.split_once('*').unwrap_or(("1", word));
        let pairs = (0..digits.len()).step_by(2).map(|i| &digits[i..i + 2]);
        let bytes: Vec<u8> = pairs.map(|pair| u8::from_str_radix(pair, 16).unwrap()).collect();
        all.extend(bytes.repeat(times.parse().unwrap()));
    }
    all
}

#[test]
fn the_vectors() {
    let inputs = include_str!("../../../../../crates/bitmap_explain_vectors/stdin").lines();
    let answers = include_str!("../../../../../crates/bitmap_explain_vectors/stdout").lines();
    assert_eq!(inputs.clone().count(), answers.clone().count());
    let pairs = inputs.zip(answers).filter(|(input, _)| !input.starts_with('#'));
    assert!(pairs.clone().count() >= 140);
    for (input, answer) in pairs {
        assert_eq!(
            told(&line(input)).map(|number| number.to_string()).join(" "),
            answer,
            "{input}"
        );
    }
}

#[test]
fn faults_at_chosen_places() {
    let count = generate::faults::count();
    assert!(1793 + count < 3000, "the self-test's cases reach all {count}");
    for number in 0..count {
        let (bytes, expected) = generate::faults::fault(number).unwrap();
        assert_eq!(told(&bytes), expected, "fault {number}");
    }
}

#[test]
fn chosen_places_reach_the_ends() {
    let faults = 0..generate::faults::count();
    let told: Vec<[usize; 5]> =
        faults.map(|number| generate::faults::fault(number).unwrap().1).collect();
    let reached = |part: usize, number: usize, value: usize| {
        told.iter().any(|told| told[0] == number && told[part] == value)
    };
    for number in 4..=8 {
        assert!([0, 1, 2, 31].iter().all(|&chunk| reached(1, number, chunk)), "{number}");
    }
    assert!([0, 255, 256, 4096, 8191].iter().all(|&container| reached(1, 10, container)));
    assert!([65_536, 278_566].iter().all(|&byte| reached(2, 10, byte)));
    let farthest = [(4, 15_940), (5, 15_940), (6, 16_421), (7, 16_453), (8, 15_940), (9, 16_454)];
    assert!(farthest.iter().all(|&(number, byte)| reached(2, number, byte)));
    assert!([64, 255, 256, 318, 510].iter().all(|&found| reached(3, 8, found)));
    assert!([0, 1, 65_536, 327_680].iter().all(|&found| reached(3, 9, found)));
    assert!([0, 65_536, 262_144].iter().all(|&wanted| reached(4, 9, wanted)));
    assert!([0, 16_777_215].iter().all(|&stored| reached(3, 11, stored)));
    assert!([0, 1, 65_536, 2_097_152].iter().all(|&counted| reached(4, 11, counted)));
}

/// The number is the refusal of `judge`; no fault exactly if it accepts.
fn agrees(bytes: &[u8]) {
    let number = Bitmap::judge(bytes).err().unwrap_or(0);
    let fault = explain(bytes);
    assert_eq!(fault.map_or(0, |fault| fault.number), number);
    assert!(fault.is_none_or(|fault| fault.number > 0 && fault.byte <= bytes.len()));
}

#[test]
fn the_number_is_the_refusal() {
    let mut random = Random::new(8);
    for _ in 0..20_000 {
        let set = generate::set(&mut random);
        agrees(&generate::damaged(&mut random, &set));
        if set.len() < 10_000 {
            agrees(&generate::sound(&mut random, &set));
        }
    }
    let mut number = 0;
    while let Some(bytes) = generate::edge(number) {
        agrees(&bytes);
        number += 1;
    }
    assert!(number > 4000);
    assert_eq!(check(&generate::edge(2).unwrap()), Err(3));
}
