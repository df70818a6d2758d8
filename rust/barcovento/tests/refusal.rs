//! Refusals: the numbers, the place and the words of each.

mod common;

use barcovento::bitmap::{self, Listing, Operation};
use barcovento::{Bitmap, Fault, Members, Refusal, Schema, Store};
use std::collections::HashSet;
use std::error::Error;

/// A bitmap, the five numbers, and the words.
type Damaged = (Vec<u8>, [usize; 5], &'static str);

/// A cardinality, a number of containers, and what follows the header.
fn lay(cardinality: u8, containers: u16, rest: &[u8]) -> Vec<u8> {
    let [low, high] = containers.to_le_bytes();
    [&[1, cardinality, 0, 0, low, high], rest].concat()
}

/// Bitmaps that break a rule of headers and chunks.
fn damaged_first() -> Vec<Damaged> {
    let cut = "chunk 0 at byte 6: descriptors cut short";
    let second_cut = "chunk 1 at byte 9: descriptors cut short";
    let widths = "chunk 0 at byte 6: b1, b2 and e break the width rules";
    let offset = "chunk 0: the exception offset at byte 10 is not rising or too high";
    let spare = "chunk 0: spare bits set at byte 9";
    let large = "chunk 0 at byte 6: descriptor 64, over 63";
    vec![
        (vec![], [1, 0, 0, 0, 6], "0 bytes, under 6"),
        (vec![1, 0, 0, 0, 0], [1, 0, 0, 5, 6], "5 bytes, under 6"),
        (vec![2, 0, 0, 0, 0, 0], [2, 0, 0, 2, 1], "version 2, not 1"),
        (lay(0, 8_193, &[]), [3, 0, 4, 8_193, 8_192], "8193 containers, over 8192"),
        (lay(1, 1, &[0, 0]), [4, 0, 6, 0, 0], cut),
        (lay(1, 257, &[0, 0, 0]), [4, 1, 9, 0, 0], second_cut),
        (lay(0, 1, &[9, 0, 0]), [5, 0, 6, 0, 0], widths),
        (lay(0, 2, &[0x10, 2, 0, 1, 0, 0]), [6, 0, 10, 0, 0], offset),
        (lay(1, 1, &[1, 0, 0, 0xC0]), [7, 0, 9, 0, 0], spare),
        (lay(0, 1, &[0, 0, 64]), [8, 0, 6, 64, 63], large),
    ]
}

/// Bitmaps that break a rule of containers.
fn damaged_last() -> Vec<Damaged> {
    let left = "the containers start at byte 9: 2 bytes there, 1 asked for";
    let sparse = "container 0 at byte 9 is not rising, or is dense with under 32 members";
    let dense = "container 1 at byte 11 is not rising, or is dense with under 32 members";
    let members = [&[6, 0, 0, 2, 0, 0xFF, 0xFF, 0xFF, 0xFE][..], &[0; 28]].concat();
    vec![
        (lay(1, 1, &[0, 0, 1, 0, 0]), [9, 0, 9, 2, 1], left),
        (lay(3, 1, &[0, 0, 3, 0, 0, 255]), [10, 0, 9, 0, 0], sparse),
        (lay(31, 2, &members), [10, 1, 11, 0, 0], dense),
        (lay(2, 1, &[0, 0, 1, 0]), [11, 0, 1, 2, 1], "cardinality 2 stored, 1 counted"),
    ]
}

/// What every way into the library says of one bitmap, and of one as the second of two.
fn all_ways(bytes: &[u8]) -> (Vec<Refusal>, Vec<Refusal>) {
    let empty = [1, 0, 0, 0, 0, 0];
    let (mut list, mut out, mut listing) = ([7; 4], [7; 64], Listing::default());
    let mut store = Store::new(1_000);
    let mut first = vec![
        bitmap::check(bytes).unwrap_err(),
        bitmap::probe(bytes, 0).unwrap_err(),
        bitmap::rank(bytes, 0).unwrap_err(),
        bitmap::page(bytes, &mut listing, &mut list).unwrap_err(),
        Bitmap::from_bytes(bytes).unwrap_err(),
        Members::of(bytes).unwrap_err(),
        store.put(0, 0, bytes).unwrap_err(),
    ];
    let mut second = Vec::new();
    for operation in [
        Operation::Union,
        Operation::Intersection,
        Operation::Difference,
        Operation::SymmetricDifference,
    ] {
        first.push(bitmap::combine(operation, bytes, &empty, &mut out).unwrap_err());
        second.push(bitmap::combine(operation, &empty, bytes, &mut out).unwrap_err());
    }
    assert_eq!((list, out, listing), ([7; 4], [7; 64], Listing::default()));
    assert_eq!(store.slots().count(), 0);
    (first, second)
}

#[test]
fn bitmaps_say_why() {
    let mut numbers = HashSet::new();
    let damaged = damaged_first().into_iter().chain(damaged_last());
    for (bytes, [number, index, byte, found, wanted], words) in damaged {
        numbers.insert(number);
        let fault = Fault { number: number as u32, index, byte, found, wanted };
        assert_eq!(bitmap::explain(&bytes), Some(fault));
        assert_eq!(fault.to_string(), words);
        let (first, second) = all_ways(&bytes);
        for (input, refusals) in [(0, first), (1, second)] {
            for refusal in refusals {
                assert_eq!(refusal.number(), number as u32);
                assert_eq!(refusal.fault(), Some(fault));
                assert_eq!(refusal.input(), input);
                assert_eq!(refusal.to_string(), format!("refused {number}: {words}"));
            }
        }
    }
    assert_eq!(numbers, (1..=11).collect());
}

#[test]
fn other_refusals_have_words() {
    let refusal = Schema::new(&[]).unwrap_err();
    assert_eq!((refusal.number(), refusal.fault(), refusal.input()), (20, None, 0));
    assert_eq!(refusal.words(), "schema bad");
    assert_eq!(refusal.to_string(), "refused 20: schema bad");
    assert!(refusal.source().is_none());
    let refusal = Bitmap::from_positions(&[1, 0]).unwrap_err();
    assert_eq!(refusal.to_string(), "refused 12: positions not strictly rising or too big");
    let refusal = Bitmap::from_bytes(&[2, 0, 0, 0, 0, 0]).unwrap_err();
    assert_eq!(refusal.words(), "version not 1");
}
