//! The calls on bitmaps, against sets of the standard library and bytes laid by hand.

mod common;

use barcovento::bitmap::{self, Listing, Operation};
use barcovento::Bitmap;
use common::{sets, tree, writers, Random};
use std::collections::BTreeSet;

/// The worked examples: a set and its one written form.
const EXAMPLES: [(&[u32], &[u8]); 6] = [
    (&[], &[1, 0, 0, 0, 0, 0]),
    (&[0], &[1, 1, 0, 0, 1, 0, 0, 0, 1, 0]),
    (&[0, 34, 255], &[1, 3, 0, 0, 1, 0, 0, 0, 3, 0, 0x22, 0xFF]),
    (&[256], &[1, 1, 0, 0, 2, 0, 1, 0, 0, 0x40, 0]),
    (&[0, 256], &[1, 2, 0, 0, 2, 0, 0, 0, 1, 0, 0]),
    (&[1, 2, 3, 512], &[1, 4, 0, 0, 3, 0, 2, 0, 0, 0xC4, 1, 2, 3, 0]),
];

fn written(set: &[u32]) -> Vec<u8> {
    let mut out = vec![0; bitmap::LONGEST_FORM];
    let length = bitmap::write(set, &mut out).expect("a sound set");
    out.truncate(length);
    out
}

/// All members, by pages of this many.
fn listed(bytes: &[u8], room: usize) -> Vec<u32> {
    let (mut listing, mut list, mut all) = (Listing::default(), vec![0; room], Vec::new());
    while !listing.finished {
        let given = bitmap::page(bytes, &mut listing, &mut list).unwrap();
        assert!(given == room || listing.finished);
        all.extend(&list[..given]);
    }
    assert_eq!(bitmap::page(bytes, &mut listing, &mut list), Ok(0));
    all
}

#[test]
fn examples() {
    for (set, form) in EXAMPLES {
        assert_eq!(written(set), form);
        assert_eq!(bitmap::check(form), Ok(set.len() as u32));
        assert_eq!(bitmap::explain(form), None);
        assert_eq!(listed(form, 2), set);
    }
    assert_eq!(written(&(0..31).collect::<Vec<_>>()).len(), 40);
    assert_eq!(written(&(0..32).collect::<Vec<_>>()).len(), 41);
    assert_eq!(written(&[2_097_151]).len(), 105);
}

#[test]
fn samples() {
    assert_eq!(listed(&common::sample("zone.bitmap"), 9), [0, 34, 255]);
    assert_eq!(listed(&common::sample("dense.bitmap"), 9), (0..32).collect::<Vec<_>>());
    assert_eq!(listed(&common::sample("last.bitmap"), 9), [2_097_151]);
}

#[test]
fn reading_is_that_of_the_set() {
    let mut random = Random::new(2);
    for set in sets() {
        let members = tree(&set);
        let mut asked: Vec<u32> = (0..20).map(|_| random.below(bitmap::POSITIONS + 9)).collect();
        asked.extend([0, 1, 255, 256, bitmap::POSITIONS - 1, bitmap::POSITIONS, u32::MAX]);
        asked.extend(set.iter().step_by(set.len() / 9 + 1));
        let mut forms = vec![written(&set)];
        forms.extend(writers().iter().map(|writer| writer.lay(&set)));
        for bytes in forms {
            assert_eq!(bitmap::check(&bytes), Ok(set.len() as u32));
            assert_eq!(bitmap::explain(&bytes), None);
            assert!(listed(&bytes, 100_000) == set);
            for &position in &asked {
                assert_eq!(bitmap::probe(&bytes, position), Ok(members.contains(&position)));
                let below = set.partition_point(|member| *member < position) as u32;
                assert_eq!(bitmap::rank(&bytes, position), Ok(below));
            }
        }
    }
}

#[test]
fn pages_in_any_room() {
    let set = Random::new(3).set(40, 70);
    let bytes = written(&set);
    for room in [1, 2, 17, 255, set.len() - 1, set.len(), set.len() + 1] {
        assert_eq!(listed(&bytes, room), set);
    }
    let mut listing = Listing::default();
    assert_eq!(bitmap::page(&bytes, &mut listing, &mut []), Ok(0));
    assert_eq!(listing, Listing { place: 0, finished: false });
    let mut list = [7; 4];
    listing.place = set[set.len() - 3];
    assert_eq!(bitmap::page(&bytes, &mut listing, &mut list), Ok(3));
    assert_eq!((&list[..3], list[3]), (&set[set.len() - 3..], 7));
    assert_eq!(listing, Listing { place: set[set.len() - 1] + 1, finished: true });
    listing = Listing { place: u32::MAX, finished: false };
    assert_eq!(bitmap::page(&bytes, &mut listing, &mut list), Ok(0));
    assert_eq!(listing, Listing { place: u32::MAX, finished: true });
}

#[test]
fn writing_refuses() {
    let mut out = [9; 12];
    for positions in [&[1, 1][..], &[2, 1], &[2_097_152], &[0, u32::MAX], &[2_097_151, 0]] {
        let refusal = bitmap::write(positions, &mut out).unwrap_err();
        assert_eq!((refusal.number(), refusal.fault(), refusal.input()), (12, None, 0));
        assert_eq!(Bitmap::from_positions(positions), Err(refusal));
    }
    let refusal = bitmap::write(&[0, 34, 255], &mut out[..11]).unwrap_err();
    assert_eq!((refusal.number(), refusal.fault()), (13, None));
    assert_eq!(out, [9; 12]);
    assert_eq!(bitmap::write(&[], &mut out), Ok(6));
    assert_eq!(out, [1, 0, 0, 0, 0, 0, 9, 9, 9, 9, 9, 9]);
}

fn expected(operation: Operation, a: &BTreeSet<u32>, b: &BTreeSet<u32>) -> Vec<u32> {
    match operation {
        Operation::Union => a.union(b).copied().collect(),
        Operation::Intersection => a.intersection(b).copied().collect(),
        Operation::Difference => a.difference(b).copied().collect(),
        Operation::SymmetricDifference => a.symmetric_difference(b).copied().collect(),
    }
}

const OPERATIONS: [Operation; 4] = [
    Operation::Union,
    Operation::Intersection,
    Operation::Difference,
    Operation::SymmetricDifference,
];

/// Every two sets, in rooms of `combined_room`: none is refused for room.
#[test]
fn combining_is_that_of_the_sets() {
    let sets = sets();
    let trees: Vec<_> = sets.iter().map(|set| tree(set)).collect();
    let writers = writers();
    for (i, a) in sets.iter().enumerate() {
        for (j, b) in sets.iter().enumerate() {
            if a.len() + b.len() > 600_000 && (i + j) % 3 > 0 {
                continue;
            }
            let first = if i % 2 == 0 { written(a) } else { writers[j % 4].lay(a) };
            let second = if j % 2 == 0 { written(b) } else { writers[i % 4].lay(b) };
            for operation in OPERATIONS {
                let mut out = vec![0; bitmap::combined_room(&first, &second)];
                let length = bitmap::combine(operation, &first, &second, &mut out).unwrap();
                let set = expected(operation, &trees[i], &trees[j]);
                assert!(out[..length] == written(&set));
            }
        }
    }
}

#[test]
fn combining_refuses() {
    let (zone, bad, worse) = (EXAMPLES[2].1, [2, 0, 0, 0, 0, 0], [1, 0, 0, 0, 0]);
    let mut out = [9; 11];
    for operation in OPERATIONS {
        let mut refusal = |a, b| bitmap::combine(operation, a, b, &mut out).unwrap_err();
        let of_first = refusal(&bad, &worse);
        assert_eq!((of_first.number(), of_first.input()), (2, 0));
        assert_eq!(of_first.fault(), bitmap::explain(&bad));
        let of_second = refusal(zone, &worse);
        assert_eq!((of_second.number(), of_second.input()), (1, 1));
        assert_eq!(of_second.fault(), bitmap::explain(&worse));
    }
    let refusal = bitmap::combine(Operation::Union, zone, zone, &mut out).unwrap_err();
    assert_eq!((refusal.number(), refusal.input(), refusal.fault()), (13, 0, None));
    assert_eq!(out, [9; 11]);
}

/// The rooms that the wrapper lends are as long as the longest form of so many containers.
#[test]
fn rooms_are_enough() {
    assert_eq!(bitmap::LONGEST_FORM, 267_366);
    for set in sets() {
        let form = Bitmap::from_positions(&set).expect("room for every form").into_bytes();
        assert!(form == written(&set) && form.len() <= bitmap::LONGEST_FORM);
        assert!(form.len() <= bitmap::combined_room(&form, &[]));
        let mut out = vec![0; form.len()];
        assert_eq!(bitmap::write(&set, &mut out), Ok(form.len()));
        assert!(set.is_empty() || bitmap::write(&set, &mut out[1..]).is_err());
    }
    assert_eq!(written(&common::longest()).len(), 267_366);
    // The first chunk has no exception, the second one.
    let form = written(&common::with_exceptions());
    assert_eq!((form[7], form[10]), (0, 1));
    assert_eq!(bitmap::combined_room(&[], &[1, 0, 0, 0, 0xFF, 0xFF]), bitmap::LONGEST_FORM);
    assert_eq!(bitmap::combined_room(&[], &[1, 2, 3]), 6);
    for containers in [1, 2, 3, 5, 9, 31, 64, 255, 256, 257, 511, 513, 1_000] {
        for kind in 0..8 {
            rooms_of(containers, kind);
        }
    }
}

/// So many containers, few of them, some or most of another length than the others.
fn rooms_of(containers: u32, kind: u32) {
    let mut random = Random::new(u64::from(10 * containers + kind));
    let (common, rare) =
        [(1, 31), (31, 1), (40, 0), (0, 40), (1, 40), (15, 17), (31, 40), (3, 2)][kind as usize];
    let mut set = Vec::new();
    for container in 0..containers {
        let odd = random.below(8) <= kind;
        let members = if odd { rare } else { common } + u32::from(container == containers - 1);
        set.extend((0..members).map(|member| 256 * container + member));
    }
    let form = Bitmap::from_positions(&set).expect("room for every form");
    let again = Bitmap::from_bytes(form.as_bytes()).expect("room for every form");
    assert_eq!(again, form);
    assert_eq!(form.iter().collect::<Vec<_>>(), set);
}
