//! Bitmaps as values.

mod common;

use barcovento::bitmap::Operation;
use barcovento::{Bitmap, Members};
use common::{sets, tree, writers, Random};
use std::collections::HashSet;

#[test]
fn values_are_their_sets() {
    for set in sets() {
        let bitmap = Bitmap::from_positions(&set).unwrap();
        assert_eq!(bitmap.len() as usize, set.len());
        assert_eq!(bitmap.is_empty(), set.is_empty());
        assert!(bitmap.iter().eq(set.iter().copied()));
        assert!((&bitmap).into_iter().eq(set.iter().copied()));
        assert_eq!(bitmap.as_ref(), bitmap.as_bytes());
        assert_eq!(bitmap.clone().into_bytes(), bitmap.as_bytes());
        for writer in writers() {
            let bytes = writer.lay(&set);
            assert!(Members::of(&bytes).unwrap().eq(set.iter().copied()));
            let read = Bitmap::from_bytes(&bytes).unwrap();
            assert_eq!(read, bitmap);
            assert_eq!(read.as_bytes(), bitmap.as_bytes());
        }
    }
}

#[test]
fn questions() {
    let set = Random::new(4).set(20, 200);
    let (bitmap, members) = (Bitmap::from_positions(&set).unwrap(), tree(&set));
    for position in (0..20 * 256 + 5).chain([2_097_151, 2_097_152, u32::MAX]) {
        assert_eq!(bitmap.contains(position), members.contains(&position));
        assert_eq!(bitmap.rank(position) as usize, members.range(..position).count());
    }
}

/// Pages have 65,536 members: none left over, one, and one missing.
#[test]
fn members_over_one_page() {
    for count in [65_535, 65_536, 65_537, 131_072, 131_073, 200_000] {
        let set: Vec<u32> = (0..count).map(|member| 3 * member + 5).collect();
        let bitmap = Bitmap::from_positions(&set).unwrap();
        let mut members = bitmap.iter();
        let mut copy = members.clone();
        assert!(members.by_ref().eq(set.iter().copied()));
        assert_eq!((members.next(), members.next()), (None, None));
        assert!(copy.by_ref().take(70_000).eq(set.iter().copied().take(70_000)));
        assert!(copy.clone().eq(set.iter().copied().skip(70_000)));
    }
    let none = Bitmap::from_positions(&[]).unwrap();
    assert_eq!((none.iter().next(), none.iter().next()), (None, None));
    assert_eq!(none.as_bytes(), [1, 0, 0, 0, 0, 0]);
}

#[test]
fn operators() {
    let mut random = Random::new(5);
    for (containers, other, thousandths) in
        [(1, 3, 300), (300, 4, 20), (257, 256, 500), (8_192, 3_000, 2)]
    {
        let first = random.set(containers, thousandths);
        let second = random.set(other, thousandths);
        let [a, b] = [&first, &second].map(|set| Bitmap::from_positions(set).unwrap());
        let [x, y] = [tree(&first), tree(&second)];
        assert!((&a | &b).iter().eq(x.union(&y).copied()));
        assert!((&a & &b).iter().eq(x.intersection(&y).copied()));
        assert!((&a - &b).iter().eq(x.difference(&y).copied()));
        assert!((&b - &a).iter().eq(y.difference(&x).copied()));
        assert!((&a ^ &b).iter().eq(x.symmetric_difference(&y).copied()));
        assert_eq!(a.combine(Operation::Union, &b), &a | &b);
        assert_eq!(&(&a | &b) - &(&a & &b), &a ^ &b);
        assert_eq!((&a ^ &a).as_bytes(), [1, 0, 0, 0, 0, 0]);
        assert_eq!((&a ^ &b).len() as usize, x.symmetric_difference(&y).count());
    }
}

#[test]
fn equal_sets_are_equal_values() {
    let foreign = Bitmap::from_bytes(&[1, 1, 0, 0, 2, 0, 0x10, 1, 0, 1, 0x80, 0]).unwrap();
    let own = Bitmap::from_positions(&[256]).unwrap();
    assert_eq!(foreign, own);
    assert_ne!(own, Bitmap::from_positions(&[255]).unwrap());
    let values: HashSet<Bitmap> = [foreign, own].into();
    assert_eq!(values.len(), 1);
    let zero = Bitmap::from_bytes(&[1, 1, 0, 0, 2, 0, 0x10, 1, 0, 0, 0x80, 0]).unwrap();
    assert_eq!(zero.as_bytes(), [1, 1, 0, 0, 1, 0, 0, 0, 1, 0]);
    assert_eq!(format!("{zero:?}"), "Bitmap(1 members, 10 bytes)");
}
