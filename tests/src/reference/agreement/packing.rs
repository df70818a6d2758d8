//! The one form against bitmaps packed by a cost: the cost in force, and that of a whole chunk.

use super::form;
use crate::generate::bitmap::packing::{descriptors, packed_by, set_of, Width};
use crate::generate::bitmap::{set, used_containers};
use crate::generate::Random;
use crate::reference::bitmap::unpack_chunk;
use std::collections::BTreeSet;
use std::ops::Range;

/// Where the chunks of a sound bitmap lie.
fn chunks(bytes: &[u8]) -> Vec<Range<usize>> {
    let count = usize::from(u16::from_le_bytes([bytes[4], bytes[5]]));
    let mut start = 6;
    let mut places = Vec::new();
    for first in (0..count).step_by(256) {
        let mut values = vec![0; (count - first).min(256)];
        let rest = unpack_chunk(&bytes[start..], &mut values).unwrap();
        let end = bytes.len() - rest.len();
        places.push(start..end);
        start = end;
    }
    places
}

fn without_last_chunk(bytes: &[u8]) -> Vec<u8> {
    let Range { start, end } = chunks(bytes).pop().unwrap_or(0..0);
    [&bytes[..start], &bytes[end..]].concat()
}

#[test]
fn the_form_has_the_widths_of_least_cost() {
    let mut random = Random::new(5);
    let (mut alone, mut behind, mut whole) = (0, 0, 0);
    for _ in 0..4000 {
        let set = set(&mut random);
        let form = form(&set);
        assert!(packed_by(&set, Width::cost) == form);
        let larger = packed_by(&set, |width| (width.cost(), 8 - width.b));
        let ties = match used_containers(&set) {
            1..=255 => &mut alone,
            count if count % 256 > 0 => &mut behind,
            _ => &mut whole,
        };
        *ties += usize::from(larger != form);
    }
    let enough = alone > 150 && behind > 12 && whole > 15;
    assert!(enough, "ties: {alone} alone, {behind} behind whole chunks, {whole} in whole chunks");
}

#[test]
fn only_a_short_last_chunk_is_shorter_than_by_the_cost_of_a_whole_one() {
    let mut random = Random::new(6);
    let (mut alone, mut behind) = (0, 0);
    for _ in 0..4000 {
        let set = set(&mut random);
        let (form, longer) = (form(&set), packed_by(&set, Width::whole_chunk_cost));
        assert!(without_last_chunk(&form) == without_last_chunk(&longer));
        if form != longer {
            assert!(form.len() < longer.len());
            assert!(used_containers(&set) % 256 > 1);
            *if used_containers(&set) < 256 { &mut alone } else { &mut behind } += 1;
        }
    }
    assert!(alone > 1500 && behind > 60, "{alone} alone, {behind} behind whole chunks");
}

#[test]
fn whole_chunks_are_the_same_by_both_costs() {
    let mut random = Random::new(7);
    let mut heads = BTreeSet::new();
    for _ in 0..4000 {
        let count = random.pick(&[1, 1, 1, 2, 3]);
        let chunk = |_| descriptors(&mut random, 256);
        let set = set_of(&(0..count).flat_map(chunk).collect::<Vec<u8>>());
        let form = form(&set);
        assert_eq!(used_containers(&set), 256 * count);
        assert!(packed_by(&set, Width::whole_chunk_cost) == form);
        heads.extend(chunks(&form).into_iter().map(|chunk| form[chunk.start]));
    }
    let widths: BTreeSet<u8> = heads.iter().map(|head| head % 16).collect();
    assert!(widths.len() == 7 && heads.len() > 20, "{heads:X?}");
}

#[test]
fn a_chunk_of_one_descriptor_is_the_same_by_both_costs() {
    let mut random = Random::new(8);
    for whole in 0..3 {
        for size in 1..=32 {
            let mut all: Vec<u8> = (0..whole).flat_map(|_| descriptors(&mut random, 256)).collect();
            all.push(size);
            let set = set_of(&all);
            assert!(packed_by(&set, Width::whole_chunk_cost) == form(&set));
        }
    }
}

#[test]
fn no_width_gives_a_shorter_chunk() {
    let mut random = Random::new(9);
    for _ in 0..1000 {
        let set = set(&mut random);
        let least = chunks(&form(&set));
        for b1 in 0..=6 {
            let other = chunks(&packed_by(&set, |width| width.b.abs_diff(b1)));
            assert_eq!(least.len(), other.len());
            assert!(least.iter().zip(&other).all(|(least, other)| least.len() <= other.len()));
        }
    }
}
