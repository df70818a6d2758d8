//! Check, explain, probe, rank and pages.

use super::{edge_number, hex, same, Tally};
use crate::ffi::{read, Lent};
use crate::generate::{bitmap as generate, Random};
use crate::reference::bitmap::explain::explain;
use crate::reference::bitmap::{Bitmap, Page};

pub fn run_case(case: u64, random: &mut Random, tally: &mut Tally) -> Result<(), String> {
    let set = generate::set(random);
    let bytes = match edge_number(case).and_then(generate::edge) {
        Some(bytes) => bytes,
        None if random.once_in(2) => generate::sound(random, &set),
        None => generate::damaged(random, &set),
    };
    let lent = Lent::input("bytes", &bytes, random);
    let judged = Bitmap::judge(&bytes);
    let cardinality = judged.as_ref().map(|bitmap| bitmap.cardinality()).map_err(|&r| r);
    tally.count(&cardinality);
    let checked = read::check(&lent, random);
    same(|| format!("check {}", hex(&bytes)), checked.clone(), cardinality)?;
    compare_explain(&lent, checked?, random)?;
    let asked = if bytes.len() > 5000 { 2 } else { 6 };
    for _ in 0..asked {
        let position = any_position(random, &set);
        compare_probe(&lent, &judged, position, random)?;
        compare_rank(&lent, &judged, position, random)?;
    }
    for _ in 0..asked / 2 {
        let place = any_position(random, &set);
        let finished = random.pick(&[0, 0, 0, 1, 2, 255]);
        let room = random.pick(&[0, 1, 2, 31, 300]);
        compare_page(&lent, &judged, place, finished, room, random)?;
    }
    walk_pages(&lent, &judged, random)
}

/// Members, their neighbours, other positions, and numbers that are no positions.
fn any_position(random: &mut Random, set: &[u32]) -> u32 {
    let member = if set.is_empty() { 0 } else { random.pick(set) };
    match random.below(9) {
        0 => random.word() as u32,
        1 => random.below(2_097_152) as u32,
        2 => random.pick(&[0, 255, 256, 2_097_151, 2_097_152, u32::MAX]),
        3 => member + (1 << random.between(21, 31)),
        4 => member.wrapping_sub(1),
        5 => member + 1,
        6 => set.last().map_or(0, |&last| last + 1),
        _ => member,
    }
}

/// Compares the five numbers, of which the first is the refusal that the library's check gave.
fn compare_explain(
    lent: &Lent<u8>,
    checked: Result<u32, u32>,
    random: &mut Random,
) -> Result<(), String> {
    let question = |what| format!("{what} {}", hex(lent.content()));
    let expected = explain(lent.content()).unwrap_or_default();
    let told = read::explain(lent, random);
    same(|| question("explain"), told.clone(), expected)?;
    let number = told.map(|fault| fault.number);
    same(|| question("explain's number, against check,"), number, checked.err().unwrap_or(0))
}

type Judged<'a> = Result<Bitmap<'a>, u32>;

fn compare_probe(
    lent: &Lent<u8>,
    judged: &Judged,
    position: u32,
    random: &mut Random,
) -> Result<(), String> {
    let expected = judged.as_ref().map(|bitmap| bitmap.contains(position)).map_err(|&r| r);
    let question = || format!("probe {position} in {}", hex(lent.content()));
    same(question, read::probe(lent, position, random), expected)
}

fn compare_rank(
    lent: &Lent<u8>,
    judged: &Judged,
    position: u32,
    random: &mut Random,
) -> Result<(), String> {
    let expected = judged.as_ref().map(|bitmap| bitmap.rank(position)).map_err(|&r| r);
    let question = || format!("rank {position} in {}", hex(lent.content()));
    same(question, read::rank(lent, position, random), expected)
}

/// Compares one page, and returns the place and mark after it.
fn compare_page(
    lent: &Lent<u8>,
    judged: &Judged,
    place: u32,
    finished: u8,
    room: usize,
    random: &mut Random,
) -> Result<Option<Page>, String> {
    let mut list = vec![0; room];
    let page = reference_page(judged, place, finished, &mut list);
    let expected = page.map(|page| {
        let mark = if finished != 0 { finished } else { u8::from(page.finished) };
        (page.place, mark, list[..page.given].to_vec())
    });
    let question = || {
        format!("page from {place}, finished {finished}, room {room} in {}", hex(lent.content()))
    };
    same(question, read::page(lent, place, finished, room, random), expected)?;
    Ok(page.ok())
}

fn reference_page(
    judged: &Judged,
    place: u32,
    finished: u8,
    list: &mut [u32],
) -> Result<Page, u32> {
    match judged {
        Err(refusal) => Err(*refusal),
        Ok(_) if finished != 0 => Ok(Page { place, finished: true, given: 0 }),
        Ok(bitmap) => Ok(bitmap.page(place, list)),
    }
}

/// Pages one after the other, until the listing is finished.
fn walk_pages(lent: &Lent<u8>, judged: &Judged, random: &mut Random) -> Result<(), String> {
    let Ok(bitmap) = judged else { return Ok(()) };
    let most = bitmap.cardinality() as usize / random.between(1, 12) + 2;
    let mut page = Page { place: 0, finished: false, given: 0 };
    while !page.finished {
        let room = random.below(most) + usize::from(random.once_in(2));
        match compare_page(lent, judged, page.place, 0, room, random)? {
            Some(next) => page = next,
            None => break,
        }
    }
    compare_page(lent, judged, page.place, 1, 3, random)?;
    Ok(())
}
