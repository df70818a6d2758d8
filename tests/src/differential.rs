//! The comparison of the library with the second program, case by case.

use crate::ffi::Called;
use crate::generate::Random;
use std::collections::BTreeMap;
use std::fmt::Debug;

mod bitmap_read;
mod bitmap_write;
mod buckets;
mod combine;
mod numbers;
mod pages;
mod plans;
mod rows;
mod store;

/// How often each refusal number was reached; 0 stands for acceptance.
#[derive(Default)]
pub struct Tally(pub BTreeMap<u32, u64>);

impl Tally {
    pub fn count<T>(&mut self, outcome: &Result<T, u32>) {
        let number = outcome.as_ref().err().copied().unwrap_or(0);
        *self.0.entry(number).or_default() += 1;
    }

    /// Counts the outcome of one of several calls: its number, and 100 for each call before it.
    pub fn count_call<T>(&mut self, call: u32, outcome: &Result<T, u32>) {
        let number = outcome.as_ref().err().copied().unwrap_or(0);
        *self.0.entry(100 * call + number).or_default() += 1;
    }
}

/// The case of this number: some are edges, the others random. A difference is an error that shows
/// the inputs and both answers.
type RunCase = fn(u64, &mut Random, &mut Tally) -> Result<(), String>;

pub struct Group {
    pub name: &'static str,
    /// The refusal numbers that a run must reach, beside acceptance.
    pub refusals: &'static [u32],
    /// How often it must reach each.
    pub times: u64,
    pub default_cases: u64,
    pub run_case: RunCase,
}

/// All groups of cases.
pub fn groups() -> Vec<Group> {
    vec![
        Group {
            name: "bitmap_read",
            refusals: &[1, 2, 3, 4, 5, 6, 7, 8, 9, 10, 11],
            times: 1,
            default_cases: 200_000,
            run_case: bitmap_read::run_case,
        },
        Group {
            name: "bitmap_write",
            refusals: &[12, 13],
            times: 1,
            default_cases: 50_000,
            run_case: bitmap_write::run_case,
        },
        Group {
            name: "combine",
            refusals: &[1, 2, 3, 4, 5, 6, 7, 8, 9, 10, 11, 13],
            times: 1,
            default_cases: 50_000,
            run_case: combine::run_case,
        },
        Group {
            name: "plans",
            refusals: &[13],
            times: 1,
            default_cases: 10_000,
            run_case: plans::run_case,
        },
        Group {
            name: "store",
            refusals: &store::OUTCOMES,
            times: 30,
            default_cases: 20_000,
            run_case: store::run_case,
        },
        Group {
            name: "replay",
            refusals: &store::replay::OUTCOMES,
            times: 30,
            default_cases: 10_000,
            run_case: store::replay::run_case,
        },
        Group {
            name: "numbers",
            // No refusals: what was found.
            refusals: &[1, 2],
            times: 1,
            default_cases: 200_000,
            run_case: numbers::run_case,
        },
        Group {
            name: "rows",
            refusals: &ROW_OUTCOMES,
            times: 1,
            default_cases: 200_000,
            run_case: rows::run_case,
        },
        Group {
            name: "buckets",
            refusals: &BUCKET_OUTCOMES,
            times: 1,
            default_cases: 200_000,
            run_case: buckets::run_case,
        },
    ]
}

/// The refusals of check and field, then the outcomes of pages.
const ROW_OUTCOMES: [u32; 12] = [20, 21, 22, 23, 24, 25, 100, 120, 121, 122, 123, 124];
/// The refusals of check and field, then the outcomes of pages.
const BUCKET_OUTCOMES: [u32; 21] =
    [20, 25, 30, 31, 32, 33, 34, 35, 36, 37, 100, 120, 125, 130, 131, 132, 133, 134, 135, 136, 137];

/// The cases from here on are the edges of a group, as many as it has.
const FIRST_EDGE: u64 = 1000;

fn edge_number(case: u64) -> Option<u64> {
    case.checked_sub(FIRST_EDGE)
}

/// Each case has its own random numbers, so it can be run again alone.
pub fn case_random(seed: u64, group: &Group, case: u64) -> Random {
    let name = group
        .name
        .bytes()
        .fold(0u64, |sum, byte| sum.wrapping_mul(0x100_0000_01B3).wrapping_add(u64::from(byte)));
    let mut first = Random::new(seed ^ name);
    Random::new(first.word() ^ case.wrapping_mul(0xA076_1D64_78BD_642F))
}

const SHOWN: usize = 4000;

pub fn hex(bytes: &[u8]) -> String {
    let mut text: Vec<String> = bytes.iter().take(SHOWN).map(|b| format!("{b:02X}")).collect();
    if bytes.len() > SHOWN {
        text.push("...".to_string());
    }
    format!("({} bytes) {}", bytes.len(), text.join(" "))
}

fn short<T: Debug>(answer: &T) -> String {
    let text = format!("{answer:?}");
    match text.char_indices().nth(SHOWN) {
        Some((end, _)) => format!("{} ...", &text[..end]),
        None => text,
    }
}

/// An error with both answers unless they are the same.
fn same<T: Debug + PartialEq>(
    question: impl FnOnce() -> String,
    library: Result<T, String>,
    reference: T,
) -> Result<(), String> {
    match library {
        Ok(answer) if answer == reference => Ok(()),
        Ok(answer) => Err(format!(
            "{}\nlibrary:   {}\nreference: {}",
            question(),
            short(&answer),
            short(&reference)
        )),
        Err(harm) => {
            Err(format!("{}\nlibrary:   {harm}\nreference: {}", question(), short(&reference)))
        }
    }
}

const LONGEST_FORM: usize = 267_366;
/// 01: "No written form is longer than 268,390 bytes".
const ROOM_FOR_ALL: usize = 268_390;

/// A room near the length of the form, or far from it.
fn room_around(random: &mut Random, length: usize) -> usize {
    match random.below(8) {
        0 => 0,
        1 => random.below(length),
        2 => length - 1,
        3 => length + 1,
        4 => length + random.below(300),
        _ => length,
    }
}

/// A room near the length of the form; or one so large that a combining call may write before it has
/// counted the length, with bytes far behind the form that must stay.
fn room_to_combine(random: &mut Random, length: usize) -> usize {
    match random.below(6) {
        0 => ROOM_FOR_ALL,
        1 => LONGEST_FORM,
        2 => length + random.below(9_000),
        _ => room_around(random, length),
    }
}

/// An answer, with the bytes of its places instead of the places.
fn by_bytes<A, B>(
    answer: Called<A>,
    by_bytes: impl FnOnce(A) -> Result<B, String>,
) -> Result<Result<B, u32>, String> {
    answer?.map_or_else(|refusal| Ok(Err(refusal)), |answer| by_bytes(answer).map(Ok))
}

/// A row or column to ask for: mostly one of `count`, at times an absent one.
fn any_index(random: &mut Random, count: usize) -> u32 {
    match random.below(12) {
        0 => count as u32,
        1 => random.pick(&[0, 64, 65_536, u32::MAX]),
        _ => random.below(count.max(1)) as u32,
    }
}
