//! Random plans of several steps: each step's bytes are the one form of the plan's set, which the
//! second program computes from plain lists.

use super::{hex, same, Tally, LONGEST_FORM, ROOM_FOR_ALL};
use crate::ffi::{combine, Lent};
use crate::generate::{bitmap as generate, Random};
use crate::reference::bitmap::{self as reference, Operation, OPERATIONS};

/// An input of a step: bytes, and the set they stand for.
struct Input {
    bytes: Vec<u8>,
    set: Vec<u32>,
}

pub fn run_case(_case: u64, random: &mut Random, tally: &mut Tally) -> Result<(), String> {
    let mut inputs = leaves(random);
    for step in 0..random.between(1, 8) {
        let first = random.below(inputs.len());
        let second = random.below(inputs.len());
        let operation = random.pick(&OPERATIONS);
        let set = combined(operation, &inputs[first].set, &inputs[second].set);
        let form = form(&set);
        let room = match random.below(10) {
            0 => random.below(form.len()),
            1 => form.len() + random.below(100),
            2 => form.len() + random.below(9_000),
            3 | 4 => ROOM_FOR_ALL,
            _ => form.len(),
        };
        let expected = if form.len() > room { Err(13) } else { Ok(form.clone()) };
        tally.count(&expected);
        let a = Lent::input("a", &inputs[first].bytes, random);
        let b = Lent::input("b", &inputs[second].bytes, random);
        let written = combine::combine(operation, &a, &b, room, random);
        let question = || {
            format!(
                "step {step}: {operation:?} with room {room}\na {}\nb {}",
                hex(&inputs[first].bytes),
                hex(&inputs[second].bytes)
            )
        };
        same(question, written, expected)?;
        if form.len() > room {
            return Ok(());
        }
        inputs.push(Input { bytes: form, set });
    }
    Ok(())
}

/// Accepted bitmaps in any of their shapes, the one written form and what the cost of a whole chunk gives
/// among them; at times two of the same set.
fn leaves(random: &mut Random) -> Vec<Input> {
    let first = generate::set(random);
    let mut sets = vec![first];
    for _ in 0..random.between(1, 3) {
        let set = match random.below(6) {
            0 => sets[0].clone(),
            1 | 2 => generate::set(random),
            _ => generate::related_set(random, &sets[0]),
        };
        sets.push(set);
    }
    let leaf = |set: Vec<u32>| Input { bytes: generate::sound(random, &set), set };
    sets.into_iter().map(leaf).collect()
}

fn form(set: &[u32]) -> Vec<u8> {
    let mut out = vec![0; LONGEST_FORM];
    let length = reference::write(set, &mut out).unwrap_or(0);
    out.truncate(length);
    out
}

/// The operation on two rising lists, by going through both.
fn combined(operation: Operation, first: &[u32], second: &[u32]) -> Vec<u32> {
    let mut result = Vec::new();
    let (mut i, mut j) = (0, 0);
    while i < first.len() || j < second.len() {
        let a = first.get(i).copied().unwrap_or(u32::MAX);
        let b = second.get(j).copied().unwrap_or(u32::MAX);
        let (in_first, in_second) = (a <= b, b <= a);
        i += usize::from(in_first);
        j += usize::from(in_second);
        let member = match operation {
            Operation::Union => true,
            Operation::Intersection => in_first && in_second,
            Operation::Difference => in_first && !in_second,
            Operation::SymmetricDifference => in_first != in_second,
        };
        if member {
            result.push(a.min(b));
        }
    }
    result
}
