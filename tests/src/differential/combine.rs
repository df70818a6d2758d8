//! The four set operations, bytes to bytes.

use super::{edge_number, hex, room_to_combine, same, Tally, LONGEST_FORM};
use crate::ffi::{combine, Lent};
use crate::generate::{bitmap as generate, Random};
use crate::reference::bitmap::{self as reference, OPERATIONS};

pub fn run_case(case: u64, random: &mut Random, tally: &mut Tally) -> Result<(), String> {
    let (first, second) = match edge_number(case).and_then(generate::edge_pair) {
        Some(pair) => pair,
        None => any_pair(random),
    };
    let a = Lent::input("a", &first, random);
    let b = Lent::input("b", &second, random);
    let twice = random.once_in(8);
    let (b, second) = if twice { (&a, &first) } else { (&b, &second) };
    for operation in OPERATIONS {
        let mut form = vec![0; (first.len() + second.len() + 8400).min(LONGEST_FORM)];
        let length = reference::combine(operation, &first, second, &mut form).unwrap_or(20);
        for _ in 0..2 {
            let room = room_to_combine(random, length);
            let mut out = vec![0; room];
            let expected = reference::combine(operation, &first, second, &mut out)
                .map(|length| out[..length].to_vec());
            tally.count(&expected);
            let question =
                || format!("{operation:?} with room {room}\na {}\nb {}", hex(&first), hex(second));
            same(question, combine::combine(operation, &a, b, room, random), expected)?;
        }
    }
    Ok(())
}

fn any_pair(random: &mut Random) -> (Vec<u8>, Vec<u8>) {
    let set = generate::set(random);
    let other = match random.below(6) {
        0 => set.clone(),
        1 | 2 => generate::set(random),
        _ => generate::related_set(random, &set),
    };
    (any_bitmap(random, &set), any_bitmap(random, &other))
}

fn any_bitmap(random: &mut Random, set: &[u32]) -> Vec<u8> {
    if random.once_in(5) {
        generate::damaged(random, set)
    } else {
        generate::sound(random, set)
    }
}
