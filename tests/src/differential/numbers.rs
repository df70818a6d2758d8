//! Numbers in groups of seven bits.

use super::{edge_number, hex, same, Tally};
use crate::ffi::numbers::{read, Read};
use crate::ffi::Lent;
use crate::generate::{numbers as generate, Random};
use crate::reference::varint;

pub fn run_case(case: u64, random: &mut Random, tally: &mut Tally) -> Result<(), String> {
    let inputs = edge_number(case).and_then(generate::edge);
    for input in inputs.unwrap_or_else(|| vec![generate::input(random)]) {
        let expected = Read::from(varint::read_marked(&input, 0));
        tally.count(&match expected.found {
            0 => Ok(()),
            found => Err(u32::from(found)),
        });
        let lent = Lent::input("bytes", &input, random);
        same(|| format!("number read {}", hex(&input)), read(&lent, random), expected)?;
    }
    Ok(())
}
