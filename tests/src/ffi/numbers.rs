//! The call that reads a number.

use super::{Lent, Memory};
use crate::generate::Random;
use crate::reference::varint::{Fault, Number};
use barcovento::raw::bv_number_read;

/// The four outputs.
#[derive(Clone, Copy, Debug, PartialEq, Eq)]
pub struct Read {
    pub found: u8,
    pub value: u32,
    pub used: u32,
    pub shortest: u8,
}

impl From<Result<Number, Fault>> for Read {
    fn from(number: Result<Number, Fault>) -> Read {
        let nothing = |found| Read { found, value: 0, used: 0, shortest: 0 };
        match number {
            Ok(Number { value, next, shortest }) => {
                Read { found: 0, value, used: next as u32, shortest: shortest.into() }
            }
            Err(Fault::CutShort) => nothing(1),
            Err(Fault::IllFormed) => nothing(2),
        }
    }
}

/// What the call sets, whatever the bytes.
pub fn read(bytes: &Lent<u8>, random: &mut Random) -> Result<Read, String> {
    let mut found = Lent::output("found", 1, random);
    let mut value = Lent::output("value", 1, random);
    let mut used = Lent::output("used", 1, random);
    let mut shortest = Lent::output("shortest", 1, random);
    let code = unsafe {
        bv_number_read(
            bytes.pointer(),
            bytes.length,
            found.pointer_mut(),
            value.pointer_mut(),
            used.pointer_mut(),
            shortest.pointer_mut(),
        )
    };
    if code != 0 {
        return Err(format!("the call returned {code}, not 0"));
    }
    bytes.unharmed(0)?;
    let outputs: [&dyn Memory; 4] = [&found, &value, &used, &shortest];
    outputs.iter().try_for_each(|output| output.unharmed(1))?;
    Ok(Read {
        found: found.value(),
        value: value.value(),
        used: used.value(),
        shortest: shortest.value(),
    })
}
