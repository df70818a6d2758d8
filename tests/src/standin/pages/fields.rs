//! Pages whose fields have wrong numbers.

use super::super::{places, planted};
use super::{Listed, Outputs};
use crate::generate::numbers::fewest;
use crate::reference::rows::Block;
use crate::reference::schema;

type Numbers = [u64; 3];

/// Changes a field's numbers; the list held the others before.
type Fault = fn(&mut Numbers, Numbers);

pub const FAULTS: &[(&str, Fault)] = &[
    ("page-null-not-written", |field, before| {
        if field[0] == 0 {
            *field = before;
        }
    }),
    ("page-null-kind-alone-written", |field, before| {
        if field[0] == 0 {
            *field = [0, before[1], before[2]];
        }
    }),
    ("page-null-kind-not-written", |field, before| {
        if field[0] == 0 {
            field[0] = before[0];
        }
    }),
    ("page-third-number-not-set", |field, before| {
        if (1..=4).contains(&field[0]) {
            field[2] = before[2];
        }
    }),
    ("page-third-number-not-set-without-nanoseconds", |field, before| {
        if field[0] == 5 && field[2] == 0 {
            field[2] = before[2];
        }
    }),
    ("page-yes-not-1", |field, _| {
        if field[0] == 1 {
            field[1] *= 255;
        }
    }),
    ("page-yes-no-as-whole", |field, _| {
        if field[0] == 1 {
            field[0] = 2;
        }
    }),
    ("page-whole-of-8-bits-not-signed", |field, _| unsigned(field, 2, i8::MIN.into())),
    ("page-whole-of-32-bits-not-signed", |field, _| unsigned(field, 2, i32::MIN.into())),
    ("page-whole-in-32-bits", |field, _| {
        if field[0] == 2 {
            field[1] = field[1] as i32 as u64;
        }
    }),
    ("page-count-in-32-bits", |field, _| {
        if field[0] == 5 {
            field[1] = field[1] as i32 as u64;
        }
    }),
    ("page-negative-count-as-0", |field, _| {
        if field[0] == 5 {
            field[1] = (field[1] as i64).max(0) as u64;
        }
    }),
    ("page-nanoseconds-forgotten", |field, _| {
        if field[0] == 5 {
            field[2] = 0;
        }
    }),
    ("page-nanoseconds-in-16-bits", |field, _| {
        if field[0] == 5 {
            field[2] &= 0xFFFF;
        }
    }),
    ("page-time-as-whole", |field, _| {
        if field[0] == 5 && field[2] == 0 {
            field[0] = 2;
        }
    }),
    ("page-length-and-start-swapped", |field, _| {
        if field[0] == 6 {
            field.swap(1, 2);
        }
    }),
    ("page-end-for-length", |field, _| {
        if field[0] == 6 {
            field[2] += field[1];
        }
    }),
    ("page-start-at-its-length", |field, _| {
        if field[0] == 6 {
            field[1] -= 1;
        }
    }),
    ("page-empty-place-as-null", |field, _| {
        if field[0] == 6 && field[2] == 0 {
            *field = [0; 3];
        }
    }),
    ("page-length-in-a-byte", |field, _| {
        if field[0] == 6 {
            field[2] &= 0xFF;
        }
    }),
    ("page-float-widened", |field, _| {
        if field[0] == 3 {
            field[1] = f64::from(f32::from_bits(field[1] as u32)).to_bits();
        }
    }),
    ("page-float-signed", |field, _| {
        if field[0] == 3 {
            field[1] = field[1] as i32 as u64;
        }
    }),
    ("page-float-as-double", |field, _| {
        if field[0] == 3 {
            field[0] = 4;
        }
    }),
    ("page-nan-made-quiet", |field, _| {
        if field[0] == 3 && f32::from_bits(field[1] as u32).is_nan() {
            field[1] |= 1 << 22;
        }
    }),
    ("page-double-nan-made-quiet", |field, _| {
        if field[0] == 4 && f64::from_bits(field[1]).is_nan() {
            field[1] |= 1 << 51;
        }
    }),
    ("page-minus-zero-as-zero", |field, _| {
        if field[0] == 4 && field[1] == 1 << 63 {
            field[1] = 0;
        }
    }),
];

/// A negative number of this kind, at least the least one, without the bits over those of the least.
fn unsigned(field: &mut Numbers, kind: u64, least: i64) {
    if field[0] == kind && (least..0).contains(&(field[1] as i64)) {
        field[1] &= least.unsigned_abs() * 2 - 1;
    }
}

/// Writes so many of the numbers to the list's start.
pub unsafe fn write(to: &Outputs, numbers: &[u64], written: usize) {
    let fault = FAULTS.iter().find(|(name, _)| planted(name)).map(|(_, fault)| fault);
    for (i, numbers) in numbers.chunks(3).take(written.div_ceil(3)).enumerate() {
        let places = (3 * i..written.min(3 * i + 3)).map(|place| to.list.add(place));
        let mut field: Numbers = numbers.try_into().unwrap_or([0; 3]);
        if let (Some(fault), 3) = (fault, places.len()) {
            let mut held = places.clone().map(|place| place.read());
            fault(&mut field, [(); 3].map(|()| held.next().unwrap_or(0)));
        }
        places.zip(field).for_each(|(place, number)| place.write(number));
    }
}

/// Wrong nulls and starts of places in blocks.
pub const OF_BLOCKS: [&str; 5] =
    [NULLS_OF_A_BYTE, NULLS_OF_A_ROW, IN_THE_ROW, BEHIND_THE_NULLS, AS_IF_SHORTEST];
const NULLS_OF_A_BYTE: &str = "page-nulls-of-the-first-byte";
const NULLS_OF_A_ROW: &str = "page-nulls-of-the-row-before";
const IN_THE_ROW: &str = "page-start-in-the-row";
const BEHIND_THE_NULLS: &str = "page-start-behind-the-null-bitmap";
pub const AS_IF_SHORTEST: &str = "page-start-as-if-shortest";

/// All fields of a block, with wrong ones if they are planted.
pub fn of_block(schema: &[u8], block: &[u8]) -> Result<Listed, u32> {
    let judged = Block::judge(schema, block)?;
    let columns = schema::read(schema)?;
    let (rows, numbers) = (judged.rows() as u32, 3 * columns.len());
    let mut all = vec![0; rows as usize * numbers];
    judged.page(0, &mut all);
    if planted(NULLS_OF_A_BYTE) {
        all.chunks_mut(numbers).for_each(|row| null_as(row, |at| Some(at % 24)));
    }
    if planted(NULLS_OF_A_ROW) {
        null_as(&mut all, |at| at.checked_sub(numbers));
    }
    if planted(AS_IF_SHORTEST) {
        start_as_if_shortest(&mut all, &places::of_block(&columns, block));
    }
    let offsets = &block[block.len() - 4 - 4 * rows as usize..];
    for (row, offset) in all.chunks_mut(numbers).zip(offsets.chunks(4)) {
        for field in row.chunks_mut(3).filter(|field| field[0] == 6) {
            if planted(IN_THE_ROW) {
                field[1] -= u64::from(u32::from_le_bytes(offset.try_into().unwrap()));
            }
            if planted(BEHIND_THE_NULLS) {
                field[1] -= columns.len().div_ceil(8) as u64;
            }
        }
    }
    Ok(Listed { rows, numbers, all })
}

/// Makes a field null where another, if there is one, is null: from where it stands to where that stands.
fn null_as(all: &mut [u64], other: impl Fn(usize) -> Option<usize>) {
    let right = all.to_vec();
    for (i, field) in all.chunks_mut(3).enumerate() {
        if other(3 * i).is_some_and(|at| right[at] == 0) {
            field.fill(0);
        }
    }
}

/// Lets places start where they would if their lengths had no padding.
pub fn start_as_if_shortest(all: &mut [u64], walk: &places::Walk) {
    for field in all.chunks_mut(3).filter(|field| field[0] == 6) {
        let spot = walk.spots.iter().find(|spot| spot.end as u64 == field[1]);
        if let Some(spot) = spot {
            field[1] = (spot.start + fewest(field[2] as u32)) as u64;
        }
    }
}
