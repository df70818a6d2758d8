//! Reading numbers in groups of seven bits, one after the other.

use super::{measure, Print};
use crate::ffi::numbers::Read;
use crate::generate::numbers::{fewest, push_form};
use crate::generate::Random;
use crate::reference::varint;
use barcovento::number::{self, Number};
use std::hint::black_box;
use std::slice::from_raw_parts;

type Call = unsafe extern "C" fn(*const u8, usize, *mut u8, *mut u32, *mut u32, *mut u8) -> u32;

const NUMBERS: usize = 100_000;

/// Numbers that have 1 to 5 bytes equally often; or the same, each in five bytes.
fn numbers(five_bytes: bool) -> Vec<u8> {
    let mut random = Random::new(5);
    let mut out = Vec::new();
    for _ in 0..NUMBERS {
        let bits = 7 * random.between(1, 5) as u32;
        let value = random.word() as u32 >> 32u32.saturating_sub(bits);
        push_form(value, if five_bytes { 5 } else { fewest(value) }, &mut out);
    }
    out
}

pub fn run(print: Print) {
    for (name, five_bytes) in [("1 to 5 bytes", false), ("padded to 5 bytes", true)] {
        let bytes = numbers(five_bytes);
        let input = format!("100,000 numbers, {name}");
        let before = earlier!(bv_number_read as Call);
        let (mut first, mut second) = (0, 0);
        print(measure(
            "number read",
            &input,
            before,
            &mut |call| {
                first = match call {
                    None => sum(&bytes, wrapped),
                    Some(call) => sum(&bytes, |rest| called(call, rest)),
                }
            },
            &mut || {
                let call = black_box(reference_read as Call);
                second = sum(&bytes, |rest| called(call, rest));
            },
        ));
        assert_eq!(first, second);
    }
}

/// The sum of the numbers that stand one after the other, each read with the number of its bytes.
fn sum(bytes: &[u8], read: impl Fn(&[u8]) -> (u32, u32)) -> u64 {
    let (mut sum, mut place) = (0, 0);
    while place < bytes.len() {
        let (value, used) = read(&bytes[place..]);
        sum += u64::from(value);
        // A call that reads nothing must not stay here for ever.
        place += used.max(1) as usize;
    }
    sum
}

fn wrapped(bytes: &[u8]) -> (u32, u32) {
    match number::read(bytes) {
        Number::Found { value, used, shortest } => {
            black_box(shortest);
            (value, used)
        }
        Number::CutShort | Number::IllFormed => (0, 0),
    }
}

fn called(call: Call, bytes: &[u8]) -> (u32, u32) {
    let (mut found, mut value, mut used, mut shortest) = (0, 0, 0, 0);
    let code = unsafe {
        call(bytes.as_ptr(), bytes.len(), &mut found, &mut value, &mut used, &mut shortest)
    };
    black_box((code, found, shortest));
    (value, used)
}

/// The second program, called as the library is.
unsafe extern "C" fn reference_read(
    bytes: *const u8,
    len: usize,
    found: *mut u8,
    value: *mut u32,
    used: *mut u32,
    shortest: *mut u8,
) -> u32 {
    let read = Read::from(varint::read_marked(from_raw_parts(bytes, len), 0));
    *found = read.found;
    *value = read.value;
    *used = read.used;
    *shortest = read.shortest;
    0
}
