//! The rule of 01 before request (iv): a number is no longer than needed. For tests alone, which ask
//! every question by both rules.

use super::{is_shortest, Fault};
use std::cell::Cell;

thread_local! {
    static IN_FORCE: Cell<bool> = const { Cell::new(false) };
    static PADDED: Cell<bool> = const { Cell::new(false) };
}

/// The number at the place, and the place after it.
pub fn read(bytes: &[u8], place: usize) -> Result<(u32, usize), Fault> {
    let mut value = 0;
    for i in 0..5 {
        let &byte = bytes.get(place + i).ok_or(Fault::CutShort)?;
        if i == 4 && byte > 0x0F {
            return Err(Fault::IllFormed);
        }
        value |= u32::from(byte & 0x7F) << (7 * i);
        if byte < 0x80 {
            let padded = i > 0 && byte == 0;
            return if padded { Err(Fault::IllFormed) } else { Ok((value, place + i + 1)) };
        }
    }
    Err(Fault::IllFormed)
}

/// Whether this thread reads by the old rule.
pub fn in_force() -> bool {
    IN_FORCE.get()
}

/// What the question answers by the old rule.
pub fn ask<T>(question: impl FnOnce() -> T) -> T {
    IN_FORCE.set(true);
    let answer = question();
    IN_FORCE.set(false);
    answer
}

/// Takes note of a padded number.
pub fn note(bytes: &[u8], place: usize, number: Result<(u32, usize), Fault>) {
    if number.is_ok_and(|(_, next)| !is_shortest(&bytes[place..next])) {
        PADDED.set(true);
    }
}

/// What the question answers by the rule of today, and whether it came upon a padded number.
pub fn ask_today<T>(question: impl FnOnce() -> T) -> (T, bool) {
    PADDED.set(false);
    let answer = question();
    (answer, PADDED.get())
}

#[test]
fn padded_numbers_are_ill_formed() {
    let table: [&[u8]; 3] = [&[0x80, 0], &[0xFF, 0x80, 0], &[0x80, 0x80, 0x80, 0x80, 0]];
    for bytes in table {
        assert_eq!(read(bytes, 0), Err(Fault::IllFormed), "{bytes:?}");
        assert_eq!(ask(|| super::read(bytes, 0)), Err(Fault::IllFormed), "{bytes:?}");
        assert!(super::read(bytes, 0).is_ok());
    }
}
