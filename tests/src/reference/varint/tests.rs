use super::*;
use crate::generate::numbers::{fewest, push_form};
use crate::generate::Random;

const BOUNDARIES: [u32; 10] =
    [0, 127, 128, (1 << 14) - 1, 1 << 14, (1 << 21) - 1, 1 << 21, (1 << 28) - 1, 1 << 28, u32::MAX];

fn form(value: u32, count: usize) -> Vec<u8> {
    let mut out = Vec::new();
    push_form(value, count, &mut out);
    out
}

#[test]
fn numbers_of_source_000() {
    let table: [(&[u8], u32); 7] = [
        (&[0], 0),
        (&[0x7F], 127),
        (&[0x80, 1], 128),
        (&[0xFF, 0x7F], 16_383),
        (&[0x80, 0x80, 1], 16_384),
        (&[0xFF, 0xFF, 0xFF, 0xFF, 0x0F], u32::MAX),
        (&[0x80, 0x80, 0x80, 0x80, 1], 1 << 28),
    ];
    for (bytes, value) in table {
        assert_eq!(read_marked(bytes, 0), Ok(Number { value, next: bytes.len(), shortest: true }));
        assert_eq!(form(value, fewest(value)), bytes);
    }
}

#[test]
fn every_boundary_in_every_form() {
    for value in BOUNDARIES {
        let counts = fewest(value)..=5;
        for count in counts.clone() {
            let bytes = form(value, count);
            let number = Number { value, next: count, shortest: count == *counts.start() };
            assert_eq!(read_marked(&bytes, 0), Ok(number), "{bytes:?}");
            for cut in 0..count {
                assert_eq!(read_marked(&bytes[..cut], 0), Err(Fault::CutShort), "{bytes:?}");
            }
            for behind in [&[0][..], &[0x80], &[0xFF; 6]] {
                assert_eq!(read_marked(&[&bytes, behind].concat(), 0), Ok(number), "{bytes:?}");
            }
            let later = Number { next: count + 2, ..number };
            assert_eq!(
                read_marked(&[&[0x80, 0x80][..], &bytes].concat(), 2),
                Ok(later),
                "{bytes:?}"
            );
        }
    }
}

#[test]
fn one_form_is_shortest() {
    for value in BOUNDARIES {
        let marked = |&count: &usize| {
            read_marked(&form(value, count), 0).is_ok_and(|number| number.shortest)
        };
        let shortest: Vec<usize> = (fewest(value)..=5).filter(marked).collect();
        assert_eq!(shortest, [fewest(value)], "{value}");
    }
    assert_eq!(read_marked(&[0], 0), Ok(Number { value: 0, next: 1, shortest: true }));
    assert_eq!(read_marked(&[0x80, 0], 0), Ok(Number { value: 0, next: 2, shortest: false }));
    let five = [0x80, 0x80, 0x80, 0x80, 0];
    assert_eq!(read_marked(&five, 0), Ok(Number { value: 0, next: 5, shortest: false }));
}

/// Readers that don't ask for the mark get the same.
#[test]
fn with_and_without_the_mark() {
    for value in BOUNDARIES {
        for bytes in (fewest(value)..=5).map(|count| form(value, count)) {
            assert_eq!(read(&bytes, 0), Ok((value, bytes.len())));
            assert_eq!(read(&bytes[1..], 0).is_err(), bytes.len() == 1);
        }
    }
}

#[test]
fn ill_formed_numbers() {
    for first in [0x80, 0x83, 0xFF] {
        for fifth in 0x10..=0xFF {
            let bytes = [first, 0x80, 0x80, 0xFF, fifth];
            assert_eq!(read_marked(&bytes, 0), Err(Fault::IllFormed), "{bytes:?}");
            for behind in [0, 1, 0x0F, 0x80, 0xFF] {
                let longer = [&bytes[..], &[behind]].concat();
                assert_eq!(read_marked(&longer, 0), Err(Fault::IllFormed), "{longer:?}");
            }
        }
    }
}

/// What the old rule reads is read the same and marked shortest, and nothing else is so marked.
#[test]
fn shortest_is_what_the_old_rule_reads() {
    let mut random = Random::new(5);
    for _ in 0..200_000 {
        let length = random.below(7);
        let high = random.pick(&[0, 0x80]);
        let bytes: Vec<u8> = random
            .bytes(length)
            .iter()
            .map(|byte| byte & random.pick(&[0x80, 0x81, 0x8F, 0xFF]) | high & random.byte())
            .collect();
        match (read_marked(&bytes, 0), old::read(&bytes, 0)) {
            (Ok(number), old) if number.shortest => {
                assert_eq!(old, Ok((number.value, number.next)), "{bytes:?}");
            }
            (Ok(_), old) => assert_eq!(old, Err(Fault::IllFormed), "{bytes:?}"),
            (Err(fault), old) => assert_eq!(old, Err(fault), "{bytes:?}"),
        }
    }
}
