//! Refusals: a number, and words for it.

use std::error::Error;
use std::fmt;

/// Why a bitmap is refused: the first rule that it breaks, and where (`bv_bitmap_explain`).
#[derive(Clone, Copy, Debug, PartialEq, Eq, Hash)]
pub struct Fault {
    /// The refusal, 1 to 11.
    pub number: u32,
    /// The chunk (4 to 8) or the container (10) at fault, from 0, else 0.
    pub index: usize,
    /// A place in the bitmap, from 0.
    pub byte: usize,
    /// What was found there, where the rule compares two numbers.
    pub found: usize,
    /// What was wanted there.
    pub wanted: usize,
}

impl fmt::Display for Fault {
    fn fmt(&self, f: &mut fmt::Formatter<'_>) -> fmt::Result {
        let Fault { index, byte, found, wanted, .. } = self;
        match self.number {
            1 => write!(f, "{found} bytes, under {wanted}"),
            2 => write!(f, "version {found}, not {wanted}"),
            3 => write!(f, "{found} containers, over {wanted}"),
            4 => write!(f, "chunk {index} at byte {byte}: descriptors cut short"),
            5 => write!(f, "chunk {index} at byte {byte}: b1, b2 and e break the width rules"),
            6 => write!(
                f,
                "chunk {index}: the exception offset at byte {byte} is not rising or too high"
            ),
            7 => write!(f, "chunk {index}: spare bits set at byte {byte}"),
            8 => write!(f, "chunk {index} at byte {byte}: descriptor {found}, over {wanted}"),
            9 => write!(
                f,
                "the containers start at byte {byte}: {found} bytes there, {wanted} asked for"
            ),
            10 => write!(
                f,
                "container {index} at byte {byte} is not rising, or is dense with under 32 members"
            ),
            _ => write!(f, "cardinality {found} stored, {wanted} counted"),
        }
    }
}

/// The one refusal that comes first. A refused call changed nothing.
#[derive(Clone, Copy, Debug, PartialEq, Eq, Hash)]
pub struct Refusal {
    number: u32,
    input: usize,
    fault: Option<Fault>,
}

impl Refusal {
    /// A refusal without a bitmap's fault.
    pub(crate) fn new(number: u32) -> Refusal {
        Refusal { number, input: 0, fault: None }
    }

    /// A refusal of the bitmap that was handed in as this one of the inputs, from 0.
    pub(crate) fn of_bitmap(fault: Fault, input: usize) -> Refusal {
        Refusal { number: fault.number, input, fault: Some(fault) }
    }

    /// The number of the refusal, as the header has it.
    pub fn number(&self) -> u32 {
        self.number
    }

    /// Of a refused bitmap its fault.
    pub fn fault(&self) -> Option<Fault> {
        self.fault
    }

    /// Which of the bitmaps handed in is refused, from 0; 0 for other refusals.
    pub fn input(&self) -> usize {
        self.input
    }

    /// The rule that is broken, in words. [`Display`](fmt::Display) has the place too.
    pub fn words(&self) -> &'static str {
        words(self.number)
    }
}

/// The rule behind a refusal's number.
fn words(number: u32) -> &'static str {
    match number {
        1 => "bitmap under 6 bytes",
        2 => "version not 1",
        3 => "over 8,192 containers",
        4 => "descriptors cut short",
        5 => "b1, b2 and e break the width rules",
        6 => "exception offsets not rising or too high",
        7 => "spare bits set in a chunk",
        8 => "descriptor over 63",
        9 => "bytes left are not the containers",
        10 => "sparse container not rising, or dense container with under 32 members",
        11 => "cardinality wrong",
        12 => "positions not strictly rising or too big",
        13 => "written form longer than its room",
        20 => "schema bad",
        21 => "block under 4 bytes or too long",
        22 => "row count negative, over 65,536, or offsets don't fit",
        23 => "rows and offsets don't touch",
        24 => "row bytes bad",
        25 => "row or column number absent",
        _ => later_words(number),
    }
}

/// The same for buckets and stores.
fn later_words(number: u32) -> &'static str {
    match number {
        30 => "bucket: wrong column count, children, or ill-formed header number",
        31 => "bucket cut short",
        32 => "bad value or ill-formed length",
        33 => "bad number of entries, or index past them",
        34 => "spare bits set",
        35 => "null in a NOT NULL column",
        36 => "bytes left over",
        37 => "bucket too long or over 65,536 rows",
        40 => "store: slot number over 63",
        41 => "store: fetch or drop of an empty slot",
        42 => "store: not written forms lying apart, or a saved store that is bad or does not fit",
        44 => "store: a slot that is not the owner's",
        _ => "unknown refusal",
    }
}

impl fmt::Display for Refusal {
    fn fmt(&self, f: &mut fmt::Formatter<'_>) -> fmt::Result {
        match &self.fault {
            Some(fault) => write!(f, "refused {}: {fault}", self.number),
            None => write!(f, "refused {}: {}", self.number, self.words()),
        }
    }
}

impl Error for Refusal {}

/// The outcome of a call that returned this status.
#[inline]
pub(crate) fn settled(status: u32) -> Result<(), Refusal> {
    match status {
        0 => Ok(()),
        number => Err(Refusal::new(number)),
    }
}

#[cfg(test)]
mod tests {
    use super::*;

    #[test]
    fn every_number_of_the_header_has_words() {
        let header = include_str!("../../../include/barcovento.h");
        let table = header.split("Refusals:").nth(1).unwrap().split("*/").next().unwrap();
        let mut numbers = 0;
        for word in table.split_whitespace() {
            if let Ok(number) = word.parse::<u32>() {
                if (1..=44).contains(&number) && word.len() <= 2 && !["32", "63"].contains(&word) {
                    numbers += 1;
                    assert_ne!(words(number), "unknown refusal", "{number}");
                }
            }
        }
        assert!(numbers >= 29, "{numbers}");
        assert_eq!(words(14), "unknown refusal");
    }
}
