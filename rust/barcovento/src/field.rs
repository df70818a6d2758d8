//! The answer for one field, and pages of them.

use crate::raw;

/// The answer for one field of a block or bucket.
#[derive(Clone, Copy, Debug, PartialEq)]
pub enum Field<'a> {
    /// No value.
    Null,
    /// BOOLEAN.
    YesNo(bool),
    /// Integers, DATE, TIME, and DECIMAL up to precision 18 without its point.
    Whole(i64),
    /// FLOAT, with exactly the stored bits.
    Float(f32),
    /// DOUBLE, with exactly the stored bits.
    Double(f64),
    /// TIMESTAMP: the stored count in its own unit, and nanoseconds, 0 where none are stored.
    Time {
        /// The stored count.
        count: i64,
        /// The nanoseconds.
        nanos: u32,
    },
    /// Text, bytes, and DECIMAL over precision 18 (big endian, two's complement): that part of the block
    /// or bucket itself.
    Bytes(&'a [u8]),
}

impl<'a> Field<'a> {
    /// The field behind three numbers of a page, in these bytes.
    fn of_numbers(numbers: &[u64], bytes: &'a [u8]) -> Field<'a> {
        let (second, third) = (numbers[1], numbers[2]);
        match numbers[0] as u8 {
            raw::NULL => Field::Null,
            raw::YES_NO => Field::YesNo(second == 1),
            raw::WHOLE => Field::Whole(second as i64),
            raw::FLOAT => Field::Float(f32::from_bits(second as u32)),
            raw::DOUBLE => Field::Double(f64::from_bits(second)),
            raw::TIME => Field::Time { count: second as i64, nanos: third as u32 },
            _ => Field::Bytes(&bytes[second as usize..(second + third) as usize]),
        }
    }
}

/// The six outputs of a field call.
#[derive(Default)]
pub(crate) struct Outputs {
    pub kind: u8,
    pub whole: i64,
    pub bits: u64,
    pub nanos: u32,
    pub start: usize,
    pub length: usize,
}

impl Outputs {
    pub(crate) fn field<'a>(&self, bytes: &'a [u8]) -> Field<'a> {
        let second = match self.kind {
            raw::YES_NO | raw::WHOLE | raw::TIME => self.whole as u64,
            raw::FLOAT | raw::DOUBLE => self.bits,
            _ => self.start as u64,
        };
        let third = if self.kind == raw::TIME { self.nanos.into() } else { self.length as u64 };
        Field::of_numbers(&[self.kind.into(), second, third], bytes)
    }
}

/// Some rows of a block, or of one column of a bucket: three numbers for each field.
#[derive(Clone, Debug)]
pub struct Page<'a> {
    pub(crate) first: u32,
    pub(crate) columns: usize,
    pub(crate) numbers: Vec<u64>,
    pub(crate) bytes: &'a [u8],
}

impl<'a> Page<'a> {
    /// The number of the page's first row.
    pub fn first(&self) -> u32 {
        self.first
    }

    /// How many rows the page has.
    pub fn rows(&self) -> usize {
        self.numbers.len() / (3 * self.columns)
    }

    /// How many columns the page has: those of the block, or 1.
    pub fn columns(&self) -> usize {
        self.columns
    }

    /// The fields as numbers, row by row: the kind (see [`raw`]), and two numbers.
    pub fn numbers(&self) -> &[u64] {
        &self.numbers
    }

    /// A field of the page's row, counted from its first.
    ///
    /// # Panics
    /// If the page has no such row or column.
    pub fn field(&self, row: usize, column: usize) -> Field<'a> {
        assert!(column < self.columns, "column {column} of {}", self.columns);
        let at = 3 * (row * self.columns + column);
        Field::of_numbers(&self.numbers[at..at + 3], self.bytes)
    }
}
