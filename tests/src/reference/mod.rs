//! The second program: the formats of document 01 in plain Rust, written from the papers alone.
//!
//! Every function takes any bytes and any numbers, and returns its answer or the one refusal number.

pub mod bitmap;
pub mod buckets;
pub mod rows;
pub mod schema;
pub mod store;
pub mod varint;

#[cfg(test)]
mod agreement;
#[cfg(test)]
mod samples;

/// A refusal number of document 01.
pub type Refusal = u32;

/// The largest block or bucket.
pub const MAX_BYTES: usize = 16_777_216;
/// The most rows of a block or bucket.
pub const MAX_ROWS: u32 = 65_536;

/// What a field shows, in row blocks and in buckets.
#[derive(Clone, Copy, Debug, PartialEq, Eq)]
pub enum Answer {
    Null,
    YesNo(bool),
    Whole(i64),
    /// The stored bits of a FLOAT.
    Float(u32),
    /// The stored bits of a DOUBLE.
    Double(u64),
    /// A TIMESTAMP: the stored count in its own unit.
    Time {
        count: i64,
        nanos: u32,
    },
    /// Text, bytes or a large DECIMAL: where they lie in the block or bucket.
    Place {
        start: usize,
        length: usize,
    },
}

impl Answer {
    /// The three numbers of a field in a page: the number of its kind, and what it shows.
    #[inline(always)]
    pub fn numbers(self) -> [u64; 3] {
        match self {
            Answer::Null => [0, 0, 0],
            Answer::YesNo(yes) => [1, yes.into(), 0],
            Answer::Whole(whole) => [2, whole as u64, 0],
            Answer::Float(bits) => [3, bits.into(), 0],
            Answer::Double(bits) => [4, bits, 0],
            Answer::Time { count, nanos } => [5, count as u64, nanos.into()],
            Answer::Place { start, length } => [6, start as u64, length as u64],
        }
    }
}

/// How many rows a page gives: those from the place on, as many as the room takes; each takes so many
/// numbers.
fn page_rows(rows: usize, place: u32, room: usize, numbers: usize) -> usize {
    rows.saturating_sub(place as usize).min(room / numbers)
}

#[cfg(test)]
mod tests {
    use super::*;

    #[test]
    fn numbers_of_each_kind() {
        let nan = f64::NAN.to_bits() | 1;
        let table = [
            (Answer::Null, [0, 0, 0]),
            (Answer::YesNo(false), [1, 0, 0]),
            (Answer::YesNo(true), [1, 1, 0]),
            (Answer::Whole(-1), [2, u64::MAX, 0]),
            (Answer::Whole(i64::MIN), [2, 1 << 63, 0]),
            (Answer::Float(0x8000_0001), [3, 0x8000_0001, 0]),
            (Answer::Double(nan), [4, nan, 0]),
            (Answer::Time { count: -2, nanos: 999_999 }, [5, u64::MAX - 1, 999_999]),
            (Answer::Time { count: 7, nanos: 0 }, [5, 7, 0]),
            (Answer::Place { start: 9, length: 0 }, [6, 9, 0]),
        ];
        for (answer, numbers) in table {
            assert_eq!(answer.numbers(), numbers, "{answer:?}");
        }
    }

    #[test]
    fn rows_of_a_page() {
        assert_eq!(page_rows(5, 0, 15, 3), 5);
        assert_eq!(page_rows(5, 2, 8, 3), 2);
        assert_eq!(page_rows(5, 4, 2, 3), 0);
        assert_eq!([5, 6, 65_536, u32::MAX].map(|place| page_rows(5, place, 99, 3)), [0; 4]);
        assert_eq!(page_rows(65_536, 0, usize::MAX, 192), 65_536);
    }
}
