//! Row blocks: rows, one 4-byte offset a row, a 4-byte row count, little endian.

use super::schema::{self, Column, Type};
use super::{page_rows, varint, Answer, Refusal, MAX_BYTES, MAX_ROWS};

/// An accepted block.
pub struct Block<'a> {
    columns: Vec<Column>,
    bytes: &'a [u8],
    rows: usize,
    /// Where the rows end and the offsets start.
    rows_end: usize,
}

impl<'a> Block<'a> {
    /// Judges the schema (20) and the whole block: 21, 22, row by row 23 and 24, 23 for the end.
    pub fn judge(schema: &[u8], bytes: &'a [u8]) -> Result<Self, Refusal> {
        let columns = schema::read(schema)?;
        if bytes.len() < 4 || bytes.len() > MAX_BYTES {
            return Err(21);
        }
        let rows = number_at(bytes, bytes.len() - 4);
        if rows > MAX_ROWS || 4 * rows as usize + 4 > bytes.len() {
            return Err(22);
        }
        let block = Block {
            columns,
            bytes,
            rows: rows as usize,
            rows_end: bytes.len() - 4 - 4 * rows as usize,
        };
        let mut end = 0;
        for row in 0..block.rows {
            if block.offset(row) != end {
                return Err(23);
            }
            end = block.row_end(end).ok_or(24u32)?;
        }
        if end != block.rows_end {
            return Err(23);
        }
        Ok(block)
    }

    pub fn rows(&self) -> usize {
        self.rows
    }

    pub fn field(&self, row: u32, column: u32) -> Result<Answer, Refusal> {
        let (row, column) = (row as usize, column as usize);
        if row >= self.rows || column >= self.columns.len() {
            return Err(25);
        }
        self.walk(self.offset(row), column).ok_or(24)
    }

    /// Fills the list from its start with the fields of the rows from the place on, as many whole rows
    /// as it takes, and says how many.
    pub fn page(&self, place: u32, list: &mut [u64]) -> u32 {
        let numbers = 3 * self.columns.len();
        let given = page_rows(self.rows, place, list.len(), numbers);
        if given > 0 {
            let mut start = self.offset(place as usize);
            for row in list.chunks_exact_mut(numbers).take(given) {
                start = self.fill_row(start, row).expect("a sound row");
            }
        }
        given as u32
    }

    fn offset(&self, row: usize) -> usize {
        number_at(self.bytes, self.rows_end + 4 * row) as usize
    }

    /// The null bitmap of the row that starts at the place, if it is whole, and the place after it.
    fn null_bitmap(&self, start: usize) -> Option<(&'a [u8], usize)> {
        let end = start + self.columns.len().div_ceil(8);
        Some((self.bytes[..self.rows_end].get(start..end)?, end))
    }

    /// Where the row that starts at the place ends, if its bytes are sound.
    fn row_end(&self, start: usize) -> Option<usize> {
        let bytes = &self.bytes[..self.rows_end];
        let (nulls, mut place) = self.null_bitmap(start)?;
        let spare = self.columns.len() % 8;
        if spare != 0 && nulls[nulls.len() - 1] >> spare != 0 {
            return None;
        }
        for (i, column) in self.columns.iter().enumerate() {
            if !null_at(nulls, i) {
                place = field_end(column.kind, bytes, place)?;
            } else if !column.nullable {
                return None;
            }
        }
        Some(place)
    }

    /// Walks the row that starts at the place up to the column.
    fn walk(&self, start: usize, column: usize) -> Option<Answer> {
        let bytes = &self.bytes[..self.rows_end];
        let (nulls, mut place) = self.null_bitmap(start)?;
        if null_at(nulls, column) {
            return Some(Answer::Null);
        }
        for (i, before) in self.columns[..column].iter().enumerate() {
            if !null_at(nulls, i) {
                place = field_end(before.kind, bytes, place)?;
            }
        }
        Some(read_field(self.columns[column].kind, bytes, place)?.0)
    }

    /// Fills the list with the fields of the row that starts at the place, and says where it ends.
    fn fill_row(&self, start: usize, list: &mut [u64]) -> Option<usize> {
        let bytes = &self.bytes[..self.rows_end];
        let (nulls, mut place) = self.null_bitmap(start)?;
        let (fields, _) = list.as_chunks_mut();
        for (i, (column, field)) in self.columns.iter().zip(fields).enumerate() {
            *field = if null_at(nulls, i) {
                Answer::Null.numbers()
            } else {
                let (answer, end) = read_field(column.kind, bytes, place)?;
                place = end;
                answer.numbers()
            };
        }
        Some(place)
    }
}

pub fn check(schema: &[u8], block: &[u8]) -> Result<u32, Refusal> {
    Ok(Block::judge(schema, block)?.rows as u32)
}

pub fn field(schema: &[u8], block: &[u8], row: u32, column: u32) -> Result<Answer, Refusal> {
    Block::judge(schema, block)?.field(row, column)
}

/// A page of the block: how many rows it gives, and how many the block has.
pub fn page(
    schema: &[u8],
    block: &[u8],
    place: u32,
    list: &mut [u64],
) -> Result<(u32, u32), Refusal> {
    let block = Block::judge(schema, block)?;
    Ok((block.page(place, list), block.rows as u32))
}

fn number_at(bytes: &[u8], place: usize) -> u32 {
    u32::from_le_bytes(bytes[place..place + 4].try_into().unwrap())
}

fn null_at(nulls: &[u8], column: usize) -> bool {
    nulls[column / 8] >> (column % 8) & 1 == 1
}

/// The bytes of fixed width at the place.
fn fixed<const W: usize>(bytes: &[u8], place: usize) -> Option<[u8; W]> {
    bytes.get(place..)?.first_chunk().copied()
}

/// The width of a field that is stored in a fixed number of bytes and takes any of them.
fn plain_width(kind: Type) -> Option<usize> {
    match kind {
        Type::TinyInt => Some(1),
        Type::SmallInt => Some(2),
        Type::Integer | Type::Float | Type::Date | Type::Time { .. } => Some(4),
        Type::BigInt | Type::Double => Some(8),
        Type::Decimal { precision: 0..=18, .. } => Some(8),
        Type::Timestamp { precision: 0..=3 } => Some(8),
        _ => None,
    }
}

/// Where the field at the place ends, if its bytes are sound.
fn field_end(kind: Type, bytes: &[u8], place: usize) -> Option<usize> {
    if let Some(width) = plain_width(kind) {
        let end = place + width;
        return (end <= bytes.len()).then_some(end);
    }
    match kind {
        Type::Boolean => (*bytes.get(place)? <= 1).then_some(place + 1),
        Type::Timestamp { .. } => Some(nanoseconds(bytes, place + 8)?.1),
        _ => {
            let (start, length) = counted(kind, bytes, place)?;
            Some(start + length)
        }
    }
}

/// The nanoseconds at the place, and the place after them.
fn nanoseconds(bytes: &[u8], place: usize) -> Option<(u32, usize)> {
    varint::read(bytes, place).ok().filter(|&(nanos, _)| nanos <= 999_999)
}

/// Start and length of text, bytes or a large DECIMAL, whose length lies at the place.
fn counted(kind: Type, bytes: &[u8], place: usize) -> Option<(usize, usize)> {
    let (length, start) = varint::read(bytes, place).ok()?;
    let empty_decimal = length == 0 && matches!(kind, Type::Decimal { .. });
    if length as usize > bytes.len() - start || empty_decimal {
        return None;
    }
    Some((start, length as usize))
}

/// The field at the place, and the place after it.
#[inline(always)]
fn read_field(kind: Type, bytes: &[u8], place: usize) -> Option<(Answer, usize)> {
    Some(match kind {
        Type::Boolean => (Answer::YesNo(*bytes.get(place)? == 1), place + 1),
        Type::TinyInt => (Answer::Whole(i8::from_le_bytes(fixed(bytes, place)?).into()), place + 1),
        Type::SmallInt => {
            (Answer::Whole(i16::from_le_bytes(fixed(bytes, place)?).into()), place + 2)
        }
        Type::Integer | Type::Date | Type::Time { .. } => {
            (Answer::Whole(i32::from_le_bytes(fixed(bytes, place)?).into()), place + 4)
        }
        Type::BigInt | Type::Decimal { precision: 0..=18, .. } => {
            (Answer::Whole(i64::from_le_bytes(fixed(bytes, place)?)), place + 8)
        }
        Type::Float => (Answer::Float(u32::from_le_bytes(fixed(bytes, place)?)), place + 4),
        Type::Double => (Answer::Double(u64::from_le_bytes(fixed(bytes, place)?)), place + 8),
        Type::Timestamp { precision } => {
            let count = i64::from_le_bytes(fixed(bytes, place)?);
            let (nanos, end) =
                if precision > 3 { nanoseconds(bytes, place + 8)? } else { (0, place + 8) };
            (Answer::Time { count, nanos }, end)
        }
        _ => {
            let (start, length) = counted(kind, bytes, place)?;
            (Answer::Place { start, length }, start + length)
        }
    })
}

#[cfg(test)]
mod tests {
    use super::super::varint::old;
    use super::*;

    fn block(rows: &[&[u8]]) -> Vec<u8> {
        let mut out = rows.concat();
        let mut offset = 0u32;
        for row in rows {
            out.extend(offset.to_le_bytes());
            offset += row.len() as u32;
        }
        out.extend((rows.len() as u32).to_le_bytes());
        out
    }

    #[test]
    fn the_example_of_document_01() {
        let schema = [1, 3, 0];
        let block = [0, 5, 0, 0, 0, 0, 0, 0, 0, 1, 0, 0, 0];
        assert_eq!(check(&schema, &block), Ok(1));
        assert_eq!(field(&schema, &block, 0, 0), Ok(Answer::Whole(5)));
        assert_eq!(field(&schema, &block, 1, 0), Err(25));
        assert_eq!(field(&schema, &block, 0, 1), Err(25));
    }

    #[test]
    fn fields_of_one_row() {
        let schema = [6, 0, 0, 1, 1, 10, 0, 14, 0, 19, 0, 16, 0, 4, 5, 1];
        let row = [
            0b10, 1, 2, b'a', b'b', 1, 0xFF, 1, 2, 3, 4, 5, 6, 7, 0x88, 0xBF, 0x84, 0x3D, 0, 0,
            0xC0, 0x7F,
        ];
        let block = block(&[&row]);
        let answers: Vec<Answer> =
            (0..6).map(|column| field(&schema, &block, 0, column).unwrap()).collect();
        assert_eq!(
            answers,
            [
                Answer::YesNo(true),
                Answer::Null,
                Answer::Place { start: 3, length: 2 },
                Answer::Place { start: 6, length: 1 },
                Answer::Time { count: -0x77F8_F9FA_FBFC_FDFF, nanos: 999_999 },
                Answer::Float(0x7FC0_0000),
            ]
        );
    }

    #[test]
    fn every_refusal_in_its_order() {
        let tiny = [1, 1, 0];
        let sound = block(&[&[0, 7], &[0, 8]]);
        assert_eq!(check(&tiny, &sound), Ok(2));
        assert_eq!(check(&[1, 1, 2], &sound), Err(20));
        assert_eq!(check(&tiny, &[0, 0, 0]), Err(21));
        assert_eq!(check(&tiny, &vec![0; MAX_BYTES + 1]), Err(21));
        assert_eq!(check(&tiny, &[0xFF; 4]), Err(22));
        assert_eq!(check(&tiny, &[0, 0, 0, 1, 0, 0, 0]), Err(22));
        assert_eq!(check(&tiny, &[0; 4]), Ok(0));
        assert_eq!(check(&tiny, &[0; 5]), Err(23));
        let mut wrong_offset = sound.clone();
        wrong_offset[8] = 3;
        assert_eq!(check(&tiny, &wrong_offset), Err(23));
        wrong_offset[0] = 2;
        assert_eq!(check(&tiny, &wrong_offset), Err(24));
        assert_eq!(check(&tiny, &block(&[&[1, 7]])), Err(24));
        assert_eq!(check(&tiny, &block(&[&[0, 7, 7]])), Err(23));
        assert_eq!(check(&tiny, &block(&[&[0, 7, 7], &[0]])), Err(23));
        assert_eq!(check(&tiny, &block(&[&[0]])), Err(24));
        assert_eq!(check(&[1, 0, 0], &block(&[&[0, 2]])), Err(24));
        assert_eq!(check(&[1, 14, 0, 19, 0], &block(&[&[0, 0]])), Err(24));
        let nanos = [0, 0, 0, 0, 0, 0, 0, 0, 0, 0xC0, 0x84, 0x3D];
        assert_eq!(check(&[1, 16, 0, 4], &block(&[&nanos])), Err(24));
    }

    #[test]
    fn a_place_starts_after_the_padded_length() {
        let text = [1, 10, 0];
        let block = [0, 0x81, 0x80, 0, 0x41, 0, 0, 0, 0, 1, 0, 0, 0];
        assert_eq!(check(&text, &block), Ok(1));
        assert_eq!(field(&text, &block, 0, 0), Ok(Answer::Place { start: 4, length: 1 }));
        assert_eq!(block[4], 0x41);
        assert_eq!(old::ask(|| check(&text, &block)), Err(24));
        let padded_schema = [0x81, 0, 10, 0];
        let place = Answer::Place { start: 4, length: 1 };
        assert_eq!(field(&padded_schema, &block, 0, 0), Ok(place));
        assert_eq!(old::ask(|| check(&padded_schema, &block)), Err(20));
    }

    #[test]
    fn padded_fields() {
        let text: &[u8] = &[1, 10, 0];
        let decimal: &[u8] = &[1, 14, 0, 19, 0];
        let places: [(&[u8], &[u8], usize, usize); 4] = [
            (text, &[0, 0x80, 0x80, 0], 4, 0),
            (text, &[0, 0x80, 0x80, 0x80, 0x80, 0], 6, 0),
            (text, &[0, 0x82, 0, 1, 2], 3, 2),
            (decimal, &[0, 0x81, 0x80, 0x80, 0x80, 0, 7], 6, 1),
        ];
        for (schema, row, start, length) in places {
            let place = Answer::Place { start, length };
            assert_eq!(field(schema, &block(&[row]), 0, 0), Ok(place), "{row:?}");
        }
        let bad: [(&[u8], &[u8]); 5] = [
            (text, &[0, 0x83, 0, 1, 2]),
            (text, &[0, 0x82, 0x80, 0x80, 0x80, 0x10, 1, 2]),
            (text, &[0, 0x82, 0x80, 0x80, 0x80, 0x80, 0, 1, 2]),
            (text, &[0, 0x82, 0x80]),
            (decimal, &[0, 0x80, 0]),
        ];
        for (schema, row) in bad {
            assert_eq!(check(schema, &block(&[row])), Err(24), "{row:?}");
        }
    }

    #[test]
    fn padded_nanoseconds() {
        let timestamp = [1, 16, 0, 4];
        let ask = |nanos: &[u8]| {
            let row = [&[0, 7, 0, 0, 0, 0, 0, 0, 0][..], nanos].concat();
            field(&timestamp, &block(&[&row]), 0, 0)
        };
        let time = |nanos| Ok(Answer::Time { count: 7, nanos });
        assert_eq!(ask(&[0x80, 0]), time(0));
        assert_eq!(ask(&[0x85, 0x80, 0x80, 0x80, 0]), time(5));
        assert_eq!(ask(&[0xBF, 0x84, 0xBD, 0]), time(999_999));
        assert_eq!(old::ask(|| ask(&[0xBF, 0x84, 0xBD, 0])), Err(24));
        assert_eq!(ask(&[0xC0, 0x84, 0xBD, 0]), Err(24));
        assert_eq!(ask(&[0x85, 0x80, 0x80, 0x80, 0x10]), Err(24));
    }

    /// The row's length was bad for its padding; now the next offset is wrong.
    #[test]
    fn a_padded_length_leads_to_the_next_offset() {
        let text = [1, 10, 0];
        let mut block = block(&[&[0, 0x81, 0, 0x41], &[0, 0]]);
        assert_eq!(check(&text, &block), Ok(2));
        block[10] = 3;
        assert_eq!(check(&text, &block), Err(23));
        assert_eq!(old::ask(|| check(&text, &block)), Err(24));
    }

    /// TINYINT and STRING, three rows, and their numbers.
    fn listed() -> ([u8; 5], Vec<u8>, Vec<u64>) {
        let fields = [[2, u64::MAX, 0], [6, 3, 1], [0; 3], [0; 3], [2, 7, 0], [6, 8, 0]];
        let block = block(&[&[0, 0xFF, 1, b'a'], &[0b11], &[0, 7, 0]]);
        ([2, 1, 1, 10, 1], block, fields.concat())
    }

    #[test]
    fn pages_of_whole_rows() {
        let (schema, block, fields) = listed();
        for (place, room) in (0..5).flat_map(|place| (0..20).map(move |room| (place, room))) {
            let mut list = vec![9; room];
            let given = 3usize.saturating_sub(place).min(room / 6);
            let answer = page(&schema, &block, place as u32, &mut list);
            assert_eq!(answer, Ok((given as u32, 3)), "place {place}, room {room}");
            let (written, rest) = list.split_at(6 * given);
            assert!(fields.iter().skip(6 * place).take(6 * given).eq(written));
            assert!(rest.iter().all(|&number| number == 9));
        }
        for place in [65_536, 1 << 31, u32::MAX] {
            assert_eq!(page(&schema, &block, place, &mut [9; 18]), Ok((0, 3)));
        }
        assert_eq!(page(&schema, &[0; 4], 0, &mut [9; 18]), Ok((0, 0)));
    }

    #[test]
    fn a_refused_page_changes_nothing() {
        let (schema, mut block, _) = listed();
        let last_row = 5;
        for (bad, refusal) in [(0b100, 24), (0b10, 23)] {
            block[last_row] = bad;
            let mut list = [9; 18];
            assert_eq!(page(&schema, &block, 0, &mut list), Err(refusal));
            assert_eq!(page(&schema, &block, 9, &mut list), Err(refusal));
            assert_eq!(list, [9; 18]);
        }
        assert_eq!(page(&[2, 1, 1], &block, 0, &mut []), Err(20));
        assert_eq!(page(&schema, &[0; 3], 0, &mut []), Err(21));
        assert_eq!(page(&schema, &[0xFF; 4], 0, &mut []), Err(22));
    }
}
