//! Uncompressed monolithic Mosaic buckets with flat columns; values are big endian.

use super::schema::{self, Column, Type};
use super::varint::{self, Fault};
use super::{page_rows, Answer, Refusal, MAX_BYTES, MAX_ROWS};
use std::iter::{from_fn, repeat};

#[derive(Clone, Copy, PartialEq, Eq)]
enum Encoding {
    Plain,
    Const,
    Dict,
    AllNull,
}

/// Where the parts of one column lie.
struct Parts {
    encoding: Encoding,
    /// The start of the null bitmap, if there is one.
    nulls: Option<usize>,
    /// The start of the one value, or of each entry.
    values: Vec<usize>,
    /// The start of the plain values or of the indexes.
    data: usize,
}

/// An accepted bucket.
pub struct Bucket<'a> {
    columns: Vec<Column>,
    rows: usize,
    bytes: &'a [u8],
    parts: Vec<Parts>,
}

impl<'a> Bucket<'a> {
    /// Judges the schema (20) and the whole bucket: 37, then 30 to 36 in layout order.
    pub fn judge(schema: &[u8], rows: u32, bytes: &'a [u8]) -> Result<Self, Refusal> {
        let columns = schema::read(schema)?;
        if bytes.len() > MAX_BYTES || rows > MAX_ROWS {
            return Err(37);
        }
        let mut reader = Reader { bytes, place: 0 };
        reader.header_number(columns.len() as u32)?;
        reader.header_number(0)?;
        let rows = rows as usize;
        let mut parts = reader.encodings(&columns, rows)?;
        reader.constants_and_tables(&columns, &mut parts)?;
        reader.null_bitmaps(&columns, rows, &mut parts)?;
        for (column, parts) in columns.iter().zip(&mut parts) {
            reader.data(column.kind, rows, parts)?;
        }
        if reader.place != bytes.len() {
            return Err(36);
        }
        Ok(Bucket { columns, rows, bytes, parts })
    }

    pub fn field(&self, row: u32, column: u32) -> Result<Answer, Refusal> {
        let (row, column) = (row as usize, column as usize);
        if row >= self.rows || column >= self.columns.len() {
            return Err(25);
        }
        let parts = &self.parts[column];
        let Some(place) = self.value_place(parts, self.columns[column].kind, row)? else {
            return Ok(Answer::Null);
        };
        Ok(by_type(self.columns[column].kind, One { bytes: self.bytes, place }))
    }

    /// Fills the list from its start with the column's fields in the rows from the place on, as many as
    /// it takes, and says how many.
    pub fn page(&self, column: u32, place: u32, list: &mut [u64]) -> Result<u32, Refusal> {
        let parts = self.parts.get(column as usize).ok_or(25u32)?;
        let given = page_rows(self.rows, place, list.len(), 3);
        if given > 0 {
            let (fields, _) = list[..3 * given].as_chunks_mut();
            self.fill(parts, self.columns[column as usize].kind, place as usize, fields);
        }
        Ok(given as u32)
    }

    /// The column's fields from the row on, which the bucket has.
    fn fill(&self, parts: &Parts, kind: Type, row: usize, fields: &mut [[u64; 3]]) {
        let bytes = self.bytes;
        let nulls = parts.nulls.map(|start| &bytes[start..]);
        let before = row - nulls.map_or(0, |nulls| ones_below(nulls, row));
        let page = Page { nulls, row, fields };
        let numbers = |&place: &usize| by_type(kind, One { bytes, place }).numbers();
        match parts.encoding {
            Encoding::AllNull => page.fields.fill(Answer::Null.numbers()),
            Encoding::Const => page.fill(repeat(numbers(&parts.values[0]))),
            Encoding::Dict => {
                let table: Vec<[u64; 3]> = parts.values.iter().map(numbers).collect();
                let (indexes, width) = (&bytes[parts.data..], index_width(table.len()));
                page.fill((before..).map(|index| table[packed_index(indexes, width, index)]));
            }
            Encoding::Plain => by_type(kind, Plain { bytes, data: parts.data, before, page }),
        }
    }

    /// Where the value of the row starts; nothing if it is null.
    fn value_place(&self, parts: &Parts, kind: Type, row: usize) -> Result<Option<usize>, Refusal> {
        if parts.encoding == Encoding::AllNull {
            return Ok(None);
        }
        let mut index = row;
        if let Some(start) = parts.nulls {
            let nulls = &self.bytes[start..];
            if nulls[row / 8] >> (row % 8) & 1 == 1 {
                return Ok(None);
            }
            index -= ones_below(nulls, row);
        }
        match parts.encoding {
            Encoding::Const => Ok(Some(parts.values[0])),
            Encoding::Dict => {
                let indexes = &self.bytes[parts.data..];
                let entry = packed_index(indexes, index_width(parts.values.len()), index);
                Ok(Some(parts.values[entry]))
            }
            _ => self.plain_place(kind, parts.data, index).map(Some),
        }
    }

    /// Where plain value number `index` starts.
    fn plain_place(&self, kind: Type, data: usize, index: usize) -> Result<usize, Refusal> {
        if let Some(width) = fixed_width(kind) {
            return Ok(data + index * width);
        }
        let mut place = data;
        for _ in 0..index {
            place = value_end(kind, self.bytes, place)?;
        }
        Ok(place)
    }
}

pub fn check(schema: &[u8], rows: u32, bucket: &[u8]) -> Result<(), Refusal> {
    Bucket::judge(schema, rows, bucket).map(|_| ())
}

pub fn field(
    schema: &[u8],
    rows: u32,
    bucket: &[u8],
    row: u32,
    column: u32,
) -> Result<Answer, Refusal> {
    Bucket::judge(schema, rows, bucket)?.field(row, column)
}

/// A page of the column: how many rows it gives.
pub fn page(
    schema: &[u8],
    rows: u32,
    bucket: &[u8],
    column: u32,
    place: u32,
    list: &mut [u64],
) -> Result<u32, Refusal> {
    Bucket::judge(schema, rows, bucket)?.page(column, place, list)
}

struct Reader<'a> {
    bytes: &'a [u8],
    place: usize,
}

impl<'a> Reader<'a> {
    /// A number of the header that has to be the expected one.
    fn header_number(&mut self, expected: u32) -> Result<(), Refusal> {
        let (value, place) = varint::read(self.bytes, self.place).map_err(|fault| match fault {
            Fault::CutShort => 31,
            Fault::IllFormed => 30u32,
        })?;
        self.place = place;
        if value == expected {
            Ok(())
        } else {
            Err(30)
        }
    }

    /// An array of `bits` bits from the low end: 31 for the whole, 34 for spare bits.
    fn bits(&mut self, bits: usize) -> Result<&'a [u8], Refusal> {
        let array = self.array(bits)?;
        no_spare_bits(array, bits)?;
        Ok(array)
    }

    fn array(&mut self, bits: usize) -> Result<&'a [u8], Refusal> {
        let end = self.place + bits.div_ceil(8);
        let array = self.bytes.get(self.place..end).ok_or(31u32)?;
        self.place = end;
        Ok(array)
    }

    /// The encoding tags and the has-nulls bits.
    fn encodings(&mut self, columns: &[Column], rows: usize) -> Result<Vec<Parts>, Refusal> {
        let tags = self.bits(2 * columns.len())?;
        let encoding = |i: usize| match tags[i / 4] >> (2 * (i % 4)) & 3 {
            0 => Encoding::Plain,
            1 => Encoding::Const,
            2 => Encoding::Dict,
            _ => Encoding::AllNull,
        };
        let wrong = |i: usize| !columns[i].nullable && encoding(i) == Encoding::AllNull;
        if rows > 0 && (0..columns.len()).any(wrong) {
            return Err(35);
        }
        let has_nulls = self.bits(columns.len())?;
        let parts = |i: usize| {
            let marked = has_nulls[i / 8] >> (i % 8) & 1 == 1;
            let encoding = encoding(i);
            Parts {
                encoding,
                nulls: (marked && encoding != Encoding::AllNull).then_some(0),
                values: Vec::new(),
                data: 0,
            }
        };
        Ok((0..columns.len()).map(parts).collect())
    }

    fn constants_and_tables(
        &mut self,
        columns: &[Column],
        parts: &mut [Parts],
    ) -> Result<(), Refusal> {
        for wanted in [Encoding::Const, Encoding::Dict] {
            for (column, parts) in columns.iter().zip(parts.iter_mut()) {
                if parts.encoding != wanted {
                    continue;
                }
                let entries = if wanted == Encoding::Const { 1 } else { self.entries()? };
                parts.values.reserve(entries as usize);
                for _ in 0..entries {
                    parts.values.push(self.place);
                    self.place = value_end(column.kind, self.bytes, self.place)?;
                }
            }
        }
        Ok(())
    }

    /// The number of entries of a table.
    fn entries(&mut self) -> Result<u32, Refusal> {
        let (entries, place) = varint::read(self.bytes, self.place).map_err(value_refusal)?;
        self.place = place;
        if (2..=255).contains(&entries) {
            Ok(entries)
        } else {
            Err(33)
        }
    }

    fn null_bitmaps(
        &mut self,
        columns: &[Column],
        rows: usize,
        parts: &mut [Parts],
    ) -> Result<(), Refusal> {
        for (column, parts) in columns.iter().zip(parts) {
            if let Some(start) = &mut parts.nulls {
                *start = self.place;
                let bitmap = self.bits(rows)?;
                if !column.nullable && bitmap.iter().any(|&byte| byte != 0) {
                    return Err(35);
                }
            }
        }
        Ok(())
    }

    /// The plain values or the indexes of one column.
    fn data(&mut self, kind: Type, rows: usize, parts: &mut Parts) -> Result<(), Refusal> {
        parts.data = self.place;
        let nulls = parts.nulls.map_or(0, |start| ones_below(&self.bytes[start..], rows));
        let values = rows - nulls;
        match parts.encoding {
            Encoding::Plain => self.plain_values(kind, values),
            Encoding::Dict => self.indexes(parts.values.len(), values),
            Encoding::Const | Encoding::AllNull => Ok(()),
        }
    }

    fn plain_values(&mut self, kind: Type, values: usize) -> Result<(), Refusal> {
        if let (Some(width), true) = (fixed_width(kind), takes_any_bytes(kind)) {
            self.array(8 * width * values)?;
            return Ok(());
        }
        for _ in 0..values {
            self.place = value_end(kind, self.bytes, self.place)?;
        }
        Ok(())
    }

    fn indexes(&mut self, entries: usize, values: usize) -> Result<(), Refusal> {
        let width = index_width(entries);
        let array = self.array(width * values)?;
        if entries < 1 << width && (0..values).any(|i| packed_index(array, width, i) >= entries) {
            return Err(33);
        }
        no_spare_bits(array, width * values)
    }
}

fn no_spare_bits(array: &[u8], bits: usize) -> Result<(), Refusal> {
    if !bits.is_multiple_of(8) && array[bits / 8] >> (bits % 8) != 0 {
        return Err(34);
    }
    Ok(())
}

/// How many of the first `count` bits, from the low end, are set.
fn ones_below(bits: &[u8], count: usize) -> usize {
    let (whole, part) = (count / 8, count % 8);
    let words = bits[..whole].chunks_exact(8);
    let tail: u32 = words.remainder().iter().map(|byte| byte.count_ones()).sum();
    let ones: u32 =
        words.map(|word| u64::from_ne_bytes(word.try_into().unwrap()).count_ones()).sum();
    let last = if part == 0 { 0 } else { (bits[whole] & ((1 << part) - 1)).count_ones() };
    (ones + tail + last) as usize
}

/// ceil(log2(entries)), for 2 to 255 entries.
fn index_width(entries: usize) -> usize {
    (usize::BITS - (entries - 1).leading_zeros()) as usize
}

/// Index number `i`, low bits first.
fn packed_index(array: &[u8], width: usize, i: usize) -> usize {
    let place = i * width;
    let low = usize::from(array[place / 8]) >> (place % 8);
    let high = if place % 8 + width > 8 {
        usize::from(array[place / 8 + 1]) << (8 - place % 8)
    } else {
        0
    };
    (low | high) & ((1 << width) - 1)
}

/// The width of a value that is stored in a fixed number of bytes.
fn fixed_width(kind: Type) -> Option<usize> {
    match kind {
        Type::Boolean | Type::TinyInt => Some(1),
        Type::SmallInt => Some(2),
        Type::Integer | Type::Float | Type::Date | Type::Time { .. } => Some(4),
        Type::BigInt | Type::Double => Some(8),
        Type::Decimal { precision: 0..=18, .. } => Some(8),
        Type::Timestamp { precision: 0..=6 } => Some(8),
        Type::Timestamp { .. } => Some(12),
        _ => None,
    }
}

fn takes_any_bytes(kind: Type) -> bool {
    !matches!(kind, Type::Boolean | Type::Timestamp { precision: 7.. })
}

fn value_refusal(fault: Fault) -> Refusal {
    match fault {
        Fault::CutShort => 31,
        Fault::IllFormed => 32,
    }
}

/// Where the value at the place ends: 31 if bytes are missing, then 32 if it is bad.
fn value_end(kind: Type, bytes: &[u8], place: usize) -> Result<usize, Refusal> {
    let Some(width) = fixed_width(kind) else {
        let (start, length) = counted(kind, bytes, place)?;
        return Ok(start + length);
    };
    let end = place + width;
    let value = bytes.get(place..end).ok_or(31u32)?;
    let bad = match kind {
        Type::Boolean => value[0] > 1,
        Type::Timestamp { precision: 7.. } => nanoseconds(value) > 999_999,
        _ => false,
    };
    if bad {
        Err(32)
    } else {
        Ok(end)
    }
}

fn nanoseconds(value: &[u8]) -> u32 {
    u32::from_be_bytes(value[8..12].try_into().unwrap())
}

/// Start and length of text, bytes or a large DECIMAL, whose length lies at the place.
fn counted(kind: Type, bytes: &[u8], place: usize) -> Result<(usize, usize), Refusal> {
    let (length, start) = varint::read(bytes, place).map_err(value_refusal)?;
    if length as usize > bytes.len() - start {
        return Err(31);
    }
    if length == 0 && matches!(kind, Type::Decimal { .. }) {
        return Err(32);
    }
    Ok((start, length as usize))
}

/// Something done with sound values of one type: each of W bytes, or each with a length before it.
trait Values: Sized {
    type Done;
    fn fixed<const W: usize>(self, answer: impl Fn([u8; W]) -> Answer) -> Self::Done;
    fn counted(self) -> Self::Done;
}

/// Does it with values of this type.
fn by_type<V: Values>(kind: Type, values: V) -> V::Done {
    match kind {
        Type::Boolean => values.fixed(|[byte]| Answer::YesNo(byte == 1)),
        Type::TinyInt => values.fixed(|value| Answer::Whole(i8::from_be_bytes(value).into())),
        Type::SmallInt => values.fixed(|value| Answer::Whole(i16::from_be_bytes(value).into())),
        Type::Integer | Type::Date | Type::Time { .. } => {
            values.fixed(|value| Answer::Whole(i32::from_be_bytes(value).into()))
        }
        Type::BigInt | Type::Decimal { precision: 0..=18, .. } => {
            values.fixed(|value| Answer::Whole(i64::from_be_bytes(value)))
        }
        Type::Float => values.fixed(|value| Answer::Float(u32::from_be_bytes(value))),
        Type::Double => values.fixed(|value| Answer::Double(u64::from_be_bytes(value))),
        Type::Timestamp { precision: 0..=6 } => {
            values.fixed(|value| Answer::Time { count: i64::from_be_bytes(value), nanos: 0 })
        }
        Type::Timestamp { .. } => values.fixed(|value: [u8; 12]| Answer::Time {
            count: i64::from_be_bytes(*value.first_chunk().unwrap()),
            nanos: nanoseconds(&value),
        }),
        _ => values.counted(),
    }
}

/// Start and length of a sound value with a length, which lies at the place.
fn sound_counted(bytes: &[u8], place: usize) -> (usize, usize) {
    counted(Type::Bytes, bytes, place).expect("a sound value")
}

/// The answer of one value.
struct One<'a> {
    bytes: &'a [u8],
    place: usize,
}

impl Values for One<'_> {
    type Done = Answer;

    fn fixed<const W: usize>(self, answer: impl Fn([u8; W]) -> Answer) -> Answer {
        answer(*self.bytes[self.place..].first_chunk().expect("a sound value"))
    }

    fn counted(self) -> Answer {
        let (start, length) = sound_counted(self.bytes, self.place);
        Answer::Place { start, length }
    }
}

/// The fields of one column from a row on.
struct Page<'a> {
    nulls: Option<&'a [u8]>,
    row: usize,
    fields: &'a mut [[u64; 3]],
}

impl Page<'_> {
    /// Fills the rows that are not null with these values, in order.
    fn fill(self, mut values: impl Iterator<Item = [u64; 3]>) {
        let mut next = || values.next().expect("a value for each row");
        let Some(nulls) = self.nulls else {
            self.fields.iter_mut().for_each(|field| *field = next());
            return;
        };
        for (row, field) in (self.row..).zip(self.fields) {
            let null = nulls[row / 8] >> (row % 8) & 1 == 1;
            *field = if null { Answer::Null.numbers() } else { next() };
        }
    }
}

/// A page of plain values: of those at `data`, from value number `before` on.
struct Plain<'a> {
    bytes: &'a [u8],
    data: usize,
    before: usize,
    page: Page<'a>,
}

impl Values for Plain<'_> {
    type Done = ();

    fn fixed<const W: usize>(self, answer: impl Fn([u8; W]) -> Answer) {
        let (values, _) = self.bytes[self.data + W * self.before..].as_chunks();
        self.page.fill(values.iter().map(|&value| answer(value).numbers()));
    }

    fn counted(self) {
        let mut place = self.data;
        let mut next = || {
            let (start, length) = sound_counted(self.bytes, place);
            place = start + length;
            Some(Answer::Place { start, length }.numbers())
        };
        for _ in 0..self.before {
            next();
        }
        self.page.fill(from_fn(next));
    }
}

#[cfg(test)]
mod tests {
    use super::super::varint::old;
    use super::*;

    #[test]
    fn the_example_of_document_01() {
        let schema = [1, 1, 0];
        let bucket = [1, 0, 2, 0, 2, 1, 2, 2];
        let answers: Vec<Answer> =
            (0..3).map(|row| field(&schema, 3, &bucket, row, 0).unwrap()).collect();
        assert_eq!(answers, [Answer::Whole(1), Answer::Whole(2), Answer::Whole(1)]);
        assert_eq!(field(&schema, 3, &bucket, 3, 0), Err(25));
        assert_eq!(field(&schema, 3, &bucket, 0, 1), Err(25));
    }

    /// PLAIN VARCHAR, CONST SMALLINT, ALL_NULL DOUBLE, DICT TIMESTAMP(9); three rows.
    fn four_encodings() -> ([u8; 11], Vec<u8>) {
        let mut bucket = vec![4, 0, 0b10_11_01_00, 0b0011, 0xFF, 0xFE, 2];
        bucket.extend([0, 0, 0, 0, 0, 0, 0, 7, 0, 0, 0, 1]);
        bucket.extend([0xFF; 8]);
        bucket.extend([0, 0x0F, 0x42, 0x3F]);
        bucket.extend([0b010, 0b001]);
        bucket.extend([1, b'x', 0]);
        bucket.push(0b101);
        ([4, 9, 1, 5, 2, 1, 6, 1, 16, 1, 9], bucket)
    }

    #[test]
    fn encodings_with_nulls() {
        let (schema, bucket) = four_encodings();
        let ask = |row, column| field(&schema, 3, &bucket, row, column).unwrap();
        assert_eq!(ask(0, 0), Answer::Place { start: 34, length: 1 });
        assert_eq!(ask(1, 0), Answer::Null);
        assert_eq!(ask(2, 0), Answer::Place { start: 36, length: 0 });
        assert_eq!(ask(0, 1), Answer::Null);
        assert_eq!(ask(1, 1), Answer::Whole(-2));
        assert_eq!(ask(1, 2), Answer::Null);
        assert_eq!(ask(0, 3), Answer::Time { count: -1, nanos: 999_999 });
        assert_eq!(ask(1, 3), Answer::Time { count: 7, nanos: 1 });
    }

    #[test]
    fn pages_of_columns() {
        let (schema, bucket) = four_encodings();
        let time = [5, u64::MAX, 999_999];
        let columns = [
            [[6, 34, 1], [0; 3], [6, 36, 0]].concat(),
            [[0; 3], [2, u64::MAX - 1, 0], [2, u64::MAX - 1, 0]].concat(),
            vec![0; 9],
            [time, [5, 7, 1], time].concat(),
        ];
        for (place, room) in (0..5).flat_map(|place| (0..12).map(move |room| (place, room))) {
            let given = 3usize.saturating_sub(place).min(room / 3);
            for (column, fields) in (0..).zip(&columns) {
                let mut list = vec![9; room];
                let answer = page(&schema, 3, &bucket, column, place as u32, &mut list);
                assert_eq!(answer, Ok(given as u32), "place {place}, room {room}");
                let (written, rest) = list.split_at(3 * given);
                assert!(fields.iter().skip(3 * place).take(3 * given).eq(written));
                assert!(rest.iter().all(|&number| number == 9));
            }
        }
    }

    #[test]
    fn absent_columns_and_rows_of_a_page() {
        let (schema, bucket) = four_encodings();
        for (column, place) in [(4, 0), (4, 3), (63, 9), (64, u32::MAX), (u32::MAX, 0)] {
            assert_eq!(page(&schema, 3, &bucket, column, place, &mut [9; 9]), Err(25));
        }
        assert_eq!(page(&schema, 3, &bucket, 3, u32::MAX, &mut [9; 9]), Ok(0));
        let tiny = [1, 1, 0];
        assert_eq!(page(&tiny, 0, &[1, 0, 3, 1], 0, 0, &mut [9; 9]), Ok(0));
        assert_eq!(page(&tiny, 0, &[1, 0, 3, 1], 1, 0, &mut [9; 9]), Err(25));
        let mut list = [9; 9];
        assert_eq!(page(&tiny, 1, &[1, 0, 0, 0, 5, 6], 0, 0, &mut list), Err(36));
        assert_eq!(page(&tiny, 1, &[1, 0, 0, 0, 5, 6], 1, 0, &mut list), Err(36));
        assert_eq!(list, [9; 9]);
    }

    #[test]
    fn every_refusal_in_its_order() {
        let tiny: &[u8] = &[1, 1, 0];
        let table: [(&[u8], u32, &[u8], u32); 29] = [
            (&[1, 1, 2], 70_000, &[], 20),
            (tiny, 65_537, &[], 37),
            (tiny, 0, &[], 31),
            (tiny, 0, &[0x81], 31),
            (tiny, 0, &[0x81, 0x80, 0x80, 0x80, 0x10], 30),
            (tiny, 0, &[2], 30),
            (tiny, 0, &[1], 31),
            (tiny, 0, &[1, 1], 30),
            (tiny, 0, &[1, 0], 31),
            (tiny, 1, &[1, 0, 0b0111], 34),
            (tiny, 1, &[1, 0, 0b0011], 35),
            (tiny, 0, &[1, 0, 0b0011], 31),
            (tiny, 0, &[1, 0, 0, 2], 34),
            (tiny, 0, &[1, 0, 1, 0], 31),
            (&[1, 0, 0], 0, &[1, 0, 1, 0, 2], 32),
            (tiny, 0, &[1, 0, 2, 0], 31),
            (tiny, 0, &[1, 0, 2, 0, 0x82, 0x80, 0x80, 0x80, 0x10], 32),
            (tiny, 0, &[1, 0, 2, 0, 1], 33),
            (tiny, 0, &[1, 0, 2, 0, 0x80, 2], 33),
            (tiny, 0, &[1, 0, 2, 0, 2, 5], 31),
            (tiny, 1, &[1, 0, 0, 1], 31),
            (tiny, 1, &[1, 0, 0, 1, 2], 34),
            (tiny, 1, &[1, 0, 0, 1, 1], 35),
            (tiny, 2, &[1, 0, 0, 0, 5], 31),
            (&[1, 0, 0], 2, &[1, 0, 0, 0, 2], 32),
            (tiny, 2, &[1, 0, 2, 0, 3, 1, 2, 3, 0b1_1111], 33),
            (tiny, 2, &[1, 0, 2, 0, 3, 1, 2, 3, 0b1_0101], 34),
            (&[1, 14, 0, 19, 0], 1, &[1, 0, 0, 0, 0], 32),
            (tiny, 1, &[1, 0, 0, 0, 5, 6], 36),
        ];
        for (schema, rows, bucket, refusal) in table {
            assert_eq!(check(schema, rows, bucket), Err(refusal), "{bucket:?}");
        }
        assert_eq!(check(tiny, 0, &vec![0; MAX_BYTES + 1]), Err(37));
        assert_eq!(check(tiny, 0, &[1, 0, 3, 1]), Ok(()));
        assert_eq!(field(tiny, 0, &[1, 0, 3, 1], 0, 0), Err(25));
    }

    #[test]
    fn padded_buckets() {
        let tiny: &[u8] = &[1, 1, 0];
        let text: &[u8] = &[1, 10, 0];
        let decimal: &[u8] = &[1, 14, 0, 19, 0];
        let place = |start, length| Answer::Place { start, length };
        let table: [(&[u8], &[u8], Answer); 12] = [
            (tiny, &[0x81, 0, 0, 0, 0, 7], Answer::Whole(7)),
            (tiny, &[0x81, 0x80, 0x80, 0x80, 0, 0, 0, 0, 7], Answer::Whole(7)),
            (tiny, &[1, 0x80, 0, 0, 0, 7], Answer::Whole(7)),
            (tiny, &[1, 0, 2, 0, 0x82, 0, 7, 8, 1], Answer::Whole(8)),
            (tiny, &[1, 0, 2, 0, 0x82, 0x80, 0x80, 0x80, 0, 7, 8, 1], Answer::Whole(8)),
            (text, &[1, 0, 0, 0, 0x80, 0x80, 0], place(7, 0)),
            (text, &[1, 0, 0, 0, 0x81, 0x80, 0, 0x41], place(7, 1)),
            (text, &[1, 0, 1, 0, 0x81, 0, 0x41], place(6, 1)),
            (text, &[1, 0, 2, 0, 2, 0, 0x81, 0, 0x41, 1], place(8, 1)),
            (decimal, &[1, 0, 0, 0, 0x81, 0, 7], place(6, 1)),
            (decimal, &[1, 0, 1, 0, 0x81, 0x80, 0x80, 0x80, 0, 7], place(9, 1)),
            (&[0x81, 0, 1, 0], &[0x81, 0, 0x80, 0, 0, 0, 7], Answer::Whole(7)),
        ];
        for (schema, bucket, answer) in table {
            assert_eq!(field(schema, 1, bucket, 0, 0), Ok(answer), "{bucket:?}");
            assert!(old::ask(|| check(schema, 1, bucket)).is_err(), "{bucket:?}");
        }
    }

    /// Refusals of padded numbers today, and by the old rule.
    #[test]
    fn padded_numbers_are_judged_on() {
        let tiny: &[u8] = &[1, 1, 0];
        let text: &[u8] = &[1, 10, 0];
        let decimal: &[u8] = &[1, 14, 0, 19, 0];
        let table: [(&[u8], &[u8], u32, u32); 17] = [
            (tiny, &[0x82, 0, 0, 0, 0, 7], 30, 30),
            (tiny, &[0x81, 0], 31, 30),
            (tiny, &[0x81, 0x80, 0x80, 0x80, 0x80], 30, 30),
            (tiny, &[0x81, 0x80, 0x80, 0x80], 31, 31),
            (tiny, &[1, 0x81, 0, 0, 0, 7], 30, 30),
            (tiny, &[1, 0x80, 0], 31, 30),
            (tiny, &[1, 0, 2, 0, 0x81, 0, 7, 1], 33, 32),
            (tiny, &[1, 0, 2, 0, 0x80, 0], 33, 32),
            (tiny, &[1, 0, 2, 0, 0x80, 0x82, 0, 7, 8, 1], 33, 32),
            (tiny, &[1, 0, 2, 0, 0x82, 0], 31, 32),
            (tiny, &[1, 0, 2, 0, 0x82, 0x80], 31, 31),
            (tiny, &[1, 0, 2, 0, 0x82, 0x80, 0x80, 0x80, 0x80], 32, 32),
            (text, &[1, 0, 0, 0, 0x82, 0, 0x41], 31, 32),
            (text, &[1, 0, 0, 0, 0x82, 0x80, 0x80, 0x80], 31, 31),
            (text, &[1, 0, 0, 0, 0x82, 0x80, 0x80, 0x80, 0x80], 32, 32),
            (text, &[1, 0, 0, 0, 0x81, 0, 0x41, 0], 36, 32),
            (decimal, &[1, 0, 0, 0, 0x80, 0], 32, 32),
        ];
        for (schema, bucket, today, before) in table {
            assert_eq!(check(schema, 1, bucket), Err(today), "{bucket:?}");
            assert_eq!(old::ask(|| check(schema, 1, bucket)), Err(before), "{bucket:?}");
        }
    }
}
