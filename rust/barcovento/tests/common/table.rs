//! Tables: the same fields laid as a block and as a bucket.

use super::Random;
use barcovento::Field;

/// What one field holds; floats are their bits.
#[derive(Clone, Debug, PartialEq)]
pub enum Cell {
    Null,
    YesNo(bool),
    Whole(i64),
    Float(u32),
    Double(u64),
    Time(i64, u32),
    Bytes(Vec<u8>),
}

impl Cell {
    /// Whether the field answers exactly this.
    pub fn is(&self, field: Field) -> bool {
        match (self, field) {
            (Cell::Null, Field::Null) => true,
            (Cell::YesNo(yes), Field::YesNo(answer)) => *yes == answer,
            (Cell::Whole(whole), Field::Whole(answer)) => *whole == answer,
            (Cell::Float(bits), Field::Float(answer)) => *bits == answer.to_bits(),
            (Cell::Double(bits), Field::Double(answer)) => *bits == answer.to_bits(),
            (Cell::Time(at, after), Field::Time { count, nanos }) => {
                (*at, *after) == (count, nanos)
            }
            (Cell::Bytes(bytes), Field::Bytes(answer)) => bytes == answer,
            _ => false,
        }
    }
}

/// How a bucket holds a column.
pub const PLAIN: u8 = 0;
pub const CONST: u8 = 1;
pub const DICT: u8 = 2;
pub const ALL_NULL: u8 = 3;

/// A column: its type's id, length or precision, and scale; and how a bucket holds it.
#[derive(Clone, Copy, Debug)]
pub struct Column {
    pub id: u8,
    pub size: u32,
    pub scale: u32,
    pub nullable: bool,
    pub tag: u8,
}

/// One column of each type, and the second kinds of DECIMAL and TIMESTAMP.
pub fn types() -> Vec<(u8, u32, u32)> {
    let plain = [0, 1, 2, 3, 4, 5, 6, 7, 10, 13].map(|id| (id, 0, 0));
    let sized = [8, 9, 11, 12].map(|id| (id, 3, 0));
    let others = [(14, 18, 2), (14, 38, 0), (15, 3, 0), (16, 3, 0), (16, 6, 0), (16, 9, 0)];
    [&plain[..], &sized, &others].concat()
}

/// So many columns: all types and all ways of holding them, every second one nullable.
pub fn columns(count: usize) -> Vec<Column> {
    let column = |(i, (id, size, scale)): (usize, (u8, u32, u32))| {
        let nullable = i % 2 == 1;
        let tags =
            if nullable { [PLAIN, DICT, CONST, ALL_NULL] } else { [PLAIN, DICT, PLAIN, CONST] };
        Column { id, size, scale, nullable, tag: tags[i / 2 % 4] }
    };
    types().into_iter().cycle().take(count).enumerate().map(column).collect()
}

/// So many rows of these columns. All its fields follow from their row and column.
pub struct Table {
    pub columns: Vec<Column>,
    pub rows: u32,
    /// Numbers in groups of seven bits have five bytes.
    pub padded: bool,
}

impl Table {
    pub fn new(columns: usize, rows: u32) -> Table {
        Table { columns: self::columns(columns), rows, padded: false }
    }

    pub fn cell(&self, row: u32, column: usize) -> Cell {
        let Column { nullable, tag, .. } = self.columns[column];
        if nullable && (tag == ALL_NULL || (row + column as u32) % 7 == 3) {
            return Cell::Null;
        }
        match tag {
            CONST => self.entry(0, column),
            DICT => self.entry(row % entries(column), column),
            _ => self.entry(row, column),
        }
    }

    /// The cell of this column that the number chooses.
    fn entry(&self, number: u32, column: usize) -> Cell {
        let word = Random::new(u64::from(number) << 8 | column as u64).word();
        let Column { id, size, .. } = self.columns[column];
        let bytes = |least: u64| {
            let length = least + word % (4 - least);
            Cell::Bytes(word.to_le_bytes()[1..][..length as usize].to_vec())
        };
        match id {
            0 => Cell::YesNo(word & 1 == 1),
            1 => Cell::Whole((word as i8).into()),
            2 => Cell::Whole((word as i16).into()),
            3 | 7 | 15 => Cell::Whole((word as i32).into()),
            4 => Cell::Whole(word as i64),
            5 => Cell::Float(word as u32),
            6 => Cell::Double(word),
            14 if size <= 18 => Cell::Whole(word as i64),
            14 => bytes(1),
            16 if size <= 6 => Cell::Time(word as i64, 0),
            16 => Cell::Time(word as i64, (word >> 32) as u32 % 1_000_000),
            _ => bytes(0),
        }
    }

    fn number(&self, value: u32, out: &mut Vec<u8>) {
        let mut rest = value;
        for place in 0..5 {
            let more = place < 4 && (self.padded || rest >= 0x80);
            out.push(rest as u8 & 0x7F | if more { 0x80 } else { 0 });
            rest >>= 7;
            if !more {
                break;
            }
        }
    }

    pub fn schema(&self) -> Vec<u8> {
        let mut out = Vec::new();
        self.number(self.columns.len() as u32, &mut out);
        for column in &self.columns {
            out.extend([column.id, column.nullable.into()]);
            if matches!(column.id, 8 | 9 | 11 | 12 | 14 | 15 | 16) {
                self.number(column.size, &mut out);
            }
            if column.id == 14 {
                self.number(column.scale, &mut out);
            }
        }
        out
    }

    /// Rows, where each starts, how many there are.
    pub fn block(&self) -> Vec<u8> {
        let (mut out, mut offsets) = (Vec::new(), Vec::new());
        for row in 0..self.rows {
            offsets.extend((out.len() as u32).to_le_bytes());
            let start = out.len();
            out.resize(start + self.columns.len().div_ceil(8), 0);
            for (i, column) in self.columns.iter().enumerate() {
                match self.cell(row, i) {
                    Cell::Null => out[start + i / 8] |= 1 << (i % 8),
                    cell => self.lay_in_row(column, &cell, &mut out),
                }
            }
        }
        out.extend(offsets);
        out.extend(self.rows.to_le_bytes());
        out
    }

    /// Little endian.
    fn lay_in_row(&self, column: &Column, cell: &Cell, out: &mut Vec<u8>) {
        match cell {
            Cell::Whole(whole) => out.extend(&whole.to_le_bytes()[..width(column.id)]),
            Cell::Float(bits) => out.extend(bits.to_le_bytes()),
            Cell::Double(bits) => out.extend(bits.to_le_bytes()),
            Cell::Time(count, nanos) => {
                out.extend(count.to_le_bytes());
                if column.size > 3 {
                    self.number(*nanos, out);
                }
            }
            _ => self.lay_alike(cell, out),
        }
    }

    /// Big endian.
    fn lay_in_bucket(&self, column: &Column, cell: &Cell, out: &mut Vec<u8>) {
        match cell {
            Cell::Whole(whole) => out.extend(&whole.to_be_bytes()[8 - width(column.id)..]),
            Cell::Float(bits) => out.extend(bits.to_be_bytes()),
            Cell::Double(bits) => out.extend(bits.to_be_bytes()),
            Cell::Time(count, nanos) => {
                out.extend(count.to_be_bytes());
                if column.size > 6 {
                    out.extend(nanos.to_be_bytes());
                }
            }
            _ => self.lay_alike(cell, out),
        }
    }

    fn lay_alike(&self, cell: &Cell, out: &mut Vec<u8>) {
        match cell {
            Cell::YesNo(yes) => out.push((*yes).into()),
            Cell::Bytes(bytes) => {
                self.number(bytes.len() as u32, out);
                out.extend(bytes);
            }
            _ => {}
        }
    }

    /// Counts, tags, has-nulls bits, CONST values, DICT tables, null bitmaps, data.
    pub fn bucket(&self) -> Vec<u8> {
        let mut out = Vec::new();
        self.number(self.columns.len() as u32, &mut out);
        self.number(0, &mut out);
        let all = || self.columns.iter().enumerate();
        pack(all().map(|(_, column)| column.tag), 2, &mut out);
        pack(all().map(|(_, column)| column.nullable.into()), 1, &mut out);
        for (i, column) in all().filter(|(_, column)| column.tag == CONST) {
            self.lay_in_bucket(column, &self.entry(0, i), &mut out);
        }
        for (i, column) in all().filter(|(_, column)| column.tag == DICT) {
            self.number(entries(i), &mut out);
            (0..entries(i)).for_each(|n| self.lay_in_bucket(column, &self.entry(n, i), &mut out));
        }
        for (i, _) in all().filter(|(_, column)| column.nullable && column.tag != ALL_NULL) {
            let null = |row| u8::from(self.cell(row, i) == Cell::Null);
            pack((0..self.rows).map(null), 1, &mut out);
        }
        all().for_each(|(i, column)| self.lay_data(i, column, &mut out));
        out
    }

    fn lay_data(&self, i: usize, column: &Column, out: &mut Vec<u8>) {
        let rows = (0..self.rows).filter(|row| self.cell(*row, i) != Cell::Null);
        match column.tag {
            PLAIN => rows.for_each(|row| self.lay_in_bucket(column, &self.cell(row, i), out)),
            DICT => {
                let bits = (entries(i) - 1).ilog2() as usize + 1;
                pack(rows.map(|row| (row % entries(i)) as u8), bits, out);
            }
            _ => {}
        }
    }
}

/// How many entries a column's table has: all widths of an index occur.
fn entries(column: usize) -> u32 {
    [2, 3, 8, 17, 255, 128, 33, 64][column / 2 % 8]
}

/// How many bytes a whole number has.
fn width(id: u8) -> usize {
    match id {
        1 => 1,
        2 => 2,
        3 | 7 | 15 => 4,
        _ => 8,
    }
}

/// Values of so many bits each, from the low end on.
fn pack(values: impl Iterator<Item = u8>, bits: usize, out: &mut Vec<u8>) {
    let (mut held, mut count) = (0u32, 0);
    for value in values {
        held |= u32::from(value) << count;
        count += bits;
        while count >= 8 {
            out.push(held as u8);
            held >>= 8;
            count -= 8;
        }
    }
    if count > 0 {
        out.push(held as u8);
    }
}
