//! Where the numbers in groups of seven bits stand in schemas, blocks and buckets, and what each one
//! says. Bytes that are refused are walked as far as they go.

use crate::generate::schema::bits_width;
use crate::reference::schema::{Column, Type};
use crate::reference::varint::{self, Fault};

#[derive(Clone, Copy, PartialEq, Eq)]
pub enum Role {
    /// Of a schema.
    Columns,
    Length,
    Precision,
    Scale,
    /// Of a row.
    RowLength,
    Nanoseconds,
    /// Of a bucket: its header, the entries of a table, and lengths of values.
    BucketColumns,
    Children,
    Entries,
    Constant,
    Entry,
    Plain,
}

impl Role {
    /// What such a number is refused with if it is ill-formed.
    pub fn refusal(self) -> u32 {
        match self {
            Role::Columns | Role::Length | Role::Precision | Role::Scale => 20,
            Role::RowLength | Role::Nanoseconds => 24,
            Role::BucketColumns | Role::Children => 30,
            Role::Entries | Role::Constant | Role::Entry | Role::Plain => 32,
        }
    }
}

pub struct Spot {
    pub role: Role,
    pub start: usize,
    pub end: usize,
    pub shortest: bool,
}

pub struct Walk {
    pub spots: Vec<Spot>,
    /// Where an ill-formed number stands, which ended the walk.
    pub ill_formed: Option<usize>,
    /// Whether each large DECIMAL of no bytes has a shortest length.
    pub empty_decimals: Vec<bool>,
    /// The columns of a bucket, as far as the walk went.
    pub columns: Vec<Parts>,
}

/// What a column of a bucket has.
#[derive(Clone, Default)]
pub struct Parts {
    pub tag: u8,
    /// Where its null bitmap starts, if it has one.
    pub nulls: Option<usize>,
    pub entries: usize,
    /// Where its plain values or indexes start, and how many there are.
    pub data: usize,
    pub values: usize,
}

pub fn of_schema(bytes: &[u8]) -> Walk {
    walk(bytes, |walker| walker.schema())
}

pub fn of_block(columns: &[Column], block: &[u8]) -> Walk {
    let Some((before, count)) = block.split_last_chunk() else { return walk(&[], |_| None) };
    let offsets = 4 * u32::from_le_bytes(*count) as usize;
    let rows = &before[..before.len().saturating_sub(offsets)];
    walk(rows, |walker| walker.rows(columns))
}

pub fn of_bucket(columns: &[Column], rows: u32, bucket: &[u8]) -> Walk {
    walk(bucket, |walker| walker.bucket(columns, rows as usize))
}

fn walk(bytes: &[u8], go: impl FnOnce(&mut Walker) -> Option<()>) -> Walk {
    let walk = Walk {
        spots: Vec::new(),
        ill_formed: None,
        empty_decimals: Vec::new(),
        columns: Vec::new(),
    };
    let mut walker = Walker { bytes, place: 0, walk };
    go(&mut walker);
    walker.walk
}

/// Walks over bytes; every step is nothing where they run out.
struct Walker<'a> {
    bytes: &'a [u8],
    place: usize,
    walk: Walk,
}

impl<'a> Walker<'a> {
    fn number(&mut self, role: Role) -> Option<usize> {
        let start = self.place;
        match varint::read_marked(self.bytes, start) {
            Ok(number) => {
                self.place = number.next;
                let spot = Spot { role, start, end: number.next, shortest: number.shortest };
                self.walk.spots.push(spot);
                Some(number.value as usize)
            }
            Err(fault) => {
                self.walk.ill_formed = (fault == Fault::IllFormed).then_some(start);
                None
            }
        }
    }

    fn skip(&mut self, count: usize) -> Option<&'a [u8]> {
        let end = self.place.checked_add(count)?;
        let bytes = self.bytes.get(self.place..end)?;
        self.place = end;
        Some(bytes)
    }

    fn schema(&mut self) -> Option<()> {
        for _ in 0..self.number(Role::Columns)? {
            let descriptor = self.skip(2)?;
            match descriptor[0] {
                8 | 9 | 11 | 12 => {
                    self.number(Role::Length)?;
                }
                14 => {
                    self.number(Role::Precision)?;
                    self.number(Role::Scale)?;
                }
                15 | 16 => {
                    self.number(Role::Precision)?;
                }
                _ => {}
            }
        }
        Some(())
    }

    fn rows(&mut self, columns: &[Column]) -> Option<()> {
        while self.place < self.bytes.len() {
            let nulls = self.skip(columns.len().div_ceil(8))?;
            for (i, column) in columns.iter().enumerate() {
                if nulls[i / 8] >> (i % 8) & 1 == 1 {
                    continue;
                }
                if let Type::Timestamp { precision: 4.. } = column.kind {
                    self.skip(8)?;
                    self.number(Role::Nanoseconds)?;
                } else {
                    self.value(column.kind, bits_width(column.kind), Role::RowLength)?;
                }
            }
        }
        Some(())
    }

    /// A value of this width, or one with a length.
    fn value(&mut self, kind: Type, width: usize, role: Role) -> Option<()> {
        if !counted(kind) {
            return self.skip(width).map(|_| ());
        }
        let length = self.number(role)?;
        if length == 0 && matches!(kind, Type::Decimal { .. }) {
            self.walk.empty_decimals.extend(self.walk.spots.last().map(|spot| spot.shortest));
        }
        self.skip(length).map(|_| ())
    }

    fn values(&mut self, kind: Type, count: usize, role: Role) -> Option<()> {
        let width = match kind {
            Type::Timestamp { precision: 7.. } => 12,
            _ => bits_width(kind),
        };
        if !counted(kind) {
            return self.skip(width.checked_mul(count)?).map(|_| ());
        }
        (0..count).try_for_each(|_| self.value(kind, width, role))
    }

    fn bucket(&mut self, columns: &[Column], rows: usize) -> Option<()> {
        self.number(Role::BucketColumns)?;
        self.number(Role::Children)?;
        let tags = self.skip((2 * columns.len()).div_ceil(8))?;
        let marks = self.skip(columns.len().div_ceil(8))?;
        let tag = |i: usize| tags[i / 4] >> (2 * (i % 4)) & 3;
        let marked = |i: usize| marks[i / 8] >> (i % 8) & 1 == 1;
        let part = |i: usize| Parts { tag: tag(i), values: rows, ..Parts::default() };
        let mut parts: Vec<Parts> = (0..columns.len()).map(part).collect();
        for (_, column) in columns.iter().enumerate().filter(|&(i, _)| tag(i) == 1) {
            self.values(column.kind, 1, Role::Constant)?;
        }
        for (i, column) in columns.iter().enumerate().filter(|&(i, _)| tag(i) == 2) {
            parts[i].entries = self.number(Role::Entries)?;
            self.values(column.kind, parts[i].entries, Role::Entry)?;
        }
        for i in (0..columns.len()).filter(|&i| marked(i) && tag(i) != 3) {
            parts[i].nulls = Some(self.place);
            let nulls = self.skip(rows.div_ceil(8))?;
            let ones: u32 = nulls.iter().map(|byte| byte.count_ones()).sum();
            parts[i].values = rows.checked_sub(ones as usize)?;
        }
        for (column, mut parts) in columns.iter().zip(parts) {
            parts.data = self.place;
            match parts.tag {
                0 => self.values(column.kind, parts.values, Role::Plain)?,
                2 => self.indexes(parts.entries, parts.values)?,
                _ => {}
            }
            self.walk.columns.push(parts);
        }
        Some(())
    }

    fn indexes(&mut self, entries: usize, count: usize) -> Option<()> {
        let width = (1..=8).find(|&width| entries <= 1 << width)?;
        self.skip((width * count).div_ceil(8)).map(|_| ())
    }
}

/// Whether values of this type have a length.
pub fn counted(kind: Type) -> bool {
    match kind {
        Type::Decimal { precision, .. } => precision > 18,
        _ => (8..=13).contains(&kind.id()),
    }
}
