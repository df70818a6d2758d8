//! Wrong values in pages of a bucket's column.

use super::super::places::{self, Parts, Role, Spot, Walk};
use super::super::planted;
use super::fields::{start_as_if_shortest, AS_IF_SHORTEST};
use super::Listed;
use crate::generate::buckets::{ALL_NULL, CONST, DICT};
use crate::reference::{buckets, schema};

/// A page that is asked for.
pub struct Asked<'a> {
    pub schema: &'a [u8],
    pub rows: u32,
    pub bucket: &'a [u8],
    pub column: u32,
    pub place: u32,
}

impl Asked<'_> {
    /// All fields of this column of another bucket.
    fn all_of(&self, bucket: &[u8], column: u32) -> Result<Vec<u64>, u32> {
        let mut all = vec![0; 3 * self.rows.min(65_536) as usize];
        buckets::page(self.schema, self.rows, bucket, column, 0, &mut all)?;
        Ok(all)
    }

    pub fn walk(&self) -> Walk {
        let columns = schema::read(self.schema).unwrap_or_default();
        places::of_bucket(&columns, self.rows, self.bucket)
    }
}

pub fn faults() -> impl Iterator<Item = &'static str> + Clone {
    let values = VALUES.iter().map(|(name, _)| *name);
    let indexes = INDEXES.iter().map(|(name, _)| *name);
    let columns = COLUMNS.iter().map(|(name, _)| *name);
    values.chain(indexes).chain(columns).chain(OTHERS)
}

const OTHERS: [&str; 7] = [
    AS_IF_SHORTEST,
    "page-nulls-of-the-first-column",
    "page-constant-for-nulls",
    "page-all-null-not-null",
    "page-entries-equally-long",
    "page-entry-behind-another-length",
    "page-start-in-the-column",
];

/// The number of the value that is given for a row that is not null.
type Value = fn(&Nulls, usize) -> usize;

/// Which rows are null, and where the page begins.
struct Nulls {
    nulls: Vec<bool>,
    place: usize,
}

impl Nulls {
    /// How many values these rows have.
    fn values(&self, from: usize, to: usize) -> usize {
        self.nulls[from.min(to)..to].iter().filter(|null| !**null).count()
    }
}

const VALUES: [(&str, Value); 6] = [
    ("page-nulls-counted-from-its-place", |column, row| {
        column.place.min(row) + column.values(column.place, row)
    }),
    ("page-values-counted-from-its-place", |column, row| column.values(column.place, row)),
    ("page-null-takes-a-value", |_, row| row),
    ("page-nulls-of-one-word", |column, row| row / 64 * 64 + column.values(row / 64 * 64, row)),
    ("page-nulls-of-64-rows", |column, row| column.values(0, row.min(64)) + row.saturating_sub(64)),
    ("page-next-value-from-a-place", |column, row| {
        column.values(0, row) + usize::from(column.place > 0)
    }),
];

/// The number of the index that is read, from the bytes of the indexes, how many entries there are and the
/// number of the value.
type Index = fn(&[u8], usize, usize) -> usize;

const INDEXES: [(&str, Index); 5] = [
    ("page-index-width-of-more-entries", |bytes, entries, number| {
        let wide = width(entries + 1);
        bits(bytes, wide * number, wide)
    }),
    ("page-index-width-of-fewer-entries", |bytes, entries, number| {
        let wide = width(entries - 1);
        bits(bytes, wide * number, wide)
    }),
    ("page-index-in-a-byte", |bytes, _, number| bits(bytes, 8 * number, 8)),
    ("page-index-within-a-byte", |bytes, entries, number| {
        let start = width(entries) * number;
        bits(bytes, start, width(entries).min(8 - start % 8))
    }),
    ("page-index-high-bit-first", |bytes, entries, number| {
        let wide = width(entries);
        (0..wide).fold(0, |index, bit| index << 1 | bits(bytes, wide * number + bit, 1))
    }),
];

/// The bits that hold numbers below this one.
fn width(entries: usize) -> usize {
    (0..=8).find(|&width| entries <= 1 << width).unwrap_or(8)
}

/// So many bits from this one on, the low one first; those behind the bytes are 0.
fn bits(bytes: &[u8], start: usize, count: usize) -> usize {
    let bit = |place: usize| {
        usize::from(bytes.get(place / 8).is_some_and(|byte| byte >> (place % 8) & 1 == 1))
    };
    (0..count).map(|i| bit(start + i) << i).sum()
}

/// The column that is listed in place of the one asked for; the bucket has so many.
type Column = fn(u32, u32) -> u32;

const COLUMNS: [(&str, Column); 3] = [
    ("page-column-in-six-bits", |column, _| column & 63),
    ("page-column-in-a-byte", |column, _| column & 255),
    ("page-absent-column-as-the-last", |column, count| column.min(count - 1)),
];

/// All fields of the column, as the planted fault has them.
pub fn listed(asked: &Asked) -> Result<Listed, u32> {
    let fault = COLUMNS.iter().find(|(name, _)| planted(name));
    let count = schema::check(asked.schema)?;
    let column = fault.map_or(asked.column, |(_, fault)| fault(asked.column, count));
    let mut all = asked.all_of(asked.bucket, column)?;
    if faults().any(planted) && column < count {
        let walk = asked.walk();
        let parts = &walk.columns[column as usize];
        all = wrong_parts(asked, column, parts)?.unwrap_or(all);
        wrong_values(asked, &mut all);
        wrong_fields(&mut all, column, &walk);
        if planted("page-nulls-of-the-first-column") {
            let first = asked.all_of(asked.bucket, 0)?;
            let nulls = all.chunks_mut(3).zip(first.chunks(3)).filter(|(_, first)| first[0] == 0);
            nulls.for_each(|(field, _)| field.fill(0));
        }
    }
    Ok(Listed { rows: asked.rows, numbers: 3, all })
}

/// The fields of another bucket, whose right ones are the wrong ones of this.
fn wrong_parts(asked: &Asked, column: u32, parts: &Parts) -> Result<Option<Vec<u64>>, u32> {
    let mut other = asked.bucket.to_vec();
    if let (true, CONST, Some(nulls)) = (planted("page-constant-for-nulls"), parts.tag, parts.nulls)
    {
        other[nulls..][..asked.rows.div_ceil(8) as usize].fill(0);
        return asked.all_of(&other, column).map(Some);
    }
    let Some((_, index)) = INDEXES.iter().find(|(name, _)| planted(name)) else { return Ok(None) };
    if parts.tag != DICT {
        return Ok(None);
    }
    let wide = width(parts.entries);
    let length = (wide * parts.values).div_ceil(8);
    let indexes = &asked.bucket[parts.data..][..length];
    other[parts.data..][..length].fill(0);
    for number in 0..parts.values {
        let wrong = index(indexes, parts.entries, number) % parts.entries;
        for bit in 0..wide {
            let place = wide * number + bit;
            other[parts.data + place / 8] |= ((wrong >> bit & 1) as u8) << (place % 8);
        }
    }
    asked.all_of(&other, column).map(Some)
}

/// Lets rows have the values of others.
fn wrong_values(asked: &Asked, all: &mut [u64]) {
    let Some((_, value)) = VALUES.iter().find(|(name, _)| planted(name)) else { return };
    let fields = all.chunks(3);
    let nulls = fields.clone().map(|field| field[0] == 0).collect();
    let values: Vec<Vec<u64>> =
        fields.filter(|field| field[0] != 0).map(|field| field.to_vec()).collect();
    let column = Nulls { nulls, place: asked.place as usize };
    for (row, field) in all.chunks_mut(3).enumerate() {
        if row >= column.place && !column.nulls[row] {
            field.copy_from_slice(&values[value(&column, row) % values.len()]);
        }
    }
}

/// Changes fields by what kind of column they are of.
fn wrong_fields(all: &mut [u64], column: u32, walk: &Walk) {
    let parts = &walk.columns[column as usize];
    if planted(AS_IF_SHORTEST) {
        start_as_if_shortest(all, walk);
    }
    for field in all.chunks_mut(3) {
        if planted("page-all-null-not-null") && parts.tag == ALL_NULL {
            field[0] = 2;
        }
        if planted("page-start-in-the-column") && field[0] == 6 {
            field[1] = field[1].saturating_sub(parts.data as u64);
        }
        if field[0] == 6 && parts.tag == DICT {
            field[1] = wrong_entry(field[1], walk);
        }
    }
}

/// Where the entry that starts here starts for a wrong program.
fn wrong_entry(start: u64, walk: &Walk) -> u64 {
    let here = |spot: &Spot| spot.role == Role::Entry && spot.end as u64 == start;
    let mut tables = walk.spots.split(|spot| spot.role == Role::Entries);
    let found = tables.find_map(|table| Some((table, table.iter().position(here)?)));
    let Some((table, at)) = found.filter(|&(_, at)| at > 1) else { return start };
    if planted("page-entries-equally-long") {
        return (table[0].end + at * (table[1].start - table[0].start)) as u64;
    }
    let length = |at: usize| table[at + 1].start - table[at].end;
    let differs = length(at - 1) != length(at - 2);
    start + u64::from(planted("page-entry-behind-another-length") && differs)
}
