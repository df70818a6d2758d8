//! Buckets.

use super::pages::{compare_any, compare_huge, compare_whole, Listing};
use super::{any_index, by_bytes, edge_number, hex, same, Tally};
use crate::ffi::{buckets, Called, Field, Lent, Page};
use crate::generate::buckets::{self as generate, Case};
use crate::generate::Random;
use crate::reference::buckets::Bucket;
use crate::reference::{schema, Answer};
use std::ops::Range;

pub fn run_case(case: u64, random: &mut Random, tally: &mut Tally) -> Result<(), String> {
    let number = edge_number(case);
    let edge = number.and_then(generate::edge);
    let is_edge = edge.is_some();
    let case = match edge {
        Some(case) => case,
        None if random.once_in(3) => {
            let [shortest, padded] = generate::twins(random);
            compare_twins(&shortest, &padded, random)?;
            if random.once_in(2) {
                shortest
            } else {
                padded
            }
        }
        None => generate::damaged(random),
    };
    let schema = Lent::input("schema", &case.schema, random);
    let bucket = Lent::input("bucket", &case.bucket, random);
    let rows = case.rows;

    let judged = Bucket::judge(&case.schema, rows, &case.bucket);
    let expected = judged.as_ref().map(|_| ()).map_err(|&refusal| refusal);
    tally.count(&expected);
    let question = || format!("bucket check{}", text(&case));
    same(question, buckets::bucket_check(&schema, rows, &bucket), expected)?;

    let columns = schema::check(&case.schema).unwrap_or(3);
    for _ in 0..if judged.is_ok() { 10 } else { 2 } {
        let row = any_index(random, rows as usize);
        let column = any_index(random, columns as usize);
        let expected = match &judged {
            Ok(bucket) => bucket.field(row, column).map(Field::from),
            Err(refusal) => Err(*refusal),
        };
        tally.count(&expected);
        let question = || format!("bucket field, row {row}, column {column}{}", text(&case));
        let answer = buckets::bucket_field(&schema, rows, &bucket, row, column, random);
        same(question, answer, expected)?;
    }
    let judged = judged.as_ref().map_err(|&refusal| refusal);
    let lent =
        |column| LentColumn { case: &case, schema: &schema, bucket: &bucket, judged, column };
    for _ in 0..if judged.is_ok() { 4 } else { 1 } {
        compare_any(&lent(any_column(random, columns)), random, tally)?;
    }
    if number == Some(0) {
        compare_huge(&lent(0))?;
    }
    // Every column of an edge, one of other buckets.
    let listed = if is_edge { 0..columns } else { one_of(random, columns) };
    listed.filter(|_| judged.is_ok()).try_for_each(|column| compare_whole(&lent(column), random))
}

fn one_of(random: &mut Random, columns: u32) -> Range<u32> {
    let column = random.below(columns as usize) as u32;
    column..column + 1
}

/// Mostly a column of the bucket, at times an absent one.
fn any_column(random: &mut Random, columns: u32) -> u32 {
    match random.below(8) {
        0 => random.pick(&[columns, columns + 1, 63, 64, 255, 256, u32::MAX]),
        _ => any_index(random, columns as usize),
    }
}

/// One column, present or not, of a bucket that is listed by pages.
struct LentColumn<'a> {
    case: &'a Case,
    schema: &'a Lent<u8>,
    bucket: &'a Lent<u8>,
    judged: Result<&'a Bucket<'a>, u32>,
    column: u32,
}

impl Listing for LentColumn<'_> {
    fn rows(&self) -> u32 {
        self.case.rows
    }

    fn fields(&self) -> usize {
        1
    }

    fn library(&self, place: u32, room: usize, random: &mut Random) -> Called<Page> {
        let (rows, column) = (self.rows(), self.column);
        buckets::bucket_page(self.schema, rows, self.bucket, column, place, room, random)
    }

    fn library_in_place(&self, list: &mut [u64]) -> Result<Page, u32> {
        buckets::bucket_page_in_place(self.schema, self.rows(), self.bucket, self.column, list)
    }

    fn reference(&self, place: u32, list: &mut [u64]) -> Result<u32, u32> {
        self.judged?.page(self.column, place, list)
    }

    fn field(&self, row: u32, _field: usize) -> Result<Answer, u32> {
        self.judged?.field(row, self.column)
    }

    fn text(&self) -> String {
        format!("\ncolumn {}{}", self.column, text(self.case))
    }
}

fn text(case: &Case) -> String {
    let (schema, bucket) = (hex(&case.schema), hex(&case.bucket));
    format!("\nrows {}, schema {schema}\nbucket {bucket}", case.rows)
}

/// The library answers for padded numbers as it does for shortest ones, places by their bytes.
fn compare_twins(shortest: &Case, padded: &Case, random: &mut Random) -> Result<(), String> {
    let twins = [shortest, padded];
    let [schema, padded_schema] = twins.map(|case| Lent::input("schema", &case.schema, random));
    let [bucket, padded_bucket] = twins.map(|case| Lent::input("bucket", &case.bucket, random));
    let question =
        |call: &str| format!("{call} of the shortest twin{}\nand{}", text(shortest), text(padded));
    let rows = shortest.rows;
    let expected = buckets::bucket_check(&schema, rows, &bucket)?;
    let answer = buckets::bucket_check(&padded_schema, rows, &padded_bucket);
    same(|| question("bucket check"), answer, expected)?;
    let columns = schema::check(&shortest.schema).unwrap_or(0);
    for _ in 0..8 {
        let row = any_index(random, rows as usize);
        let column = any_index(random, columns as usize);
        let [expected, answer] =
            [(&schema, &bucket), (&padded_schema, &padded_bucket)].map(|(schema, bucket)| {
                let answer = buckets::bucket_field(schema, rows, bucket, row, column, random);
                by_bytes(answer, |field| field.by_bytes(bucket.content()))
            });
        same(|| question(&format!("bucket field, row {row}, column {column}")), answer, expected?)?;
    }
    let column = random.below(columns.max(1) as usize) as u32;
    let (place, room) = (random.below(2) as u32, 3 * random.between(1, rows as usize + 1));
    let [expected, answer] =
        [(&schema, &bucket), (&padded_schema, &padded_bucket)].map(|(schema, bucket)| {
            let answer = buckets::bucket_page(schema, rows, bucket, column, place, room, random);
            by_bytes(answer, |page| page.by_bytes(bucket.content()))
        });
    let question = || question(&format!("bucket page of {column} from {place}, room {room}"));
    same(question, answer, expected?)
}
