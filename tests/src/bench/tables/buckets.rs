//! Buckets.

use super::super::{measure, Line, Print};
use super::{ask_all, describe, empty_field, mixed_columns, Written, PADDED, SHORTEST};
use crate::ffi::Field;
use crate::generate::buckets::{filled, ALL_NULL, CONST, DICT, PLAIN};
use crate::generate::schema::lay_schema;
use crate::generate::Random;
use crate::reference::schema::Column;
use crate::reference::{buckets as reference, MAX_BYTES};
use barcovento::{Bucket, Schema};
use std::hint::black_box;

type Check = unsafe extern "C" fn(*const u8, usize, u32, *const u8, usize) -> u32;
type Ask = unsafe extern "C" fn(
    *const u8,
    usize,
    u32,
    *const u8,
    usize,
    u32,
    u32,
    *mut u8,
    *mut i64,
    *mut u64,
    *mut u32,
    *mut usize,
    *mut usize,
) -> u32;
type Page = unsafe extern "C" fn(
    *const u8,
    usize,
    u32,
    *const u8,
    usize,
    u32,
    *mut u32,
    *mut u64,
    usize,
    *mut u32,
) -> u32;

pub fn run(print: Print) {
    let mut random = Random::new(4);
    let mut columns = mixed_columns(64);
    let large = Bench::largest(&mut random, &mut columns, SHORTEST);
    for line in [Bench::check_line, Bench::page_line, Bench::page_by_check_line] {
        print(line(&large));
    }
    let tags = [PLAIN, CONST, DICT, PLAIN, ALL_NULL];
    let small = Bench::filled(&mut random, &columns, 50, &tags, SHORTEST);
    for line in [Bench::field_line, Bench::page_by_fields_line] {
        print(line(&small));
    }
    print(Bench::largest(&mut random, &mut columns, PADDED).check_line());
}

/// A bucket.
struct Bench {
    schema: Schema,
    bucket: Vec<u8>,
    rows: u32,
    columns: u32,
    input: String,
}

impl Bench {
    /// Of these columns; the tags go round over them.
    fn filled(
        random: &mut Random,
        columns: &[Column],
        rows: u32,
        tags: &[u8],
        written: Written,
    ) -> Bench {
        let (name, numbers) = written;
        let schema = lay_schema(columns, &mut numbers());
        let bucket = filled(random, columns, rows as usize, tags, &mut numbers());
        let input = describe(bucket.len(), rows, columns.len()) + name;
        let schema = Schema::new(&schema).expect("a sound schema");
        Bench { schema, bucket, rows, columns: columns.len() as u32, input }
    }

    fn accepted(&self) -> Bucket<'_> {
        Bucket::new(&self.schema, self.rows, &self.bucket).expect("a sound bucket")
    }

    /// The largest of the first of these columns; the others are taken away.
    fn largest(random: &mut Random, columns: &mut Vec<Column>, written: Written) -> Bench {
        let tags = [PLAIN, PLAIN, PLAIN, DICT, PLAIN];
        loop {
            let bench = Bench::filled(random, columns, 65_536, &tags, written);
            if bench.bucket.len() <= MAX_BYTES {
                let Bench { schema, bucket, rows, .. } = &bench;
                assert_eq!(reference::check(schema.as_bytes(), *rows, bucket), Ok(()));
                return bench;
            }
            columns.pop();
        }
    }

    /// A list for all fields of one column.
    fn list(&self) -> Vec<u64> {
        vec![1; 3 * self.rows as usize]
    }

    fn check_line(&self) -> Line {
        let Bench { schema, bucket, rows, .. } = self;
        let before = earlier!(bv_bucket_check as Check).filter(|&call| self.check(call) == 0);
        let checking = &mut |call| match call {
            None => {
                black_box(Bucket::new(schema, *rows, bucket).ok());
            }
            Some(call) => assert_eq!(self.check(call), 0),
        };
        measure("bucket check", &self.input, before, checking, &mut || {
            black_box(reference::check(schema.as_bytes(), *rows, black_box(bucket))).ok();
        })
    }

    fn field_line(&self) -> Line {
        let (schema, rows, accepted) = (self.schema.as_bytes(), self.rows, self.accepted());
        let second = |row, column| reference::field(schema, rows, &self.bucket, row, column);
        measure(
            "bucket field, every one",
            &self.input,
            earlier!(bv_bucket_field as Ask),
            &mut |call| match call {
                None => ask_all(rows, self.columns, |row, column| accepted.field(row, column)),
                Some(call) => {
                    ask_all(rows, self.columns, |row, column| self.field(call, row, column))
                }
            },
            &mut || {
                ask_all(rows, self.columns, |row, column| second(row, column).map(Field::from).ok())
            },
        )
    }

    fn page_line(&self) -> Line {
        let (mut first, mut second) = (self.list(), self.list());
        let bucket = self.accepted();
        for column in 0..self.columns {
            assert_eq!(bucket.page_into(column, 0, &mut first), Ok(self.rows));
            self.second_page(column, &mut second);
            assert!(first == second, "column {column}");
        }
        self.page_against("bucket page, every column", &mut || {
            (0..self.columns).for_each(|column| self.second_page(column, &mut second))
        })
    }

    /// In the second program's column one check of the same library.
    fn page_by_check_line(&self) -> Line {
        self.page_against("bucket page, every column, by one check", &mut || {
            black_box(self.accepted());
        })
    }

    /// In the second program's column the same library's calls for each field.
    fn page_by_fields_line(&self) -> Line {
        let bucket = self.accepted();
        self.page_against("bucket page against fields", &mut || {
            ask_all(self.rows, self.columns, |row, column| bucket.field(row, column))
        })
    }

    /// A page of all rows for each column, into the same list.
    fn page_against(&self, name: &str, other: &mut dyn FnMut()) -> Line {
        let (mut list, bucket) = (self.list(), self.accepted());
        let listing = &mut |call: Option<Page>| {
            for column in 0..self.columns {
                match call {
                    None => assert_eq!(bucket.page_into(column, 0, &mut list), Ok(self.rows)),
                    Some(call) => self.page(call, column, &mut list),
                }
            }
        };
        measure(name, &self.input, earlier!(bv_bucket_page as Page), listing, other)
    }

    /// The earlier library's check.
    fn check(&self, call: Check) -> u32 {
        let (schema, bucket) = (self.schema.as_bytes(), &self.bucket);
        unsafe { call(schema.as_ptr(), schema.len(), self.rows, bucket.as_ptr(), bucket.len()) }
    }

    /// The earlier library's answer for a field.
    fn field(&self, call: Ask, row: u32, column: u32) -> Option<Field> {
        let (schema, bucket) = (self.schema.as_bytes(), &self.bucket);
        let mut to = empty_field();
        let code = unsafe {
            call(
                schema.as_ptr(),
                schema.len(),
                self.rows,
                bucket.as_ptr(),
                bucket.len(),
                row,
                column,
                &mut to.kind,
                &mut to.whole,
                &mut to.bits,
                &mut to.nanos,
                &mut to.start,
                &mut to.length,
            )
        };
        (code == 0).then_some(to)
    }

    /// The earlier library's page of all rows of a column.
    fn page(&self, call: Page, column: u32, list: &mut [u64]) {
        let (schema, bucket) = (self.schema.as_bytes(), &self.bucket);
        let (mut place, mut given) = (0, 0);
        let code = unsafe {
            call(
                schema.as_ptr(),
                schema.len(),
                self.rows,
                bucket.as_ptr(),
                bucket.len(),
                column,
                &mut place,
                list.as_mut_ptr(),
                list.len(),
                &mut given,
            )
        };
        assert_eq!((code, place, given), (0, self.rows, self.rows));
    }

    fn second_page(&self, column: u32, list: &mut [u64]) {
        let (schema, bucket) = (self.schema.as_bytes(), black_box(&self.bucket));
        black_box(reference::page(schema, self.rows, bucket, column, 0, list)).ok();
    }
}
