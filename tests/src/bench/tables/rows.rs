//! Row blocks.

use super::super::{measure, Line, Print};
use super::{ask_all, describe, empty_field, mixed_columns, Written, PADDED, SHORTEST};
use crate::ffi::Field;
use crate::generate::rows::filled;
use crate::generate::schema::lay_schema;
use crate::generate::Random;
use crate::reference::schema::Column;
use crate::reference::{rows as reference, MAX_BYTES};
use barcovento::{Block, Schema};
use std::hint::black_box;

type Check = unsafe extern "C" fn(*const u8, usize, *const u8, usize, *mut u32) -> u32;
type Ask = unsafe extern "C" fn(
    *const u8,
    usize,
    *const u8,
    usize,
    u32,
    u32,
    *mut u8,
    *mut i64,
    *mut u64,
    *mut u32,
    *mut usize,
    *mut usize,
) -> u32;
type Page = unsafe extern "C" fn(
    *const u8,
    usize,
    *const u8,
    usize,
    *mut u32,
    *mut u64,
    usize,
    *mut u32,
    *mut u32,
) -> u32;

pub fn run(print: Print) {
    let mut random = Random::new(3);
    let columns = mixed_columns(38);
    let large = Bench::filled(&mut random, &columns, MAX_BYTES, SHORTEST);
    for line in [Bench::check_line, Bench::page_line, Bench::page_by_check_line] {
        print(line(&large));
    }
    let small = Bench::filled(&mut random, &columns, 65_536, SHORTEST);
    for line in [Bench::field_line, Bench::page_by_fields_line] {
        print(line(&small));
    }
    print(Bench::filled(&mut random, &columns, MAX_BYTES, PADDED).check_line());
}

/// A block.
struct Bench {
    schema: Schema,
    block: Vec<u8>,
    rows: u32,
    columns: u32,
    input: String,
}

impl Bench {
    /// As many rows of these columns as so many bytes take.
    fn filled(random: &mut Random, columns: &[Column], bytes: usize, written: Written) -> Bench {
        let (name, numbers) = written;
        let schema = lay_schema(columns, &mut numbers());
        let block = filled(random, columns, bytes, 65_536, &mut numbers());
        let rows = reference::check(&schema, &block).expect("a sound block");
        let input = describe(block.len(), rows, columns.len()) + name;
        let schema = Schema::new(&schema).expect("a sound schema");
        Bench { schema, block, rows, columns: columns.len() as u32, input }
    }

    fn accepted(&self) -> Block<'_> {
        Block::new(&self.schema, &self.block).expect("a sound block")
    }

    /// A list for all fields.
    fn list(&self) -> Vec<u64> {
        vec![1; 3 * self.rows as usize * self.columns as usize]
    }

    fn check_line(&self) -> Line {
        let before = earlier!(bv_block_check as Check).filter(|&call| self.check(call) == 0);
        let checking = &mut |call| match call {
            None => {
                black_box(Block::new(&self.schema, &self.block).ok());
            }
            Some(call) => assert_eq!(self.check(call), 0),
        };
        measure("block check", &self.input, before, checking, &mut || {
            black_box(reference::check(self.schema.as_bytes(), black_box(&self.block))).ok();
        })
    }

    fn field_line(&self) -> Line {
        let (schema, block) = (self.schema.as_bytes(), self.accepted());
        let second = |row, column| reference::field(schema, &self.block, row, column);
        measure(
            "block field, every one",
            &self.input,
            earlier!(bv_block_field as Ask),
            &mut |call| match call {
                None => ask_all(self.rows, self.columns, |row, column| block.field(row, column)),
                Some(call) => {
                    ask_all(self.rows, self.columns, |row, column| self.field(call, row, column))
                }
            },
            &mut || {
                ask_all(self.rows, self.columns, |row, column| {
                    second(row, column).map(Field::from).ok()
                })
            },
        )
    }

    fn page_line(&self) -> Line {
        let (mut first, mut second) = (self.list(), self.list());
        let schema = self.schema.as_bytes();
        let line = self.page_against("block page, all fields", &mut first, &mut || {
            black_box(reference::page(schema, black_box(&self.block), 0, &mut second)).ok();
        });
        assert!(first == second);
        line
    }

    /// In the second program's column one check of the same library.
    fn page_by_check_line(&self) -> Line {
        self.page_against("block page by its check", &mut self.list(), &mut || {
            black_box(self.accepted());
        })
    }

    /// In the second program's column the same library's calls for each field.
    fn page_by_fields_line(&self) -> Line {
        let block = self.accepted();
        self.page_against("block page against fields", &mut self.list(), &mut || {
            ask_all(self.rows, self.columns, |row, column| block.field(row, column))
        })
    }

    /// One page of all rows.
    fn page_against(&self, name: &str, list: &mut [u64], other: &mut dyn FnMut()) -> Line {
        let block = self.accepted();
        let listing = &mut |call| match call {
            None => assert_eq!(block.page_into(0, list), self.rows),
            Some(call) => self.page(call, list),
        };
        measure(name, &self.input, earlier!(bv_block_page as Page), listing, other)
    }

    /// The earlier library's check.
    fn check(&self, call: Check) -> u32 {
        let (schema, block) = (self.schema.as_bytes(), &self.block);
        let mut rows = 0;
        let code =
            unsafe { call(schema.as_ptr(), schema.len(), block.as_ptr(), block.len(), &mut rows) };
        black_box(rows);
        code
    }

    /// The earlier library's answer for a field.
    fn field(&self, call: Ask, row: u32, column: u32) -> Option<Field> {
        let (schema, block) = (self.schema.as_bytes(), &self.block);
        let mut to = empty_field();
        let code = unsafe {
            call(
                schema.as_ptr(),
                schema.len(),
                block.as_ptr(),
                block.len(),
                row,
                column,
                &mut to.kind,
                &mut to.whole,
                &mut to.bits,
                &mut to.nanos,
                &mut to.start,
                &mut to.length,
            )
        };
        (code == 0).then_some(to)
    }

    /// The earlier library's page of all rows.
    fn page(&self, call: Page, list: &mut [u64]) {
        let (schema, block) = (self.schema.as_bytes(), &self.block);
        let (mut place, mut given, mut rows) = (0, 0, 0);
        let code = unsafe {
            call(
                schema.as_ptr(),
                schema.len(),
                block.as_ptr(),
                block.len(),
                &mut place,
                list.as_mut_ptr(),
                list.len(),
                &mut given,
                &mut rows,
            )
        };
        assert_eq!((code, place, given, rows), (0, self.rows, self.rows, self.rows));
    }
}
