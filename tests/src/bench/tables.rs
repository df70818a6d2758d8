//! Judging and listing large row blocks and buckets, and asking for every field of small ones.

use crate::ffi::Field;
use crate::generate::numbers::Numbers;
use crate::generate::schema::every_type;
use crate::reference::schema::Column;
use std::hint::black_box;

mod buckets;
mod rows;

pub use buckets::run as run_buckets;
pub use rows::run as run_rows;

/// Columns of all types, every second one nullable.
fn mixed_columns(count: usize) -> Vec<Column> {
    let types = every_type(false).into_iter().cycle().take(count);
    let columns = types.enumerate();
    columns.map(|(i, column)| Column { nullable: i.is_multiple_of(2), ..column }).collect()
}

fn describe(bytes: usize, rows: u32, columns: usize) -> String {
    format!("{bytes} bytes, {rows} rows, {columns} columns")
}

/// What a field call sets.
fn empty_field() -> Field {
    Field { kind: 0, whole: 0, bits: 0, nanos: 0, start: 0, length: 0 }
}

/// How the numbers of a benchmark's inputs are written.
type Written = (&'static str, fn() -> Numbers);
const SHORTEST: Written = ("", Numbers::shortest);
const PADDED: Written = (", every number in 5 bytes", Numbers::five_bytes);

fn ask_all<T>(rows: u32, columns: u32, ask: impl Fn(u32, u32) -> T) {
    for row in 0..rows {
        for column in 0..columns {
            black_box(ask(row, column));
        }
    }
}
