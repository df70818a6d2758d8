//! The calls that list fields by pages, and wrong programs that list them.

use super::{planted, set};
use crate::ffi::huge::{HugeList, HUGE};
use crate::reference::{buckets, rows};
use std::slice::{from_raw_parts, from_raw_parts_mut};
use std::sync::OnceLock;

mod columns;
mod fields;
mod plans;
mod refusals;

/// The faults, with the group that must find each one.
pub fn faults() -> Vec<(&'static str, String)> {
    let huge = if HugeList::new(HUGE).is_some() { plans::HUGE } else { &[] };
    let both = plans::BOTH.iter().chain(huge).map(|(name, _)| *name);
    let both = both.chain(fields::FAULTS.iter().map(|(name, _)| *name)).chain(refusals::BOTH);
    let both = both.chain(plans::HARM);
    let rows = plans::OF_BLOCKS.iter().map(|(name, _)| *name).chain(plans::HARM_OF_BLOCKS);
    let rows = both.clone().chain(rows).chain(fields::OF_BLOCKS).chain(refusals::OF_BLOCKS);
    let buckets = both.chain(refusals::OF_BUCKETS).chain(columns::faults());
    let mut faults: Vec<(&str, String)> = refusals::numbers();
    faults.extend(rows.map(|name| ("rows", name.to_string())));
    faults.extend(buckets.map(|name| ("buckets", name.to_string())));
    faults
}

/// Whether a fault of pages is planted.
fn active() -> bool {
    static ACTIVE: OnceLock<bool> = OnceLock::new();
    *ACTIVE.get_or_init(|| faults().iter().any(|(_, name)| planted(name)))
}

/// What a page call sets. A bucket's has no number of rows.
struct Outputs {
    place: *mut u32,
    list: *mut u64,
    room: usize,
    given: *mut u32,
    rows: Option<*mut u32>,
}

impl Outputs {
    unsafe fn list<'a>(&self) -> &'a mut [u64] {
        from_raw_parts_mut(self.list, self.room)
    }

    unsafe fn set(&self, place: u32, given: u32, rows: u32) {
        set(self.place, place);
        set(self.given, given);
        if let Some(to) = self.rows {
            set(to, rows);
        }
    }
}

/// All rows of what is listed, each of so many numbers.
struct Listed {
    rows: u32,
    numbers: usize,
    all: Vec<u64>,
}

/// # Safety
/// As include/barcovento.h says.
#[no_mangle]
pub unsafe extern "C" fn bv_block_page(
    schema: *const u8,
    schema_len: usize,
    block: *const u8,
    block_len: usize,
    place: *mut u32,
    list: *mut u64,
    room: usize,
    given: *mut u32,
    rows: *mut u32,
) -> u32 {
    let schema = from_raw_parts(schema, schema_len);
    let block = from_raw_parts(block, block_len);
    let to = Outputs { place, list, room, given, rows: Some(rows) };
    if active() {
        return match fields::of_block(schema, block) {
            Ok(listed) => plans::give(&to, &listed),
            Err(number) => refusals::of_block(&to, number, schema, block),
        };
    }
    match rows::page(schema, block, *place, to.list()) {
        Ok((count, rows)) => {
            to.set(*place + count, count, rows);
            0
        }
        Err(number) => super::refuse(number),
    }
}

/// # Safety
/// As include/barcovento.h says.
#[no_mangle]
pub unsafe extern "C" fn bv_bucket_page(
    schema: *const u8,
    schema_len: usize,
    rows: u32,
    bucket: *const u8,
    bucket_len: usize,
    column: u32,
    place: *mut u32,
    list: *mut u64,
    room: usize,
    given: *mut u32,
) -> u32 {
    let schema = from_raw_parts(schema, schema_len);
    let bucket = from_raw_parts(bucket, bucket_len);
    let to = Outputs { place, list, room, given, rows: None };
    if active() {
        let asked = columns::Asked { schema, rows, bucket, column, place: *place };
        return match columns::listed(&asked) {
            Ok(listed) => plans::give(&to, &listed),
            Err(number) => refusals::of_bucket(&to, number, &asked),
        };
    }
    match buckets::page(schema, rows, bucket, column, *place, to.list()) {
        Ok(count) => {
            to.set(*place + count, count, rows);
            0
        }
        Err(number) => super::refuse(number),
    }
}
