//! The calls on buckets.

use super::{
    fields::{field, LentPage},
    settle, Called, Field, Lent, Page,
};
use crate::generate::Random;
use barcovento::raw::{bv_bucket_check, bv_bucket_field, bv_bucket_page};

pub fn bucket_check(schema: &Lent<u8>, rows: u32, bucket: &Lent<u8>) -> Called<()> {
    let code = unsafe {
        bv_bucket_check(schema.pointer(), schema.length, rows, bucket.pointer(), bucket.length)
    };
    settle(code, &[schema, bucket], &[], || ())
}

pub fn bucket_field(
    schema: &Lent<u8>,
    rows: u32,
    bucket: &Lent<u8>,
    row: u32,
    column: u32,
    random: &mut Random,
) -> Called<Field> {
    field(&[schema, bucket], random, |to| unsafe {
        bv_bucket_field(
            schema.pointer(),
            schema.length,
            rows,
            bucket.pointer(),
            bucket.length,
            row,
            column,
            to.kind,
            to.whole,
            to.bits,
            to.nanos,
            to.start,
            to.length,
        )
    })
}

/// A page of one column of a bucket of so many rows.
pub fn bucket_page(
    schema: &Lent<u8>,
    rows: u32,
    bucket: &Lent<u8>,
    column: u32,
    place: u32,
    room: usize,
    random: &mut Random,
) -> Called<Page> {
    let mut page = LentPage::new(place, room, random);
    let code = unsafe {
        bv_bucket_page(
            schema.pointer(),
            schema.length,
            rows,
            bucket.pointer(),
            bucket.length,
            column,
            page.place.pointer_mut(),
            page.list.pointer_mut(),
            room,
            page.given.pointer_mut(),
        )
    };
    page.settle(code, 3, &[schema, bucket], &[], rows)
}

pub fn bucket_page_in_place(
    schema: &Lent<u8>,
    rows: u32,
    bucket: &Lent<u8>,
    column: u32,
    list: &mut [u64],
) -> Result<Page, u32> {
    Page::in_place(|place, given, of_page| unsafe {
        *of_page = rows;
        bv_bucket_page(
            schema.pointer(),
            schema.length,
            rows,
            bucket.pointer(),
            bucket.length,
            column,
            place,
            list.as_mut_ptr(),
            list.len(),
            given,
        )
    })
}
