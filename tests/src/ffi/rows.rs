//! The calls on schemas and blocks.

use super::{
    fields::{field, LentPage},
    mark, settle, Called, Field, Lent, Memory, Page,
};
use crate::generate::Random;
use barcovento::raw::{
    bv_block_check, bv_block_field, bv_block_page, bv_schema_check, bv_schema_column,
};

pub fn schema_check(schema: &Lent<u8>, random: &mut Random) -> Called<u32> {
    let mut columns = Lent::output("columns", 1, random);
    let code = unsafe { bv_schema_check(schema.pointer(), schema.length, columns.pointer_mut()) };
    settle(code, &[schema], &[(&columns, 1)], || columns.value())
}

/// The type's id, whether it may be null, its length or precision, its scale.
pub type Column = (u8, bool, u32, u32);

pub fn schema_column(schema: &Lent<u8>, column: u32, random: &mut Random) -> Called<Column> {
    let mut kind = Lent::output("type", 1, random);
    let mut nullable = Lent::output("nullable", 1, random);
    let mut size = Lent::output("size", 1, random);
    let mut scale = Lent::output("scale", 1, random);
    let code = unsafe {
        bv_schema_column(
            schema.pointer(),
            schema.length,
            column,
            kind.pointer_mut(),
            nullable.pointer_mut(),
            size.pointer_mut(),
            scale.pointer_mut(),
        )
    };
    let outputs: [(&dyn Memory, usize); 4] = [(&kind, 1), (&nullable, 1), (&size, 1), (&scale, 1)];
    if let Err(refusal) = settle(code, &[schema], &outputs, || ())? {
        return Ok(Err(refusal));
    }
    let nullable = mark("nullable", nullable.value())?;
    Ok(Ok((kind.value(), nullable, size.value(), scale.value())))
}

pub fn block_check(schema: &Lent<u8>, block: &Lent<u8>, random: &mut Random) -> Called<u32> {
    let mut rows = Lent::output("rows", 1, random);
    let code = unsafe {
        bv_block_check(
            schema.pointer(),
            schema.length,
            block.pointer(),
            block.length,
            rows.pointer_mut(),
        )
    };
    settle(code, &[schema, block], &[(&rows, 1)], || rows.value())
}

pub fn block_field(
    schema: &Lent<u8>,
    block: &Lent<u8>,
    row: u32,
    column: u32,
    random: &mut Random,
) -> Called<Field> {
    field(&[schema, block], random, |to| unsafe {
        bv_block_field(
            schema.pointer(),
            schema.length,
            block.pointer(),
            block.length,
            row,
            column,
            to.kind,
            to.whole,
            to.bits,
            to.nanos,
            to.start,
            to.length,
        )
    })
}

/// A page of a block whose rows take so many numbers each.
pub fn block_page(
    schema: &Lent<u8>,
    block: &Lent<u8>,
    numbers: usize,
    place: u32,
    room: usize,
    random: &mut Random,
) -> Called<Page> {
    let mut page = LentPage::new(place, room, random);
    let mut rows = Lent::output("rows", 1, random);
    let code = unsafe {
        bv_block_page(
            schema.pointer(),
            schema.length,
            block.pointer(),
            block.length,
            page.place.pointer_mut(),
            page.list.pointer_mut(),
            room,
            page.given.pointer_mut(),
            rows.pointer_mut(),
        )
    };
    page.settle(code, numbers, &[schema, block], &[(&rows, 1)], rows.value())
}

pub fn block_page_in_place(
    schema: &Lent<u8>,
    block: &Lent<u8>,
    list: &mut [u64],
) -> Result<Page, u32> {
    Page::in_place(|place, given, rows| unsafe {
        bv_block_page(
            schema.pointer(),
            schema.length,
            block.pointer(),
            block.length,
            place,
            list.as_mut_ptr(),
            list.len(),
            given,
            rows,
        )
    })
}
