//! The C interface as it is, include/barcovento.h: every call, and the numbers that answers use.
//!
//! # Safety
//! Every call takes any bytes and any numbers. What a caller owes is what the header says of pointers: a
//! pointer is not null, is aligned, and is good for as many elements as the number with it says; outputs
//! overlap neither inputs nor each other; two inputs may be the same bytes.
#![allow(clippy::missing_safety_doc, clippy::too_many_arguments)]

/// How many numbers a store's directory has.
pub const STORE_DIRECTORY: usize = 128;

/// What `bv_number_read` found.
pub const NUMBER: u8 = 0;
pub const CUT_SHORT: u8 = 1;
pub const ILL_FORMED: u8 = 2;

/// The kinds of a field's answer.
pub const NULL: u8 = 0;
pub const YES_NO: u8 = 1;
pub const WHOLE: u8 = 2;
pub const FLOAT: u8 = 3;
pub const DOUBLE: u8 = 4;
pub const TIME: u8 = 5;
pub const PLACE: u8 = 6;

/// A set operation: two bitmaps, an output, its length.
pub type Combine =
    unsafe extern "C" fn(*const u8, usize, *const u8, usize, *mut u8, usize, *mut usize) -> u32;

extern "C" {
    pub fn bv_bitmap_check(bytes: *const u8, len: usize, cardinality: *mut u32) -> u32;
    pub fn bv_bitmap_explain(
        bytes: *const u8,
        len: usize,
        number: *mut u32,
        index: *mut usize,
        byte: *mut usize,
        found: *mut usize,
        wanted: *mut usize,
    ) -> u32;
    pub fn bv_bitmap_probe(bytes: *const u8, len: usize, position: u32, member: *mut u8) -> u32;
    pub fn bv_bitmap_rank(bytes: *const u8, len: usize, position: u32, below: *mut u32) -> u32;
    pub fn bv_bitmap_page(
        bytes: *const u8,
        len: usize,
        place: *mut u32,
        finished: *mut u8,
        list: *mut u32,
        room: usize,
        given: *mut u32,
    ) -> u32;
    pub fn bv_bitmap_write(
        positions: *const u32,
        count: usize,
        out: *mut u8,
        room: usize,
        length: *mut usize,
    ) -> u32;
    pub fn bv_bitmap_union(
        a: *const u8,
        a_len: usize,
        b: *const u8,
        b_len: usize,
        out: *mut u8,
        room: usize,
        length: *mut usize,
    ) -> u32;
    pub fn bv_bitmap_intersection(
        a: *const u8,
        a_len: usize,
        b: *const u8,
        b_len: usize,
        out: *mut u8,
        room: usize,
        length: *mut usize,
    ) -> u32;
    pub fn bv_bitmap_difference(
        a: *const u8,
        a_len: usize,
        b: *const u8,
        b_len: usize,
        out: *mut u8,
        room: usize,
        length: *mut usize,
    ) -> u32;
    pub fn bv_bitmap_symmetric_difference(
        a: *const u8,
        a_len: usize,
        b: *const u8,
        b_len: usize,
        out: *mut u8,
        room: usize,
        length: *mut usize,
    ) -> u32;

    pub fn bv_store_put(
        buffer: *mut u8,
        len: usize,
        directory: *mut u32,
        numbers: usize,
        owner: u32,
        slot: u32,
        bitmap: *const u8,
        bitmap_len: usize,
    ) -> u32;
    pub fn bv_store_fetch(
        buffer: *const u8,
        len: usize,
        directory: *const u32,
        numbers: usize,
        owner: u32,
        slot: u32,
        out: *mut u8,
        room: usize,
        length: *mut usize,
    ) -> u32;
    pub fn bv_store_drop(
        buffer: *const u8,
        len: usize,
        directory: *mut u32,
        numbers: usize,
        owner: u32,
        slot: u32,
    ) -> u32;
    pub fn bv_store_save(
        buffer: *const u8,
        len: usize,
        directory: *const u32,
        numbers: usize,
        out: *mut u8,
        room: usize,
        length: *mut usize,
    ) -> u32;
    pub fn bv_store_load(
        buffer: *mut u8,
        len: usize,
        directory: *mut u32,
        numbers: usize,
        saved: *const u8,
        saved_len: usize,
    ) -> u32;

    pub fn bv_number_read(
        bytes: *const u8,
        len: usize,
        found: *mut u8,
        value: *mut u32,
        used: *mut u32,
        shortest: *mut u8,
    ) -> u32;

    pub fn bv_schema_check(schema: *const u8, len: usize, columns: *mut u32) -> u32;
    pub fn bv_schema_column(
        schema: *const u8,
        len: usize,
        column: u32,
        kind: *mut u8,
        nullable: *mut u8,
        size: *mut u32,
        scale: *mut u32,
    ) -> u32;
    pub fn bv_block_check(
        schema: *const u8,
        schema_len: usize,
        block: *const u8,
        block_len: usize,
        rows: *mut u32,
    ) -> u32;
    pub fn bv_block_field(
        schema: *const u8,
        schema_len: usize,
        block: *const u8,
        block_len: usize,
        row: u32,
        column: u32,
        kind: *mut u8,
        whole: *mut i64,
        bits: *mut u64,
        nanos: *mut u32,
        start: *mut usize,
        length: *mut usize,
    ) -> u32;
    pub fn bv_block_page(
        schema: *const u8,
        schema_len: usize,
        block: *const u8,
        block_len: usize,
        place: *mut u32,
        list: *mut u64,
        room: usize,
        given: *mut u32,
        rows: *mut u32,
    ) -> u32;
    pub fn bv_bucket_check(
        schema: *const u8,
        schema_len: usize,
        rows: u32,
        bucket: *const u8,
        bucket_len: usize,
    ) -> u32;
    pub fn bv_bucket_field(
        schema: *const u8,
        schema_len: usize,
        rows: u32,
        bucket: *const u8,
        bucket_len: usize,
        row: u32,
        column: u32,
        kind: *mut u8,
        whole: *mut i64,
        bits: *mut u64,
        nanos: *mut u32,
        start: *mut usize,
        length: *mut usize,
    ) -> u32;
    pub fn bv_bucket_page(
        schema: *const u8,
        schema_len: usize,
        rows: u32,
        bucket: *const u8,
        bucket_len: usize,
        column: u32,
        place: *mut u32,
        list: *mut u64,
        room: usize,
        given: *mut u32,
    ) -> u32;
}
