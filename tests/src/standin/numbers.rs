//! The call that reads a number in groups of seven bits, and the faults of such numbers: in that call,
//! and wherever one stands in schemas, blocks and buckets.

use super::places::{self, Role, Spot, Walk};
use super::{planted, set};
use crate::ffi::numbers::Read;
use crate::generate::numbers::fewest;
use crate::generate::schema::schema_bytes;
use crate::reference::schema::{self, Column, Type};
use crate::reference::{buckets, rows, varint, Answer};
use std::borrow::Cow;
use std::slice::from_raw_parts;
use std::sync::OnceLock;

/// The faults of this file, with the group that must find each one.
pub fn faults() -> Vec<(&'static str, String)> {
    let read = READ_FAULTS.iter().map(|(name, _)| name).chain(&CALL_FAULTS);
    let mut faults: Vec<(&str, &str)> = read.map(|name| ("numbers", *name)).collect();
    for (name, roles, _) in REFUSED {
        faults.extend(groups(roles).iter().map(|group| (*group, *name)));
    }
    for (name, group) in MENDED {
        faults.push((group, name));
    }
    for group in ["rows", "buckets"] {
        faults.extend([(group, AFTER_FIRST_BYTE), (group, EMPTY_DECIMAL)]);
    }
    faults.push(("buckets", CUT_SHORT_AT_THE_END));
    faults.into_iter().map(|(group, name)| (group, name.to_string())).collect()
}

/// The groups that meet such numbers.
fn groups(roles: &[Role]) -> &'static [&'static str] {
    match roles[0].refusal() {
        20 => &["rows", "buckets"],
        24 => &["rows"],
        _ => &["buckets"],
    }
}

/// Faults of the call that reads a number, beside those of its outputs.
const CALL_FAULTS: [&str; 4] =
    ["found-as-four-bytes", "input-changed", "reads-behind-the-bytes", "returns-what-it-found"];

/// Changes the outputs, from the bytes and from what the outputs held before.
type ReadFault = fn(&[u8], Read, &mut Read);

const READ_FAULTS: &[(&str, ReadFault)] = &[
    ("wraps-a-fifth-byte", |bytes, _, read| {
        if read.found == 2 && bytes[4] < 0x80 {
            *read = Read { found: 0, value: sum(&bytes[..5]), used: 5, shortest: 1 };
        }
    }),
    ("takes-a-sixth-byte", |bytes, _, read| {
        if read.found == 2 && bytes[4] >= 0x80 && bytes.get(5) == Some(&0) {
            *read = Read { found: 0, value: sum(&bytes[..5]), used: 6, shortest: 0 };
        }
    }),
    ("five-high-bits-at-the-end-cut-short", |bytes, _, read| {
        if read.found == 2 && bytes.len() == 5 && bytes[4] >= 0x80 {
            read.found = 1;
        }
    }),
    ("cut-short-as-ill-formed", |_, _, read| {
        if read.found == 1 {
            read.found = 2;
        }
    }),
    ("no-bytes-as-0", |bytes, _, read| {
        if bytes.is_empty() {
            read.found = 0;
        }
    }),
    ("padded-as-ill-formed", |_, _, read| {
        if read.found == 0 && read.shortest == 0 {
            *read = Read { found: 2, value: 0, used: 0, shortest: 0 };
        }
    }),
    ("padded-to-five-bytes-as-ill-formed", |_, _, read| {
        if read.used == 5 && read.shortest == 0 {
            *read = Read { found: 2, value: 0, used: 0, shortest: 0 };
        }
    }),
    ("over-31-bits-as-ill-formed", |_, _, read| {
        if read.value >> 31 == 1 {
            *read = Read { found: 2, value: 0, used: 0, shortest: 0 };
        }
    }),
    ("high-group-first", |bytes, _, read| {
        let groups = bytes[..read.used as usize].iter();
        read.value = groups.fold(0, |value, byte| value << 7 | u32::from(byte & 0x7F));
    }),
    ("marks-00-padded", |_, _, read| {
        if read.value == 0 && read.used == 1 {
            read.shortest = 0;
        }
    }),
    ("marks-80-00-shortest", |_, _, read| {
        if read.value == 0 && read.used == 2 {
            read.shortest = 1;
        }
    }),
    ("marks-many-bytes-padded", |_, _, read| {
        if read.used > 1 {
            read.shortest = 0;
        }
    }),
    ("marks-five-bytes-padded", |_, _, read| {
        if read.used == 5 {
            read.shortest = 0;
        }
    }),
    ("marks-by-the-last-byte-alone", |bytes, _, read| {
        if read.found == 0 {
            read.shortest = u8::from(bytes[read.used as usize - 1] > 0);
        }
    }),
    ("mark-not-0-or-1", |_, _, read| read.shortest *= 255),
    ("used-without-the-last-byte", |_, _, read| read.used = read.used.saturating_sub(1)),
    ("used-as-if-shortest", |_, _, read| {
        if read.found == 0 {
            read.used = fewest(read.value) as u32;
        }
    }),
    ("used-all-bytes", |bytes, _, read| {
        if read.found == 0 {
            read.used = bytes.len() as u32;
        }
    }),
    ("used-where-ill-formed", |_, _, read| {
        if read.found == 2 {
            read.used = 5;
        }
    }),
    ("used-where-cut-short", |bytes, _, read| {
        if read.found == 1 {
            read.used = bytes.len() as u32;
        }
    }),
    ("value-so-far-where-cut-short", |bytes, _, read| {
        if read.found == 1 {
            read.value = sum(bytes);
        }
    }),
    ("found-not-set", |_, before, read| {
        if read.found == 0 {
            read.found = before.found;
        }
    }),
    ("value-kept-where-cut-short", |_, before, read| {
        if read.found == 1 {
            read.value = before.value;
        }
    }),
    ("value-kept-where-ill-formed", |_, before, read| {
        if read.found == 2 {
            read.value = before.value;
        }
    }),
    ("used-kept-where-cut-short", |_, before, read| {
        if read.found == 1 {
            read.used = before.used;
        }
    }),
    ("used-kept-where-ill-formed", |_, before, read| {
        if read.found == 2 {
            read.used = before.used;
        }
    }),
    ("mark-kept-where-cut-short", |_, before, read| {
        if read.found == 1 {
            read.shortest = before.shortest;
        }
    }),
    ("mark-kept-where-ill-formed", |_, before, read| {
        if read.found == 2 {
            read.shortest = before.shortest;
        }
    }),
];

/// The groups of at most five bytes in 32 bits; what is over them is lost.
fn sum(bytes: &[u8]) -> u32 {
    bytes.iter().rev().fold(0, |value, byte| value << 7 | u32::from(byte & 0x7F))
}

/// # Safety
/// As include/barcovento.h says.
#[no_mangle]
pub unsafe extern "C" fn bv_number_read(
    bytes: *const u8,
    len: usize,
    found: *mut u8,
    value: *mut u32,
    used: *mut u32,
    shortest: *mut u8,
) -> u32 {
    if planted("input-changed") && len > 0 {
        *(bytes as *mut u8) ^= 1;
    }
    let behind = if planted("reads-behind-the-bytes") && len > 0 { 5 } else { 0 };
    let bytes = from_raw_parts(bytes, len + behind);
    let mut read = Read::from(varint::read_marked(bytes, 0));
    if let Some((_, fault)) = READ_FAULTS.iter().find(|(name, _)| planted(name)) {
        let before = Read { found: *found, value: *value, used: *used, shortest: *shortest };
        fault(bytes, before, &mut read);
    }
    if planted("found-as-four-bytes") {
        (found as *mut u32).write_unaligned(read.found.into());
    }
    set(found, read.found);
    set(value, read.value);
    set(used, read.used);
    set(shortest, read.shortest);
    if planted("returns-what-it-found") {
        return read.found.into();
    }
    0
}

/// Padded numbers that are refused as they were before request (iv): the fault, which numbers, and in
/// how many bytes at least.
const REFUSED: &[(&str, &[Role], usize)] = &[
    ("old-rule-in-schemas", &SCHEMA_ROLES, 2),
    ("old-rule-for-the-count-of-a-schema", &[Role::Columns], 2),
    ("old-rule-for-declared-lengths", &[Role::Length], 2),
    ("old-rule-for-precisions", &[Role::Precision], 2),
    ("old-rule-for-scales", &[Role::Scale], 2),
    ("old-rule-in-rows", &[Role::RowLength, Role::Nanoseconds], 2),
    ("old-rule-for-lengths-in-rows", &[Role::RowLength], 2),
    ("old-rule-for-nanoseconds", &[Role::Nanoseconds], 2),
    ("old-rule-in-buckets", &BUCKET_ROLES, 2),
    ("old-rule-for-the-column-count", &[Role::BucketColumns], 2),
    ("old-rule-for-children", &[Role::Children], 2),
    ("old-rule-for-entries", &[Role::Entries], 2),
    ("old-rule-for-constants", &[Role::Constant], 2),
    ("old-rule-for-values-of-a-table", &[Role::Entry], 2),
    ("old-rule-for-plain-values", &[Role::Plain], 2),
    ("five-bytes-refused-in-schemas", &SCHEMA_ROLES, 5),
    ("five-bytes-refused-in-rows", &[Role::RowLength, Role::Nanoseconds], 5),
    ("five-bytes-refused-in-buckets", &BUCKET_ROLES, 5),
];

const SCHEMA_ROLES: [Role; 4] = [Role::Columns, Role::Length, Role::Precision, Role::Scale];
const BUCKET_ROLES: [Role; 6] =
    [Role::BucketColumns, Role::Children, Role::Entries, Role::Constant, Role::Entry, Role::Plain];

/// Numbers that are ill-formed, and read all the same. A sixth byte in a row would move all offsets.
const MENDED: [(&str, &str); 5] = [
    ("wraps-a-fifth-byte-in-schemas", "rows"),
    ("wraps-a-fifth-byte-in-rows", "rows"),
    ("wraps-a-fifth-byte-in-buckets", "buckets"),
    ("takes-a-sixth-byte-in-schemas", "rows"),
    ("takes-a-sixth-byte-in-buckets", "buckets"),
];
const EMPTY_DECIMAL: &str = "padded-empty-decimal-accepted";
const AFTER_FIRST_BYTE: &str = "place-after-the-first-byte-of-its-length";
const CUT_SHORT_AT_THE_END: &str = "five-high-bits-at-the-end-cut-short";

/// Whether a fault of this file is planted in schemas, blocks or buckets.
fn active() -> bool {
    static ACTIVE: OnceLock<bool> = OnceLock::new();
    *ACTIVE.get_or_init(|| {
        let others = [AFTER_FIRST_BYTE, CUT_SHORT_AT_THE_END, EMPTY_DECIMAL];
        let mended = MENDED.iter().map(|(name, _)| *name);
        REFUSED.iter().map(|(name, _, _)| *name).chain(mended).chain(others).any(planted)
    })
}

/// The refusal of the first padded number that the planted fault does not take.
fn refused(walk: &Walk) -> Option<u32> {
    let (_, roles, bytes) = REFUSED.iter().find(|(name, _, _)| planted(name))?;
    let hit = |spot: &&Spot| {
        roles.contains(&spot.role) && !spot.shortest && spot.end - spot.start >= *bytes
    };
    walk.spots.iter().find(hit).map(|spot| spot.role.refusal())
}

/// The bytes with their first ill-formed number made sound, if that fault is planted in such bytes.
fn mended<'a>(bytes: &'a [u8], walk: &Walk, part: &str) -> Cow<'a, [u8]> {
    let Some(place) = walk.ill_formed else { return bytes.into() };
    let fifth = place + 4;
    let mut out = bytes.to_vec();
    if planted(&format!("wraps-a-fifth-byte-in-{part}")) && bytes[fifth] < 0x80 {
        out[fifth] &= 0x0F;
    }
    if planted(&format!("takes-a-sixth-byte-in-{part}")) && bytes.get(fifth + 1) == Some(&0) {
        out[fifth] &= 0x7F;
        out.remove(fifth + 1);
    }
    out.into()
}

fn mended_schema(bytes: &[u8]) -> Cow<'_, [u8]> {
    mended(bytes, &places::of_schema(bytes), "schemas")
}

/// The schema by which a block or bucket is judged: with BYTES for every type that has lengths where
/// all large DECIMALs of no bytes are padded, if that fault is planted.
fn judging_schema<'a>(schema: &'a [u8], columns: &[Column], walk: &Walk) -> Cow<'a, [u8]> {
    let padded = !walk.empty_decimals.is_empty() && !walk.empty_decimals.contains(&true);
    if !planted(EMPTY_DECIMAL) || !padded {
        return mended_schema(schema);
    }
    let mut columns = columns.to_vec();
    for column in columns.iter_mut().filter(|column| places::counted(column.kind)) {
        column.kind = Type::Bytes;
    }
    schema_bytes(&columns).into()
}

/// A place that starts one byte after the first byte of its length, if that fault is planted.
fn moved(answer: Answer, walk: &Walk) -> Answer {
    let Answer::Place { start, length } = answer else { return answer };
    let spot = walk.spots.iter().find(|spot| planted(AFTER_FIRST_BYTE) && spot.end == start);
    Answer::Place { start: spot.map_or(start, |spot| spot.start + 1), length }
}

/// The columns of a schema, with the faults of its numbers.
pub fn schema(bytes: &[u8]) -> Result<Vec<Column>, u32> {
    if !active() {
        return schema::read(bytes);
    }
    let columns = schema::read(&mended_schema(bytes))?;
    refused(&places::of_schema(bytes)).map_or(Ok(columns), Err)
}

/// What the question answers of a block, and the block's numbers.
fn ask_block<T>(
    schema: &[u8],
    block: &[u8],
    ask: impl Fn(&[u8], &[u8]) -> Result<T, u32>,
) -> Result<(T, Walk), u32> {
    let columns = self::schema(schema)?;
    let walk = places::of_block(&columns, block);
    let schema = judging_schema(schema, &columns, &walk);
    let answer = ask(&schema, &mended(block, &walk, "rows"))?;
    refused(&walk).map_or(Ok((answer, walk)), Err)
}

pub fn block_check(schema: &[u8], block: &[u8]) -> Result<u32, u32> {
    if !active() {
        return rows::check(schema, block);
    }
    ask_block(schema, block, rows::check).map(|(rows, _)| rows)
}

pub fn block_field(schema: &[u8], block: &[u8], row: u32, column: u32) -> Result<Answer, u32> {
    if !active() {
        return rows::field(schema, block, row, column);
    }
    let ask = |schema: &[u8], block: &[u8]| rows::field(schema, block, row, column);
    let (answer, walk) = ask_block(schema, block, ask)?;
    Ok(moved(answer, &walk))
}

/// What the question answers of a bucket, and the bucket's numbers.
fn ask_bucket<T>(
    schema: &[u8],
    rows: u32,
    bucket: &[u8],
    ask: impl Fn(&[u8], &[u8]) -> Result<T, u32>,
) -> Result<(T, Walk), u32> {
    let columns = self::schema(schema)?;
    let walk = places::of_bucket(&columns, rows, bucket);
    let high = walk.ill_formed.is_some_and(|place| bucket[place + 4] >= 0x80);
    let at_the_end = walk.ill_formed.is_some_and(|place| place + 5 == bucket.len());
    let schema = judging_schema(schema, &columns, &walk);
    let answer = match ask(&schema, &mended(bucket, &walk, "buckets")) {
        Err(30 | 32) if planted(CUT_SHORT_AT_THE_END) && high && at_the_end => Err(31),
        answer => answer,
    }?;
    refused(&walk).map_or(Ok((answer, walk)), Err)
}

pub fn bucket_check(schema: &[u8], rows: u32, bucket: &[u8]) -> Result<(), u32> {
    if !active() {
        return buckets::check(schema, rows, bucket);
    }
    let ask = |schema: &[u8], bucket: &[u8]| buckets::check(schema, rows, bucket);
    ask_bucket(schema, rows, bucket, ask).map(|_| ())
}

pub fn bucket_field(
    schema: &[u8],
    rows: u32,
    bucket: &[u8],
    row: u32,
    column: u32,
) -> Result<Answer, u32> {
    if !active() {
        return buckets::field(schema, rows, bucket, row, column);
    }
    let ask = |schema: &[u8], bucket: &[u8]| buckets::field(schema, rows, bucket, row, column);
    let (answer, walk) = ask_bucket(schema, rows, bucket, ask)?;
    Ok(moved(answer, &walk))
}
