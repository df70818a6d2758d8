//! A stand-in for the library: its calls, made from the second program. The variable BV_FAULT plants
//! one fault, by name; src/bin/faults.rs lists the names. With it the tests can be seen to fail.

use crate::ffi::{Field, FieldPointers};
use crate::reference::bitmap::{self, Operation};
use crate::reference::Answer;
use std::slice::{from_raw_parts, from_raw_parts_mut};
use std::sync::OnceLock;

mod explain;
mod numbers;
mod pages;
mod places;
mod store;
mod widths;

/// Whether the fault of this name is planted.
fn planted(name: &str) -> bool {
    static FAULT: OnceLock<String> = OnceLock::new();
    FAULT.get_or_init(|| std::env::var("BV_FAULT").unwrap_or_default()) == name
}

/// The faults that can be planted, with the group that must find each one.
pub fn faults() -> Vec<(&'static str, String)> {
    let mut faults = Vec::new();
    let refusals = [
        ("bitmap_read", 1..=11),
        ("bitmap_write", 12..=13),
        ("combine", 1..=11),
        ("combine", 13..=13),
        ("store", 1..=11),
        ("store", 13..=13),
        ("store", 40..=42),
        ("store", 44..=44),
        ("rows", 20..=25),
        ("buckets", 20..=20),
        ("buckets", 25..=25),
        ("buckets", 30..=37),
    ];
    for (group, numbers) in refusals {
        faults.extend(numbers.map(|number| (group, format!("refusal-{number}"))));
    }
    for (group, names) in FAULTS {
        faults.extend(names.iter().map(|name| (*group, name.to_string())));
    }
    faults.extend(explain::faults().into_iter().map(|name| ("bitmap_read", name)));
    faults.extend(widths::faults());
    faults.extend(numbers::faults());
    faults.extend(pages::faults());
    faults.extend(store::faults());
    faults
}

const FAULTS: &[(&str, &[&str])] = &[
    (
        "bitmap_read",
        &[
            "refuses-everything",
            "output-touched-on-refusal",
            "input-changed",
            "count-invented",
            "count-as-eight-bytes",
            "probe-aliases-high-numbers",
            "member-not-0-or-1",
            "rank-counts-the-position",
            "rank-of-large-numbers-0",
            "page-claims-finished",
            "page-finishes-one-call-late",
            "page-past-room",
            "page-touches-rest",
            "page-skips-a-member",
            "page-place-not-moved",
            "page-lists-when-finished",
            "page-mark-rewritten",
            "count-three-words",
            "count-third-word-twice",
            "count-half-of-each-word",
            "count-in-a-byte",
        ],
    ),
    (
        "bitmap_write",
        &[
            "writes-nothing",
            "writes-before-room",
            "writes-past-length",
            "writes-before-output",
            "length-touched-on-refusal",
            "room-before-list",
            "trailing-empty-container",
            "room-one-too-many",
        ],
    ),
    (
        "combine",
        &[
            "always-empty",
            "difference-swapped",
            "second-half-dropped",
            "second-judged-first",
            "trailing-empty-container",
            "writes-before-room",
            "writes-past-length",
            "writes-far-behind",
            "moved-short-in-large-room",
            "refused-in-large-room",
        ],
    ),
    (
        "plans",
        &[
            "always-empty",
            "second-half-dropped",
            "refusal-13",
            "writes-far-behind",
            "moved-short-in-large-room",
        ],
    ),
    ("rows", &FIELD_FAULTS),
    ("rows", &["rows-invented", "nullable-inverted", "size-forgotten", "scale-forgotten"]),
    ("buckets", &FIELD_FAULTS),
];

const FIELD_FAULTS: [&str; 11] = [
    "accepts-everything",
    "refuses-everything",
    "kind-touched-on-refusal",
    "length-touched-on-refusal",
    "place-at-its-length",
    "place-too-short",
    "whole-not-signed",
    "nan-made-quiet",
    "nanoseconds-forgotten",
    "null-as-0",
    "unused-output-not-0",
];

/// What a call returns for a refusal.
fn refuse(number: u32) -> u32 {
    if planted(&format!("refusal-{number}")) {
        number % 11 + 1
    } else {
        number
    }
}

/// Wrong counts of a dense container's members.
type Count = fn(&[u32]) -> usize;
const COUNTS: [(&str, Count); 4] = [
    ("count-three-words", |members| below(members, 192)),
    ("count-third-word-twice", |members| 2 * below(members, 192) - below(members, 128)),
    ("count-half-of-each-word", |members| members.iter().filter(|&&p| p % 64 < 32).count()),
    ("count-in-a-byte", |members| members.len() % 256),
];

/// How many of a container's members lie below this place in it.
fn below(members: &[u32], place: u32) -> usize {
    members.iter().filter(|&&position| position % 256 < place).count()
}

/// What an accepted bitmap is refused for if a wrong count is planted.
fn miscounted(bitmap: &bitmap::Bitmap) -> Option<u32> {
    let (_, count) = COUNTS.iter().find(|(name, _)| planted(name))?;
    let members = bitmap.members();
    let containers = members.chunk_by(|a, b| a / 256 == b / 256);
    let dense: Vec<&[u32]> = containers.filter(|container| container.len() >= 32).collect();
    let counted: Vec<usize> = dense.iter().map(|container| count(container)).collect();
    if counted.iter().any(|&count| count < 32) {
        return Some(10);
    }
    let members: usize = dense.iter().map(|container| container.len()).sum();
    (counted.iter().sum::<usize>() != members).then_some(11)
}

unsafe fn set<T>(output: *mut T, value: T) {
    output.write(value);
}

unsafe fn judge<'a, T>(
    bytes: *const u8,
    len: usize,
    output: *mut T,
    answer: impl FnOnce(bitmap::Bitmap<'a>) -> T,
) -> u32
where
    T: Default,
{
    if planted("refuses-everything") {
        return 1;
    }
    if planted("input-changed") && len > 0 {
        *(bytes as *mut u8) ^= 1;
    }
    let bytes = from_raw_parts(bytes, len);
    match bitmap::Bitmap::judge(bytes) {
        Ok(bitmap) => {
            if let Some(number) = miscounted(&bitmap).or_else(|| widths::refused(bytes, &bitmap)) {
                return number;
            }
            set(output, answer(bitmap));
            0
        }
        Err(number) => {
            if planted("output-touched-on-refusal") {
                set(output, T::default());
            }
            refuse(number)
        }
    }
}

/// # Safety
/// As include/barcovento.h says.
#[no_mangle]
pub unsafe extern "C" fn bv_bitmap_check(
    bytes: *const u8,
    len: usize,
    cardinality: *mut u32,
) -> u32 {
    if planted("count-as-eight-bytes") {
        return judge(bytes, len, cardinality as *mut u64, |bitmap| bitmap.cardinality().into());
    }
    judge(bytes, len, cardinality, |bitmap| {
        let invented = planted("count-invented") && bitmap.cardinality() > 100;
        bitmap.cardinality() - u32::from(invented)
    })
}

/// # Safety
/// As include/barcovento.h says.
#[no_mangle]
pub unsafe extern "C" fn bv_bitmap_probe(
    bytes: *const u8,
    len: usize,
    position: u32,
    member: *mut u8,
) -> u32 {
    judge(bytes, len, member, |bitmap| {
        let alias = planted("probe-aliases-high-numbers");
        let position = if alias { position & 0xFF_FFFF } else { position };
        let high = if planted("member-not-0-or-1") { 128 } else { 1 };
        u8::from(bitmap.contains(position)) * high
    })
}

/// # Safety
/// As include/barcovento.h says.
#[no_mangle]
pub unsafe extern "C" fn bv_bitmap_rank(
    bytes: *const u8,
    len: usize,
    position: u32,
    below: *mut u32,
) -> u32 {
    judge(bytes, len, below, |bitmap| {
        if planted("rank-of-large-numbers-0") && position > 2_097_151 {
            return 0;
        }
        let counted = planted("rank-counts-the-position") && bitmap.contains(position);
        bitmap.rank(position) + u32::from(counted)
    })
}

/// # Safety
/// As include/barcovento.h says.
#[no_mangle]
pub unsafe extern "C" fn bv_bitmap_page(
    bytes: *const u8,
    len: usize,
    place: *mut u32,
    finished: *mut u8,
    list: *mut u32,
    room: usize,
    given: *mut u32,
) -> u32 {
    let bitmap = match bitmap::Bitmap::judge(from_raw_parts(bytes, len)) {
        Ok(bitmap) => bitmap,
        Err(number) => {
            if planted("output-touched-on-refusal") {
                set(given, 0);
            }
            return refuse(number);
        }
    };
    if *finished != 0 && !planted("page-lists-when-finished") {
        if planted("page-mark-rewritten") {
            set(finished, 1);
        }
        set(given, 0);
        return 0;
    }
    let lent = from_raw_parts_mut(list, room);
    let mut page = bitmap.page(*place, lent);
    if planted("page-skips-a-member") && page.given > 1 {
        lent[page.given - 2] = lent[page.given - 1];
    }
    if planted("page-claims-finished") && page.given > 0 {
        page.finished = true;
    }
    if planted("page-finishes-one-call-late") && page.given == room && room > 0 {
        page.finished = false;
    }
    if planted("page-past-room") && !page.finished {
        set(list.add(room), page.place);
    }
    if planted("page-touches-rest") && page.given < room {
        lent[page.given] = 0;
    }
    if !planted("page-place-not-moved") {
        set(place, page.place);
    }
    set(finished, u8::from(page.finished));
    set(given, page.given as u32);
    0
}

/// Runs a call that writes a form, with the faults of writing.
unsafe fn write_form(
    out: *mut u8,
    room: usize,
    length: *mut usize,
    write: impl FnOnce(&mut [u8]) -> Result<usize, u32>,
) -> u32 {
    let lent = from_raw_parts_mut(out, room);
    match widths::write(lent, write) {
        Ok(mut count) => {
            if planted("writes-nothing") {
                lent[0] ^= 1;
            }
            if planted("trailing-empty-container") && count > 9 && count < room && lent[5] == 0 {
                lent[4] = lent[4].wrapping_add(1);
                count += 1;
            }
            if planted("writes-past-length") && count < room {
                lent[count] = 0;
            }
            if planted("writes-before-output") {
                *out.sub(1) ^= 1;
            }
            let many = count > 9 && lent[5] > 0;
            if planted("writes-far-behind") && many && count + 300 < room {
                lent[count + 300] ^= 1;
            }
            if planted("moved-short-in-large-room") && many && room >= 267_366 {
                lent[count - 1] ^= 1;
            }
            if planted("refused-in-large-room") && many && room == 267_366 {
                return 13;
            }
            set(length, count);
            0
        }
        Err(number) => {
            if planted("writes-before-room") && number == 13 && room > 0 {
                lent[0] ^= 1;
            }
            if planted("length-touched-on-refusal") {
                set(length, 0);
            }
            if planted("room-before-list") && number == 12 && room < 6 {
                return 13;
            }
            if planted("room-one-too-many") && number == 13 && room > 100 {
                set(length, room + 1);
                return 0;
            }
            refuse(number)
        }
    }
}

/// # Safety
/// As include/barcovento.h says.
#[no_mangle]
pub unsafe extern "C" fn bv_bitmap_write(
    positions: *const u32,
    count: usize,
    out: *mut u8,
    room: usize,
    length: *mut usize,
) -> u32 {
    let positions = from_raw_parts(positions, count);
    write_form(out, room, length, |out| bitmap::write(positions, out))
}

fn combine(operation: Operation, a: &[u8], b: &[u8], out: &mut [u8]) -> Result<usize, u32> {
    if planted("second-judged-first") {
        bitmap::check(b)?;
    }
    widths::judge(a)?;
    widths::judge(b)?;
    if planted("always-empty") {
        bitmap::check(a)?;
        bitmap::check(b)?;
        return bitmap::write(&[], out);
    }
    match operation {
        Operation::Difference if planted("difference-swapped") => {
            bitmap::combine(operation, b, a, out)
        }
        Operation::SymmetricDifference if planted("second-half-dropped") => {
            bitmap::combine(Operation::Difference, a, b, out)
        }
        _ => bitmap::combine(operation, a, b, out),
    }
}

macro_rules! combine {
    ($($name:ident $operation:ident),*) => {$(
        /// # Safety
        /// As include/barcovento.h says.
        #[no_mangle]
        pub unsafe extern "C" fn $name(
            a: *const u8,
            a_len: usize,
            b: *const u8,
            b_len: usize,
            out: *mut u8,
            room: usize,
            length: *mut usize,
        ) -> u32 {
            let (a, b) = (from_raw_parts(a, a_len), from_raw_parts(b, b_len));
            write_form(out, room, length, |out| combine(Operation::$operation, a, b, out))
        }
    )*};
}
combine!(
    bv_bitmap_union Union,
    bv_bitmap_intersection Intersection,
    bv_bitmap_difference Difference,
    bv_bitmap_symmetric_difference SymmetricDifference
);

/// # Safety
/// As include/barcovento.h says.
#[no_mangle]
pub unsafe extern "C" fn bv_schema_check(bytes: *const u8, len: usize, columns: *mut u32) -> u32 {
    match numbers::schema(from_raw_parts(bytes, len)) {
        Ok(read) => {
            set(columns, read.len() as u32);
            0
        }
        Err(number) => refuse(number),
    }
}

/// # Safety
/// As include/barcovento.h says.
#[no_mangle]
pub unsafe extern "C" fn bv_schema_column(
    bytes: *const u8,
    len: usize,
    column: u32,
    kind: *mut u8,
    nullable: *mut u8,
    size: *mut u32,
    scale: *mut u32,
) -> u32 {
    let read = numbers::schema(from_raw_parts(bytes, len));
    match read.and_then(|columns| columns.get(column as usize).copied().ok_or(25)) {
        Ok(column) => {
            set(kind, column.kind.id());
            set(nullable, u8::from(column.nullable != planted("nullable-inverted")));
            set(size, if planted("size-forgotten") { 0 } else { column.kind.size() });
            set(scale, if planted("scale-forgotten") { 0 } else { column.kind.scale() });
            0
        }
        Err(number) => refuse(number),
    }
}

/// # Safety
/// As include/barcovento.h says.
#[no_mangle]
pub unsafe extern "C" fn bv_block_check(
    schema: *const u8,
    schema_len: usize,
    block: *const u8,
    block_len: usize,
    rows: *mut u32,
) -> u32 {
    let schema = from_raw_parts(schema, schema_len);
    match numbers::block_check(schema, from_raw_parts(block, block_len)) {
        Ok(count) => {
            set(rows, count + u32::from(planted("rows-invented") && count > 3));
            0
        }
        Err(number) => refuse(number),
    }
}

/// The outputs for an answer, with the faults of fields.
fn field_outputs(answer: Answer) -> Field {
    let mut field = Field::from(answer);
    let place = matches!(answer, Answer::Place { .. });
    if planted("place-at-its-length") && place {
        field.start -= 1;
    }
    if planted("place-too-short") && place {
        field.length = field.length.saturating_sub(1);
    }
    if planted("whole-not-signed") && (-128..0).contains(&field.whole) {
        field.whole += 256;
    }
    if planted("nan-made-quiet") && matches!(answer, Answer::Float(_)) {
        field.bits = f32::from_bits(field.bits as u32).to_bits().into();
        if f32::from_bits(field.bits as u32).is_nan() {
            field.bits |= 1 << 22;
        }
    }
    if planted("nanoseconds-forgotten") {
        field.nanos = 0;
    }
    if planted("null-as-0") && field.kind == 0 {
        field.kind = 2;
    }
    if planted("unused-output-not-0") && field.kind == 1 {
        field.bits = 1;
    }
    field
}

unsafe fn answer_field(answer: Result<Answer, u32>, to: FieldPointers) -> u32 {
    if planted("refuses-everything") {
        return 25;
    }
    let field = match answer {
        Ok(answer) => field_outputs(answer),
        Err(_) if planted("accepts-everything") => field_outputs(Answer::Null),
        Err(number) => {
            if planted("kind-touched-on-refusal") {
                set(to.kind, 0);
            }
            if planted("length-touched-on-refusal") {
                set(to.length, 0);
            }
            return refuse(number);
        }
    };
    set(to.kind, field.kind);
    set(to.whole, field.whole);
    set(to.bits, field.bits);
    set(to.nanos, field.nanos);
    set(to.start, field.start);
    set(to.length, field.length);
    0
}

/// # Safety
/// As include/barcovento.h says.
#[no_mangle]
pub unsafe extern "C" fn bv_block_field(
    schema: *const u8,
    schema_len: usize,
    block: *const u8,
    block_len: usize,
    row: u32,
    column: u32,
    kind: *mut u8,
    whole: *mut i64,
    bits: *mut u64,
    nanos: *mut u32,
    start: *mut usize,
    length: *mut usize,
) -> u32 {
    let schema = from_raw_parts(schema, schema_len);
    let block = from_raw_parts(block, block_len);
    let to = FieldPointers { kind, whole, bits, nanos, start, length };
    answer_field(numbers::block_field(schema, block, row, column), to)
}

/// # Safety
/// As include/barcovento.h says.
#[no_mangle]
pub unsafe extern "C" fn bv_bucket_check(
    schema: *const u8,
    schema_len: usize,
    rows: u32,
    bucket: *const u8,
    bucket_len: usize,
) -> u32 {
    let schema = from_raw_parts(schema, schema_len);
    match numbers::bucket_check(schema, rows, from_raw_parts(bucket, bucket_len)) {
        Ok(()) => 0,
        Err(number) => refuse(number),
    }
}

/// # Safety
/// As include/barcovento.h says.
#[no_mangle]
pub unsafe extern "C" fn bv_bucket_field(
    schema: *const u8,
    schema_len: usize,
    rows: u32,
    bucket: *const u8,
    bucket_len: usize,
    row: u32,
    column: u32,
    kind: *mut u8,
    whole: *mut i64,
    bits: *mut u64,
    nanos: *mut u32,
    start: *mut usize,
    length: *mut usize,
) -> u32 {
    let schema = from_raw_parts(schema, schema_len);
    let bucket = from_raw_parts(bucket, bucket_len);
    let to = FieldPointers { kind, whole, bits, nanos, start, length };
    answer_field(numbers::bucket_field(schema, rows, bucket, row, column), to)
}
