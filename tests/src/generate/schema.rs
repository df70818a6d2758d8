//! Schemas and values, sound and damaged, for row blocks and buckets.

use super::numbers::{bad_varint, damage_number, push_any_form, Numbers};
use super::{damage_bytes, Random};
use crate::reference::schema::{Column, Type};

fn declared_length(random: &mut Random) -> u32 {
    match random.below(4) {
        0 => random.pick(&[0, 127, 128, 16_384, 1 << 28, u32::MAX]),
        1 => random.word() as u32,
        _ => random.below(300) as u32,
    }
}

fn any_type(random: &mut Random) -> Type {
    let length = declared_length(random);
    let precision = random.below(10) as u32;
    match random.below(17) {
        0 => Type::Boolean,
        1 => Type::TinyInt,
        2 => Type::SmallInt,
        3 => Type::Integer,
        4 => Type::BigInt,
        5 => Type::Float,
        6 => Type::Double,
        7 => Type::Date,
        8 => Type::Char { length },
        9 => Type::VarChar { length },
        10 => Type::String,
        11 => Type::Binary { length },
        12 => Type::VarBinary { length },
        13 => Type::Bytes,
        14 => {
            let precision = random.pick(&[1, 9, 17, 18, 19, 20, 37, 38]);
            let scale = random.between(0, precision as usize) as u32;
            Type::Decimal { precision, scale }
        }
        15 => Type::Time { precision },
        _ => Type::Timestamp { precision },
    }
}

/// Each way of storing a value, in a column that may be null or not.
pub fn every_type(nullable: bool) -> Vec<Column> {
    let length = 20;
    let types = [
        Type::Boolean,
        Type::TinyInt,
        Type::SmallInt,
        Type::Integer,
        Type::BigInt,
        Type::Float,
        Type::Double,
        Type::Date,
        Type::Char { length },
        Type::VarChar { length },
        Type::String,
        Type::Binary { length },
        Type::VarBinary { length },
        Type::Bytes,
        Type::Decimal { precision: 18, scale: 2 },
        Type::Decimal { precision: 38, scale: 2 },
        Type::Time { precision: 3 },
        Type::Timestamp { precision: 3 },
        Type::Timestamp { precision: 9 },
    ];
    types.map(|kind| Column { kind, nullable }).to_vec()
}

/// Mostly few columns, at times around a byte of bits, or the most.
pub fn columns(random: &mut Random) -> Vec<Column> {
    let count = match random.below(40) {
        0 => 64,
        1 => random.between(9, 63),
        2..=5 => random.between(7, 9),
        _ => random.between(1, 5),
    };
    (0..count).map(|_| Column { kind: any_type(random), nullable: random.once_in(2) }).collect()
}

/// The schema, every number shortest.
pub fn schema_bytes(columns: &[Column]) -> Vec<u8> {
    lay_schema(columns, &mut Numbers::shortest())
}

pub fn lay_schema(columns: &[Column], numbers: &mut Numbers) -> Vec<u8> {
    let mut out = Vec::new();
    numbers.push(columns.len() as u32, &mut out);
    for column in columns {
        push_column(column, numbers, &mut out);
    }
    out
}

fn push_column(column: &Column, numbers: &mut Numbers, out: &mut Vec<u8>) {
    out.extend([column.kind.id(), u8::from(column.nullable)]);
    if matches!(column.kind.id(), 8 | 9 | 11 | 12 | 14 | 15 | 16) {
        numbers.push(column.kind.size(), out);
    }
    if let Type::Decimal { scale, .. } = column.kind {
        numbers.push(scale, out);
    }
}

fn column_bytes(column: &Column, numbers: &mut Numbers) -> Vec<u8> {
    let mut out = Vec::new();
    push_column(column, numbers, &mut out);
    out
}

pub fn damaged_schema(random: &mut Random, columns: &[Column]) -> Vec<u8> {
    let mut numbers = Numbers::any(random);
    if random.once_in(3) {
        return damaged_as_a_whole(random, columns, &mut numbers);
    }
    let mut parts: Vec<Vec<u8>> =
        columns.iter().map(|column| column_bytes(column, &mut numbers)).collect();
    let mut count = Vec::new();
    numbers.push(columns.len() as u32, &mut count);
    let at = random.below(parts.len());
    match random.below(9) {
        0 => count = bad_varint(random, columns.len() as u32),
        1 => {
            count.clear();
            numbers.push(random.pick(&[0, 65, 128, u32::MAX]), &mut count);
        }
        2 => return random.pick(&[&[0][..], &[], &[0x80, 0]]).to_vec(),
        3 => {
            parts = vec![parts[at].clone(); 65];
            count.clear();
            numbers.push(65, &mut count);
        }
        4 => parts[at][0] = random.pick(&[17, 18, 19, 128, 255]),
        5 => parts[at][1] = random.pick(&[2, 3, 128, 255]),
        6 => parts[at] = bad_parameters(random),
        7 => parts.push(random.bytes(1)),
        _ => {
            parts[at].pop();
        }
    }
    count.extend(parts.concat());
    count
}

fn damaged_as_a_whole(random: &mut Random, columns: &[Column], numbers: &mut Numbers) -> Vec<u8> {
    let mut out = lay_schema(columns, numbers);
    if random.once_in(3) {
        damage_bytes(random, &mut out);
    } else {
        damage_number(random, &mut out, &numbers.spots);
    }
    out
}

/// A column whose parameters are out of bounds or ill-formed.
fn bad_parameters(random: &mut Random) -> Vec<u8> {
    let id = random.pick(&[8, 9, 11, 12, 14, 15, 16]);
    let mut out = vec![id, 1];
    match id {
        14 => match random.below(3) {
            0 => {
                let bad = [[0, 0], [39, 0], [39, 39], [5, 6], [18, 19], [38, 39]];
                for number in random.pick(&bad) {
                    push_any_form(random, number, &mut out);
                }
            }
            1 => {
                push_any_form(random, 5, &mut out);
                out.extend(bad_varint(random, 5));
            }
            _ => {
                out.extend(bad_varint(random, 20));
                push_any_form(random, 0, &mut out);
            }
        },
        15 | 16 if random.once_in(2) => {
            let precision = random.pick(&[10, 11, 127]);
            push_any_form(random, precision, &mut out);
        }
        _ => out.extend(bad_varint(random, 3)),
    }
    out
}

/// A value of a field, before it is laid out.
#[derive(Clone)]
pub enum Value {
    /// Boolean, integers and floats, by their stored bits.
    Bits(u64),
    Time {
        count: u64,
        nanos: u32,
    },
    Counted(Vec<u8>),
    /// Bytes as they are, for damage.
    Raw(Vec<u8>),
}

/// A sound value: boundaries, NaN and infinity patterns, empty and long texts.
pub fn value(random: &mut Random, kind: Type) -> Value {
    match kind {
        Type::Boolean => Value::Bits(random.below(2) as u64),
        Type::Float => Value::Bits(float_bits(random, 23, 32)),
        Type::Double => Value::Bits(float_bits(random, 52, 64)),
        Type::Timestamp { .. } => {
            Value::Time { count: whole_bits(random), nanos: nanoseconds(random) }
        }
        Type::Decimal { precision: 19.., .. } => {
            let length = random.pick(&[1, 1, 8, 9, 16, 17, 130]);
            Value::Counted(random.bytes(length))
        }
        Type::Char { .. }
        | Type::VarChar { .. }
        | Type::String
        | Type::Binary { .. }
        | Type::VarBinary { .. }
        | Type::Bytes => {
            let length = text_length(random);
            Value::Counted(random.bytes(length))
        }
        _ => Value::Bits(whole_bits(random)),
    }
}

fn text_length(random: &mut Random) -> usize {
    match random.below(200) {
        0 => random.pick(&[127, 128, 300]),
        1 if random.once_in(20) => random.pick(&[16_383, 16_384]),
        2..=60 => 0,
        _ => random.below(12),
    }
}

fn whole_bits(random: &mut Random) -> u64 {
    match random.below(6) {
        0 => random.pick(&[0, 1, u64::MAX]),
        1 => 1 << random.pick(&[7, 15, 31, 63]),
        2 => (1 << random.pick(&[7, 15, 31, 63])) - 1,
        _ => random.word(),
    }
}

/// Stored bits of a float of `bits` bits, `fraction` of them the fraction.
fn float_bits(random: &mut Random, fraction: u32, bits: u32) -> u64 {
    let sign = (random.word() & 1) << (bits - 1);
    let exponent = ((1 << (bits - 1 - fraction)) - 1) << fraction;
    let low = random.word() & ((1 << fraction) - 1);
    let quiet = 1 << (fraction - 1);
    sign | match random.below(8) {
        0 => 0,
        1 => exponent,
        2 => exponent | quiet,
        3 => exponent | 1,
        4 => exponent | low,
        5 => low,
        _ => random.word() & (exponent | low),
    }
}

fn nanoseconds(random: &mut Random) -> u32 {
    match random.below(3) {
        0 => random.pick(&[0, 1, 127, 128, 16_383, 16_384, 999_999]),
        _ => random.below(1_000_000) as u32,
    }
}

/// A byte that is no BOOLEAN.
pub fn bad_boolean(random: &mut Random) -> u8 {
    random.pick(&[2, 3, 128, 255])
}

/// Nanoseconds that are too many.
pub fn bad_nanoseconds(random: &mut Random) -> u32 {
    random.pick(&[1_000_000, 1_000_001, 1 << 31, u32::MAX])
}

/// The number of bytes of a value that is stored as bits.
pub fn bits_width(kind: Type) -> usize {
    match kind {
        Type::Boolean | Type::TinyInt => 1,
        Type::SmallInt => 2,
        Type::Integer | Type::Float | Type::Date | Type::Time { .. } => 4,
        _ => 8,
    }
}

/// Text or bytes whose length is ill-formed or too large; a large DECIMAL without bytes.
pub fn bad_counted(random: &mut Random, kind: Type) -> Vec<u8> {
    let mut out = Vec::new();
    if matches!(kind, Type::Decimal { .. }) && random.once_in(2) {
        push_any_form(random, 0, &mut out);
        return out;
    }
    if random.once_in(3) {
        let length = random.pick(&[200, 20_000, 16_777_216, u32::MAX]);
        push_any_form(random, length, &mut out);
    } else {
        out = bad_varint(random, 3);
    }
    out.extend(random.bytes(3));
    out
}
