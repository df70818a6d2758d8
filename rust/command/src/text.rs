//! Rows as tab-separated text.

use crate::decimal::{push_decimal, push_large_decimal, push_number, push_signed};
use barcovento::{Column, Field, Type};
use std::io::Write;

const DIGITS: &[u8; 16] = b"0123456789abcdef";

/// Adds the column types, tab-separated, as a line.
pub fn push_header(out: &mut Vec<u8>, columns: &[Column]) {
    for (index, column) in columns.iter().enumerate() {
        push_tab(out, index);
        push_shown(out, column);
    }
    out.push(b'\n');
}

/// Adds the fields, tab-separated, as a line.
pub fn push_row(out: &mut Vec<u8>, columns: &[Column], fields: &[Field]) {
    for (index, (column, field)) in columns.iter().zip(fields).enumerate() {
        push_tab(out, index);
        push_field(out, column, field);
    }
    out.push(b'\n');
}

fn push_tab(out: &mut Vec<u8>, index: usize) {
    if index > 0 {
        out.push(b'\t');
    }
}

/// Adds what the value's own display shows.
pub fn push_shown(out: &mut Vec<u8>, value: impl std::fmt::Display) {
    // Writing to a vector never fails.
    let _ = write!(out, "{value}");
}

fn push_field(out: &mut Vec<u8>, column: &Column, field: &Field) {
    match field {
        Field::Null => out.extend_from_slice(b"null"),
        Field::YesNo(yes) => push_shown(out, yes),
        Field::Whole(number) if column.kind == Type::Decimal => {
            push_decimal(out, *number, column.scale)
        }
        Field::Whole(number) => push_signed(out, *number),
        Field::Float(value) if value.is_nan() => {
            push_shown(out, format_args!("NaN({:#010x})", value.to_bits()))
        }
        Field::Float(value) => push_shown(out, value),
        Field::Double(value) if value.is_nan() => {
            push_shown(out, format_args!("NaN({:#018x})", value.to_bits()))
        }
        Field::Double(value) => push_shown(out, value),
        Field::Time { count, nanos } => {
            push_signed(out, *count);
            out.push(b'+');
            push_number(out, u64::from(*nanos));
            out.extend_from_slice(b"ns");
        }
        Field::Bytes(bytes) if column.kind.is_text() => push_text(out, bytes),
        Field::Bytes(bytes) if column.kind == Type::Decimal => {
            push_large_decimal(out, bytes, column.scale)
        }
        Field::Bytes(bytes) => {
            out.extend_from_slice(b"0x");
            push_hex(out, bytes);
        }
    }
}

/// Adds bytes as hexadecimal digits.
pub fn push_hex(out: &mut Vec<u8>, bytes: &[u8]) {
    for byte in bytes {
        out.push(DIGITS[usize::from(byte >> 4)]);
        out.push(DIGITS[usize::from(byte & 15)]);
    }
}

/// Adds text: backslash, tab, newline and carriage return as `\\`, `\t`, `\n` and `\r`; bytes of other
/// control characters, and bytes that are not UTF-8, as `\xNN`. The text `null` becomes `\x6eull`, so that
/// it is not taken for no value.
pub fn push_text(out: &mut Vec<u8>, bytes: &[u8]) {
    if bytes == b"null" {
        return out.extend_from_slice(b"\\x6eull");
    }
    for chunk in bytes.utf8_chunks() {
        push_valid(out, chunk.valid());
        push_escaped(out, chunk.invalid());
    }
}

/// Adds text that is UTF-8: parts without anything to escape go in whole.
fn push_valid(out: &mut Vec<u8>, text: &str) {
    let mut start = 0;
    for (at, letter) in text.char_indices() {
        if letter != '\\' && !letter.is_control() {
            continue;
        }
        out.extend_from_slice(&text.as_bytes()[start..at]);
        start = at + letter.len_utf8();
        match letter {
            '\\' => out.extend_from_slice(b"\\\\"),
            '\t' => out.extend_from_slice(b"\\t"),
            '\n' => out.extend_from_slice(b"\\n"),
            '\r' => out.extend_from_slice(b"\\r"),
            _ => push_escaped(out, &text.as_bytes()[at..start]),
        }
    }
    out.extend_from_slice(&text.as_bytes()[start..]);
}

fn push_escaped(out: &mut Vec<u8>, bytes: &[u8]) {
    for byte in bytes {
        out.extend_from_slice(b"\\x");
        push_hex(out, &[*byte]);
    }
}
