//! Rows as JSON: one array for each, one to a line.

use crate::decimal::{push_decimal, push_large_decimal, push_number, push_signed};
use crate::text::{push_hex, push_shown};
use barcovento::{Column, Field, Type};

/// Adds the fields as an array, as a line.
pub fn push_row(out: &mut Vec<u8>, columns: &[Column], fields: &[Field]) {
    out.push(b'[');
    for (index, (column, field)) in columns.iter().zip(fields).enumerate() {
        if index > 0 {
            out.push(b',');
        }
        push_field(out, column, field);
    }
    out.extend_from_slice(b"]\n");
}

fn push_field(out: &mut Vec<u8>, column: &Column, field: &Field) {
    match field {
        Field::Null => out.extend_from_slice(b"null"),
        Field::YesNo(yes) => push_shown(out, yes),
        Field::Whole(number) if column.kind == Type::Decimal => {
            out.push(b'"');
            push_decimal(out, *number, column.scale);
            out.push(b'"');
        }
        Field::Whole(number) => push_signed(out, *number),
        Field::Float(value) if value.is_finite() => push_shown(out, value),
        Field::Float(value) => {
            push_shown(out, format_args!("{{\"bits\":\"{:#010x}\"}}", value.to_bits()))
        }
        Field::Double(value) if value.is_finite() => push_shown(out, value),
        Field::Double(value) => {
            push_shown(out, format_args!("{{\"bits\":\"{:#018x}\"}}", value.to_bits()))
        }
        Field::Time { count, nanos } => {
            out.extend_from_slice(b"{\"count\":");
            push_signed(out, *count);
            out.extend_from_slice(b",\"nanos\":");
            push_number(out, u64::from(*nanos));
            out.push(b'}');
        }
        Field::Bytes(bytes) => push_bytes(out, column, bytes),
    }
}

/// Adds text as a string, a DECIMAL as a string of its digits, and all else as hexadecimal digits.
fn push_bytes(out: &mut Vec<u8>, column: &Column, bytes: &[u8]) {
    if column.kind == Type::Decimal {
        out.push(b'"');
        push_large_decimal(out, bytes, column.scale);
        out.push(b'"');
        return;
    }
    match std::str::from_utf8(bytes) {
        Ok(text) if column.kind.is_text() => push_string(out, text),
        _ => {
            out.extend_from_slice(b"{\"hex\":\"");
            push_hex(out, bytes);
            out.extend_from_slice(b"\"}");
        }
    }
}

/// Adds a string, with control characters escaped.
fn push_string(out: &mut Vec<u8>, text: &str) {
    out.push(b'"');
    let mut start = 0;
    for (at, letter) in text.char_indices() {
        if letter != '"' && letter != '\\' && !letter.is_control() {
            continue;
        }
        out.extend_from_slice(&text.as_bytes()[start..at]);
        start = at + letter.len_utf8();
        match letter {
            '"' => out.extend_from_slice(b"\\\""),
            '\\' => out.extend_from_slice(b"\\\\"),
            '\t' => out.extend_from_slice(b"\\t"),
            '\n' => out.extend_from_slice(b"\\n"),
            '\r' => out.extend_from_slice(b"\\r"),
            _ => push_shown(out, format_args!("\\u{:04x}", u32::from(letter))),
        }
    }
    out.extend_from_slice(&text.as_bytes()[start..]);
    out.push(b'"');
}
