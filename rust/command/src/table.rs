//! The verbs schema, block and bucket: columns and rows.

use crate::arguments::{whole, Arguments, Choice};
use crate::console::Console;
use crate::decimal::push_number;
use crate::fault::{quoted, Fault, Outcome};
use crate::{json, source, text};
use barcovento::{Block, Bucket, Field, Refusal, Schema};
use std::ffi::{OsStr, OsString};
use std::os::unix::ffi::OsStrExt;

pub fn schema(arguments: &Arguments, console: &mut Console) -> Outcome<()> {
    arguments.count(&["FILE"], false)?;
    let schema = read_schema(&arguments.operands[0])?;
    for (index, column) in schema.columns().iter().enumerate() {
        push_number(&mut console.buffer, index as u64);
        console.buffer.push(b'\t');
        text::push_shown(&mut console.buffer, column);
        console.buffer.push(b'\n');
    }
    console.step()
}

pub fn block(arguments: &Arguments, console: &mut Console) -> Outcome<()> {
    arguments.count(&["SCHEMA", "FILE"], false)?;
    let [layout, file] = &arguments.operands[..] else { unreachable!("two operands") };
    let (first, end) = range(arguments)?;
    let (schema, bytes) = read_both(arguments, layout, file)?;
    let block = Block::new(&schema, &bytes).map_err(|refusal| refused(file, &refusal))?;
    let rows = end.min(block.len()).saturating_sub(first);
    print(arguments, console, &schema, rows, block.rows_from(first))
}

pub fn bucket(arguments: &Arguments, console: &mut Console) -> Outcome<()> {
    arguments.count(&["SCHEMA", "ROWS", "FILE"], false)?;
    let [layout, _, file] = &arguments.operands[..] else { unreachable!("three operands") };
    let count = arguments.operand(1, "rows")?;
    let (first, end) = range(arguments)?;
    let (schema, bytes) = read_both(arguments, layout, file)?;
    let bucket = Bucket::new(&schema, count, &bytes).map_err(|refusal| refused(file, &refusal))?;
    let rows = end.min(bucket.len()).saturating_sub(first);
    print(arguments, console, &schema, rows, bucket.rows_from(first))
}

fn refused(file: &OsStr, refusal: &Refusal) -> Fault {
    Fault::refused(source::name(file), refusal)
}

fn read_schema(file: &OsStr) -> Outcome<Schema> {
    let bytes = source::read(file, source::SCHEMA)?;
    Schema::new(&bytes).map_err(|refusal| refused(file, &refusal))
}

/// The schema, and the bytes of the block or bucket.
fn read_both(
    arguments: &Arguments,
    layout: &OsString,
    file: &OsString,
) -> Outcome<(Schema, Vec<u8>)> {
    source::once(arguments, [layout.as_os_str(), file.as_os_str()].into_iter())?;
    Ok((read_schema(layout)?, source::read_table(file)?))
}

/// The rows that `--rows` asks for: the first one, and the one behind the last.
fn range(arguments: &Arguments) -> Outcome<(u32, u32)> {
    let Some(word) = arguments.value(Choice::Rows) else { return Ok((0, u32::MAX)) };
    let bytes = word.as_bytes();
    let parsed = bytes.windows(2).position(|two| two == b"..").and_then(|dots| {
        let first = end_of_range(&bytes[..dots], 0)?;
        Some((first, end_of_range(&bytes[dots + 2..], u32::MAX)?))
    });
    match parsed {
        Some((first, end)) if first <= end => Ok((first, end)),
        _ => arguments.wrong(format!("{} is no range of rows, as 10..20 is", quoted(word))),
    }
}

/// One end of a range: its number, cut off at the largest, or what stands for none.
fn end_of_range(digits: &[u8], none: u32) -> Option<u32> {
    match digits {
        [] => Some(none),
        digits => whole(digits).map(|number| u32::try_from(number).unwrap_or(u32::MAX)),
    }
}

/// Prints that many rows.
fn print<'a>(
    arguments: &Arguments,
    console: &mut Console,
    schema: &Schema,
    count: u32,
    rows: impl Iterator<Item = Vec<Field<'a>>>,
) -> Outcome<()> {
    let columns = schema.columns();
    let json = arguments.has(Choice::Json);
    if !json {
        text::push_header(&mut console.buffer, columns);
    }
    console.begin_printing("printed", count as usize);
    for (done, fields) in rows.take(count as usize).enumerate() {
        match json {
            true => json::push_row(&mut console.buffer, columns, &fields),
            false => text::push_row(&mut console.buffer, columns, &fields),
        }
        console.step()?;
        if done % 64 == 0 {
            console.done(done)?;
        }
    }
    console.end();
    Ok(())
}
