//! Files that are read, each up to a length of its kind.

use crate::arguments::Arguments;
use crate::fault::{shown, Fault, Outcome};
use barcovento::raw;
use std::ffi::OsStr;
use std::fs::File;
use std::io::{self, Read};

/// No accepted bitmap is longer than 300,000 bytes.
pub const BITMAP: usize = 1 << 20;
pub const STORE: usize = raw::STORE_DIRECTORY / 2 * BITMAP;
pub const SCHEMA: usize = 1 << 16;
/// The longest block or bucket; the library itself refuses a longer one.
pub const TABLE: usize = 1 << 24;

/// Whether the word stands for standard input or standard output.
pub fn is_standard(word: &OsStr) -> bool {
    word == "-"
}

/// The name of an input in a fault.
pub fn name(word: &OsStr) -> Vec<u8> {
    if is_standard(word) {
        b"standard input".to_vec()
    } else {
        shown(word)
    }
}

/// Wrong use if standard input is named more than once.
pub fn once<'a>(arguments: &Arguments, inputs: impl Iterator<Item = &'a OsStr>) -> Outcome<()> {
    if inputs.filter(|word| is_standard(word)).count() > 1 {
        return arguments.wrong("standard input ('-') can be read only once".to_string());
    }
    Ok(())
}

/// The file, or standard input, opened.
pub fn open(word: &OsStr) -> Outcome<Box<dyn Read>> {
    if is_standard(word) {
        return Ok(Box::new(io::stdin().lock()));
    }
    match File::open(word) {
        Ok(file) => Ok(Box::new(file)),
        Err(error) => Err(Fault::of_system(name(word), &error)),
    }
}

/// The input's bytes in place of what the buffer held, up to that many.
fn read_part(word: &OsStr, most: usize, buffer: &mut Vec<u8>) -> Outcome<()> {
    buffer.clear();
    let read = open(word)?.take(most as u64).read_to_end(buffer);
    read.map(|_| ()).map_err(|error| Fault::of_system(name(word), &error))
}

/// The input's bytes in place of what the buffer held; a fault if they are longer than that.
pub fn read_into(word: &OsStr, longest: usize, buffer: &mut Vec<u8>) -> Outcome<()> {
    read_part(word, longest + 1, buffer)?;
    if buffer.len() > longest {
        return Err(Fault::File(name(word), format!("longer than {longest} bytes")));
    }
    Ok(())
}

/// The input's bytes; a fault if they are longer than that.
pub fn read(word: &OsStr, longest: usize) -> Outcome<Vec<u8>> {
    let mut buffer = Vec::new();
    read_into(word, longest, &mut buffer)?;
    Ok(buffer)
}

/// The bytes of a block or bucket, no more than the library needs to refuse one that is too long.
pub fn read_table(word: &OsStr) -> Outcome<Vec<u8>> {
    let mut buffer = Vec::new();
    read_part(word, TABLE + 1, &mut buffer)?;
    Ok(buffer)
}
