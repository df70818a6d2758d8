//! The verbs list, ask and write: one bitmap.

use crate::arguments::{whole, Arguments, Choice};
use crate::console::Console;
use crate::decimal::push_number;
use crate::fault::{quoted, Fault, Outcome};
use crate::{source, target};
use barcovento::bitmap::{self, Listing, LONGEST_FORM, POSITIONS};
use barcovento::Refusal;
use std::ffi::OsStr;
use std::io::{BufRead, BufReader, Read};
use std::os::unix::ffi::OsStrExt;

/// How many members are listed at once.
const PAGE: usize = 65_536;

/// No line with a position is longer than this.
const LINE: usize = 4_096;

pub fn list(arguments: &Arguments, console: &mut Console) -> Outcome<()> {
    arguments.count(&["FILE"], false)?;
    let file = &arguments.operands[0];
    let bytes = source::read(file, source::BITMAP)?;
    let refused = |refusal| Fault::refused(source::name(file), &refusal);
    let all = bitmap::check(&bytes).map_err(refused)?;
    console.begin_printing("listed", all as usize);
    let (mut listing, mut done) = (Listing::default(), 0);
    let mut page = vec![0; PAGE];
    while !listing.finished {
        let given = bitmap::page(&bytes, &mut listing, &mut page).map_err(refused)?;
        for member in &page[..given] {
            push_number(&mut console.buffer, (*member).into());
            console.buffer.push(b'\n');
            console.step()?;
        }
        done += given;
        console.done(done)?;
    }
    console.end();
    Ok(())
}

pub fn ask(arguments: &Arguments, console: &mut Console) -> Outcome<()> {
    arguments.count(&["FILE", "POSITION"], true)?;
    let file = &arguments.operands[0];
    let words = &arguments.operands[1..];
    let positions: Vec<u32> =
        words.iter().map(|word| position(arguments, word)).collect::<Outcome<_>>()?;
    let bytes = source::read(file, source::BITMAP)?;
    let refused = |refusal| Fault::refused(source::name(file), &refusal);
    for position in positions {
        let member = bitmap::probe(&bytes, position).map_err(refused)?;
        let below = bitmap::rank(&bytes, position).map_err(refused)?;
        push_number(&mut console.buffer, position.into());
        console.buffer.extend_from_slice(if member { b"\tyes\t" } else { b"\tno\t" });
        push_number(&mut console.buffer, below.into());
        console.buffer.push(b'\n');
        console.step()?;
    }
    Ok(())
}

/// The 32-bit number that the word is.
fn position(arguments: &Arguments, word: &OsStr) -> Outcome<u32> {
    match whole(word.as_bytes()).map(u32::try_from) {
        Some(Ok(position)) => Ok(position),
        _ => arguments.wrong(format!("{} is no number from 0 to {}", quoted(word), u32::MAX)),
    }
}

pub fn write(arguments: &Arguments, console: &mut Console) -> Outcome<()> {
    arguments.count(&["OUT"], false)?;
    let out = &arguments.operands[0];
    let room = form_room(arguments)?;
    let input = arguments.value(Choice::Input).unwrap_or(OsStr::new("-"));
    let gathered = gather(input, arguments.has(Choice::Sort))?;
    let mut form = vec![0; room];
    let refused = |refusal: Refusal| match gathered.wrong_line {
        Some(line) => Fault::Refused(source::name(input), format!("line {line}: {refusal}")),
        None => Fault::refused(target::name(out), &refusal),
    };
    let length = bitmap::write(&gathered.positions, &mut form).map_err(refused)?;
    target::write(console, out, &form[..length])
}

/// The room for a form: what `--room` says, and never more than the longest form needs.
pub fn form_room(arguments: &Arguments) -> Outcome<usize> {
    let room = arguments.number(Choice::Room, "bytes of room")?;
    Ok(room.unwrap_or(LONGEST_FORM).min(LONGEST_FORM))
}

/// Positions as they were read, up to the first one that the library will refuse, and its line.
struct Gathered {
    positions: Vec<u32>,
    wrong_line: Option<usize>,
}

/// The positions of an input, sorted if that is asked for.
fn gather(input: &OsStr, sort: bool) -> Outcome<Gathered> {
    let reader = BufReader::with_capacity(1 << 16, source::open(input)?);
    let mut lines = Lines { input, reader, line: 0 };
    let mut gathered = Gathered { positions: Vec::new(), wrong_line: None };
    let mut members = vec![false; if sort { POSITIONS as usize } else { 0 }];
    while let Some(position) = lines.next_position()? {
        let last = gathered.positions.last();
        if position >= POSITIONS || !sort && last.is_some_and(|last| *last >= position) {
            gathered.positions.push(position);
            gathered.wrong_line = Some(lines.line);
            return Ok(gathered);
        }
        match members.get_mut(position as usize) {
            Some(member) => *member = true,
            None => gathered.positions.push(position),
        }
    }
    let chosen = (0..).zip(&members).filter(|(_, member)| **member);
    gathered.positions.extend(chosen.map(|(position, _): (u32, _)| position));
    Ok(gathered)
}

/// The lines of an input.
struct Lines<'a> {
    input: &'a OsStr,
    reader: BufReader<Box<dyn Read>>,
    line: usize,
}

impl Lines<'_> {
    /// The position in the next line that is not blank; one that is too large is cut off at 32 bits.
    fn next_position(&mut self) -> Outcome<Option<u32>> {
        let mut text = Vec::new();
        loop {
            text.clear();
            let mut part = (&mut self.reader).take(LINE as u64 + 1);
            if let Err(error) = part.read_until(b'\n', &mut text) {
                return Err(Fault::of_system(source::name(self.input), &error));
            }
            if text.is_empty() {
                return Ok(None);
            }
            self.line += 1;
            let word = text.trim_ascii();
            match whole(word) {
                _ if text.len() > LINE => return self.wrong(format!("over {LINE} bytes")),
                Some(position) => return Ok(Some(u32::try_from(position).unwrap_or(u32::MAX))),
                None if word.is_empty() => {}
                None => {
                    let word = quoted(OsStr::from_bytes(word));
                    return self.wrong(format!("{word} is no position"));
                }
            }
        }
    }

    fn wrong<T>(&self, words: String) -> Outcome<T> {
        Err(Fault::File(source::name(self.input), format!("line {}: {words}", self.line)))
    }
}
