//! Pages that are refused wrongly, or that leave something behind when they are.

use super::super::planted;
use super::columns::{self, Asked};
use super::{fields, plans, Listed, Outputs};
use crate::reference::schema;

pub const BOTH: [&str; 7] = [
    "page-accepts-everything",
    "page-not-judged-without-room",
    "page-place-set-on-refusal",
    "page-given-set-on-refusal",
    "page-list-touched-on-refusal",
    "page-list-cleared-on-refusal",
    LATE,
];
pub const OF_BLOCKS: [&str; 2] = ["page-rows-set-on-refusal", ITS_ROWS];
pub const OF_BUCKETS: [&str; 7] = [
    "page-absent-column-gives-nothing",
    "page-absent-column-past-the-end-gives-nothing",
    "page-absent-column-without-rows-gives-nothing",
    "page-25-before-36",
    "page-25-before-37",
    "page-25-before-the-bucket",
    LEFT_OVER,
];
/// The list is written before all is judged.
const LATE: &str = "page-refused-late";
/// Rows behind the page are not judged.
const ITS_ROWS: &str = "page-rows-behind-it-not-judged";
const LEFT_OVER: &str = "page-takes-bytes-left-over";

/// Each refusal as another.
pub fn numbers() -> Vec<(&'static str, String)> {
    let rows = (20..=24).map(|number| ("rows", number));
    let buckets = [20, 25].into_iter().chain(30..=37).map(|number| ("buckets", number));
    rows.chain(buckets).map(|(group, number)| (group, format!("page-refusal-{number}"))).collect()
}

pub unsafe fn of_block(to: &Outputs, number: u32, schema: &[u8], block: &[u8]) -> u32 {
    if let (24, true) = (number, planted(LATE) || planted(ITS_ROWS)) {
        let Some(before) = rows_before(schema, block) else { return number };
        let end = *to.place as usize + to.room / before.numbers;
        if planted(ITS_ROWS) && end <= before.rows as usize {
            return plans::give(to, &before);
        }
        if planted(LATE) {
            write_list(to, &before);
        }
    }
    refuse(to, number)
}

pub unsafe fn of_bucket(to: &Outputs, number: u32, asked: &Asked) -> u32 {
    let columns = schema::check(asked.schema).unwrap_or(64);
    let absent = asked.column >= columns;
    let nothing = planted("page-absent-column-gives-nothing")
        || planted("page-absent-column-past-the-end-gives-nothing") && asked.place >= asked.rows
        || planted("page-absent-column-without-rows-gives-nothing") && asked.rows == 0;
    if number == 25 && nothing {
        to.given.write(0);
        return 0;
    }
    let first = planted("page-25-before-36") && number == 36
        || planted("page-25-before-37") && number == 37
        || planted("page-25-before-the-bucket") && number >= 30;
    if absent && first {
        return 25;
    }
    if let (36, Some(before)) = (number, column_before(asked)) {
        if planted(LEFT_OVER) {
            return plans::give(to, &before);
        }
        if planted(LATE) {
            write_list(to, &before);
        }
    }
    refuse(to, number)
}

unsafe fn refuse(to: &Outputs, number: u32) -> u32 {
    let unjudged = planted("page-not-judged-without-room") && to.room == 0;
    if planted("page-accepts-everything") || unjudged {
        to.set(*to.place, 0, 0);
        return 0;
    }
    if planted("page-place-set-on-refusal") {
        to.place.write(0);
    }
    if planted("page-given-set-on-refusal") {
        to.given.write(0);
    }
    if let (Some(rows), true) = (to.rows, planted("page-rows-set-on-refusal")) {
        rows.write(0);
    }
    if planted("page-list-touched-on-refusal") && to.room > 0 {
        to.list()[0] ^= 1;
    }
    if planted("page-list-cleared-on-refusal") {
        to.list().fill(0);
    }
    if planted(&format!("page-refusal-{number}")) {
        return number - 1;
    }
    number
}

/// The rows that are sound, up to the first bad one, if there are such.
fn rows_before(schema: &[u8], block: &[u8]) -> Option<Listed> {
    let (bytes, count) = block.split_last_chunk()?;
    let count = u32::from_le_bytes(*count) as usize;
    let (rows, offsets) = bytes.split_at(bytes.len() - 4 * count);
    let first = |k: usize| {
        let end = u32::from_le_bytes(*offsets[4 * k..].first_chunk()?) as usize;
        let sound = [rows.get(..end)?, &offsets[..4 * k], &(k as u32).to_le_bytes()].concat();
        fields::of_block(schema, &sound).ok()
    };
    (1..count).map_while(first).last()
}

/// The column of the bucket without the bytes that are left over.
fn column_before(asked: &Asked) -> Option<Listed> {
    let length = asked.bucket.len();
    let shorter = (1..=length.min(8)).map(|more| &asked.bucket[..length - more]);
    let mut listed = shorter.map(|bucket| columns::listed(&Asked { bucket, ..*asked }));
    listed.find_map(Result::ok)
}

/// Writes the list alone.
unsafe fn write_list(to: &Outputs, listed: &Listed) {
    let (mut place, mut given) = (*to.place, 0);
    let other = Outputs { place: &mut place, given: &mut given, rows: None, ..*to };
    plans::give(&other, listed);
}
