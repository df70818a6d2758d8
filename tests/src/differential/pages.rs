//! Pages of a block, and of one column of a bucket.

use super::{same, Tally};
use crate::ffi::huge::{HugeList, HUGE};
use crate::ffi::{Called, Page};
use crate::generate::Random;
use crate::reference::Answer;

/// What is listed by pages, by both programs.
pub trait Listing {
    /// The number of rows; any number for what is refused.
    fn rows(&self) -> u32;
    /// How many fields of a row a page gives, at least one.
    fn fields(&self) -> usize;
    fn library(&self, place: u32, room: usize, random: &mut Random) -> Called<Page>;
    /// The library's first page into a list too large to be copied.
    fn library_in_place(&self, list: &mut [u64]) -> Result<Page, u32>;
    /// The second program's page into the list: how many rows it gives.
    fn reference(&self, place: u32, list: &mut [u64]) -> Result<u32, u32>;
    /// The second program's answer for one field of a row.
    fn field(&self, row: u32, field: usize) -> Result<Answer, u32>;
    fn text(&self) -> String;
}

/// The first row, one of the rows, the last, just past it, and numbers far from them.
fn any_place(random: &mut Random, rows: u32) -> u32 {
    let row = random.below(rows.max(1) as usize) as u32;
    match random.below(16) {
        0 => rows,
        1 => rows.saturating_add(random.between(1, 3) as u32),
        2 => far_place(random, row),
        3 | 4 => rows.saturating_sub(1),
        5..=8 => 0,
        _ => row,
    }
}

/// Mostly no row; also the row with one higher bit.
fn far_place(random: &mut Random, row: u32) -> u32 {
    match random.below(3) {
        0 => random.pick(&[65_535, 65_536, 65_537, 1 << 31, u32::MAX]),
        1 => random.word() as u32,
        _ => row | 1 << random.between(8, 31),
    }
}

/// Rooms around one row, around so many rows, and others.
fn any_room(random: &mut Random, rows: usize, row: usize) -> usize {
    let all = rows * row;
    match random.below(14) {
        0 => 0,
        1 => random.between(1, 2),
        2 => row - 1,
        3 => row,
        4 => row + random.between(1, row),
        5 => all.saturating_sub(1),
        6 => all + random.between(1, 2 * row),
        7 | 8 => random.below(rows + 1) * row + random.below(3),
        9 | 10 => random.below(all + 1),
        _ => all,
    }
}

/// Compares a page from any place into any room.
pub fn compare_any(
    listing: &dyn Listing,
    random: &mut Random,
    tally: &mut Tally,
) -> Result<(), String> {
    let rows = listing.rows();
    let place = any_place(random, rows);
    let left = rows.saturating_sub(place);
    let fitting = match listing.reference(place, &mut []) {
        Err(_) => 3,
        Ok(_) if left > 0 && random.once_in(2) => left,
        Ok(_) => rows,
    };
    let room = any_room(random, fitting as usize, 3 * listing.fields());
    let page = compare_page(listing, place, room, random)?;
    tally.count_call(1, &page);
    if let Ok(page) = page {
        tally.count_call(2, &Err::<(), u32>(ending(&page, place, room)));
    }
    Ok(())
}

/// How a page ended: no row at its place, no room for one, no room for the rest; the last row in the
/// list's last numbers, or before them.
fn ending(page: &Page, place: u32, room: usize) -> u32 {
    match page.given {
        0 if place >= page.rows => 0,
        0 => 1,
        _ if page.place < page.rows => 2,
        _ if page.list.len() == room => 3,
        _ => 4,
    }
}

/// Compares one page, and returns the one that both programs gave.
fn compare_page(
    listing: &dyn Listing,
    place: u32,
    room: usize,
    random: &mut Random,
) -> Result<Result<Page, u32>, String> {
    let mut list = vec![0; room];
    let expected = listing.reference(place, &mut list).map(|given| {
        list.truncate(3 * listing.fields() * given as usize);
        Page { place: place + given, given, rows: listing.rows(), list }
    });
    let question = || format!("page from {place}, room {room}{}", listing.text());
    same(question, listing.library(place, room, random), expected.clone())?;
    Ok(expected)
}

/// The rows of which every field is asked for; of more rows some fields are.
const FEW_ROWS: u32 = 150;

/// Compares one page of all rows, and pages one after the other, from the first row until none is left:
/// they have the fields that the second program answers one by one. The listing is of a sound input.
pub fn compare_whole(listing: &dyn Listing, random: &mut Random) -> Result<(), String> {
    let refused = |refusal| format!("refused {refusal}{}", listing.text());
    let (rows, row) = (listing.rows(), 3 * listing.fields());
    let whole = compare_page(listing, 0, rows as usize * row, random)?.map_err(refused)?.list;
    let most = rows as usize / random.between(1, 6) + 1;
    let (mut place, mut all) = (0, Vec::new());
    while place < rows {
        let room = random.between(1, most) * row + random.below(row);
        let page = compare_page(listing, place, room, random)?.map_err(refused)?;
        place = page.place;
        all.extend(page.list);
    }
    same(|| format!("all pages{}", listing.text()), Ok(&all), &whole)?;
    let fields = all.len() / 3;
    if rows <= FEW_ROWS {
        return (0..fields).try_for_each(|number| compare_field(listing, number, &all));
    }
    (0..16).try_for_each(|_| compare_field(listing, random.below(fields), &all))
}

/// Compares a field of a whole listing with the answer for it alone.
fn compare_field(listing: &dyn Listing, number: usize, all: &[u64]) -> Result<(), String> {
    let (row, field) = (number / listing.fields(), number % listing.fields());
    let question = || format!("row {row}, field {field} of all pages{}", listing.text());
    let expected = listing.field(row as u32, field).map(Answer::numbers);
    let listed = all[3 * number..].first_chunk().copied().ok_or(0);
    same(question, Ok(listed), expected)
}

/// Compares the first page into a list of that room; without so much address room there is nothing to
/// compare. Some numbers behind the page are looked at.
pub fn compare_huge(listing: &dyn Listing) -> Result<(), String> {
    let Some(mut list) = HugeList::new(HUGE) else { return Ok(()) };
    let rows = listing.rows();
    let numbers = 3 * listing.fields() * rows as usize;
    let mut expected = vec![0; numbers + 1000];
    let given = listing.reference(0, &mut expected);
    let page = given.map(|given| Page { place: given, given, rows, list: Vec::new() });
    let answer = listing.library_in_place(list.numbers());
    let written = list.numbers()[..expected.len()].to_vec();
    let question = || format!("page into a list of {HUGE} numbers{}", listing.text());
    same(question, Ok((answer, written)), (page, expected))
}
