//! Pages that begin, end or count wrongly.

use super::super::planted;
use super::{fields, Listed, Outputs};

/// What a page is asked for.
#[derive(Clone, Copy)]
pub struct Asked {
    place: u32,
    room: usize,
    rows: u32,
    /// The numbers that a row takes.
    numbers: usize,
}

/// What a page does.
pub struct Plan {
    refusal: u32,
    /// The row that it begins with.
    from: u32,
    /// How many numbers it writes.
    written: usize,
    /// Whether it clears the next number of the list, or all.
    clears: Clears,
    place: u32,
    /// Nothing where it is not set.
    given: Option<u32>,
    rows: Option<u32>,
}

#[derive(PartialEq)]
enum Clears {
    Nothing,
    Next,
    Rest,
}

impl Asked {
    fn left(self) -> usize {
        self.rows.saturating_sub(self.place) as usize
    }

    /// The right page.
    fn right(self) -> Plan {
        self.from(self.place)
    }

    /// The page that begins with another row.
    fn from(self, from: u32) -> Plan {
        let left = self.rows.saturating_sub(from) as usize;
        Asked { place: from, ..self }.giving(left.min(self.room / self.numbers), self.place)
    }

    /// The page that gives so many rows.
    fn giving(self, given: usize, place: u32) -> Plan {
        Plan {
            refusal: 0,
            from: self.place,
            written: given * self.numbers,
            clears: Clears::Nothing,
            place: place.wrapping_add(given as u32),
            given: Some(given as u32),
            rows: Some(self.rows),
        }
    }

    /// The page that gives as many rows as the right one, or the most.
    fn at_most(self, most: usize) -> Plan {
        let right = self.right().written / self.numbers;
        self.giving(right.min(most), self.place)
    }

    /// The page, where it gives a row, that gives one less.
    fn one_less_if(self, less: bool) -> Plan {
        let right = self.right().written / self.numbers;
        self.at_most(right - usize::from(less && right > 0))
    }
}

type Fault = fn(Asked) -> Plan;

pub const BOTH: &[(&str, Fault)] = &[
    ("page-place-ignored", |asked| asked.from(0)),
    ("page-place-in-16-bits", |asked| asked.from(asked.place & 0xFFFF)),
    ("page-place-signed", |asked| asked.from((asked.place as i32).max(0) as u32)),
    ("page-last-place-wraps", |asked| asked.from(asked.place % u32::MAX)),
    ("page-place-set-to-given", |asked| {
        let right = asked.right();
        Plan { place: right.given.unwrap_or(0), ..right }
    }),
    ("page-place-not-moved", |asked| Plan { place: asked.place, ..asked.right() }),
    ("page-place-past-the-end-pulled-back", |asked| {
        let right = asked.right();
        Plan { place: right.place.min(asked.rows), ..right }
    }),
    ("page-place-at-the-end-back-to-0", |asked| {
        let right = asked.right();
        Plan { place: if right.place >= asked.rows { 0 } else { right.place }, ..right }
    }),
    ("page-place-past-the-end-to-0", |asked| {
        let right = asked.right();
        Plan { place: if asked.place > asked.rows { 0 } else { right.place }, ..right }
    }),
    ("page-past-the-end-refused", |asked| Plan {
        refusal: if asked.place > asked.rows { 25 } else { 0 },
        ..asked.right()
    }),
    ("page-at-the-end-refused", |asked| Plan {
        refusal: if asked.place == asked.rows { 25 } else { 0 },
        ..asked.right()
    }),
    ("page-without-room-refused", |asked| Plan {
        refusal: if asked.room < asked.numbers { 13 } else { 0 },
        ..asked.right()
    }),
    ("page-half-a-row-written", |asked| {
        let written = asked.room.min(asked.left() * asked.numbers);
        Plan { written, ..asked.right() }
    }),
    ("page-half-a-row-given", |asked| {
        let rows = asked.room.div_ceil(asked.numbers);
        let written = asked.room.min(asked.left() * asked.numbers);
        Plan { written, ..asked.giving(rows.min(asked.left()), asked.place) }
    }),
    ("page-written-past-the-room", |asked| {
        let right = asked.right();
        let more =
            right.written == asked.room && (1..asked.left() * asked.numbers).contains(&asked.room);
        Plan { written: right.written + usize::from(more), ..right }
    }),
    ("page-clears-the-rest", |asked| Plan { clears: Clears::Rest, ..asked.right() }),
    ("page-clears-the-next-number", |asked| Plan { clears: Clears::Next, ..asked.right() }),
    ("page-one-row-less-in-an-exact-room", |asked| {
        let exact = asked.room > 0 && asked.right().written == asked.room;
        asked.one_less_if(exact)
    }),
    ("page-one-row-less-in-room-for-all", |asked| {
        asked.one_less_if(asked.room == asked.rows as usize * asked.numbers)
    }),
    ("page-without-the-last-row", |asked| asked.one_less_if(asked.right().place == asked.rows)),
    ("page-without-a-single-row", |asked| asked.one_less_if(asked.rows == 1)),
    ("page-room-in-bytes", |asked| asked.at_most(asked.room / 8 / asked.numbers)),
    ("page-at-most-64-rows", |asked| asked.at_most(64)),
    ("page-stops-at-64-rows", |asked| asked.at_most(64 - asked.place as usize % 64)),
    ("page-at-most-255-rows", |asked| asked.at_most(255)),
    ("page-at-most-65535-rows", |asked| asked.at_most(65_535)),
    ("page-given-in-16-bits", |asked| {
        let right = asked.right();
        Plan { given: right.given.map(|given| given & 0xFFFF), ..right }
    }),
    ("page-given-counts-numbers", |asked| {
        let right = asked.right();
        Plan { given: Some(right.written as u32), ..right }
    }),
    ("page-given-is-the-place", |asked| {
        let right = asked.right();
        Plan { given: Some(right.place), ..right }
    }),
    ("page-given-not-set-without-rows", |asked| {
        let right = asked.right();
        Plan { given: right.given.filter(|&given| given > 0), ..right }
    }),
];

/// Faults that show where the room is over 32 bits.
pub const HUGE: &[(&str, Fault)] = &[
    ("page-room-in-32-bits", |asked| Asked { room: asked.room as u32 as usize, ..asked }.right()),
    ("page-rows-of-the-room-in-32-bits", |asked| {
        asked.at_most((asked.room / asked.numbers) as u32 as usize)
    }),
];

pub const OF_BLOCKS: &[(&str, Fault)] = &[
    ("page-given-counts-fields", |asked| {
        let right = asked.right();
        Plan { given: Some(right.written as u32 / 3), ..right }
    }),
    ("page-place-counts-fields", |asked| {
        let right = asked.right();
        Plan { place: asked.place.wrapping_add(right.written as u32 / 3), ..right }
    }),
    ("page-half-a-row-of-fields", |asked| {
        let written = asked.room.min(asked.left() * asked.numbers) / 3 * 3;
        Plan { written, ..asked.right() }
    }),
    ("page-rows-given", |asked| {
        let right = asked.right();
        Plan { rows: right.given, ..right }
    }),
    ("page-rows-left", |asked| Plan { rows: Some(asked.left() as u32), ..asked.right() }),
    ("page-rows-the-place", |asked| {
        let right = asked.right();
        Plan { rows: Some(right.place), ..right }
    }),
    ("page-rows-not-set-past-the-end", |asked| {
        let right = asked.right();
        Plan { rows: right.rows.filter(|&rows| asked.place < rows), ..right }
    }),
    ("page-rows-not-set-without-room", |asked| {
        let right = asked.right();
        Plan { rows: right.rows.filter(|_| asked.room >= asked.numbers), ..right }
    }),
];

/// Gives the page as the planted fault has it.
pub unsafe fn give(to: &Outputs, listed: &Listed) -> u32 {
    let Listed { rows, numbers, .. } = *listed;
    let asked = Asked { place: *to.place, room: to.room, rows, numbers };
    let fault = BOTH.iter().chain(HUGE).chain(OF_BLOCKS).find(|(name, _)| planted(name));
    let plan = fault.map_or_else(|| asked.right(), |(_, fault)| fault(asked));
    if plan.refusal != 0 {
        return plan.refusal;
    }
    let first = plan.from as usize * numbers;
    fields::write(to, listed.all.get(first..).unwrap_or(&[]), plan.written);
    let rest = to.list().iter_mut().skip(plan.written);
    match plan.clears {
        Clears::Nothing => {}
        Clears::Next => rest.take(1).for_each(|number| *number = 0),
        Clears::Rest => rest.for_each(|number| *number = 0),
    }
    to.place.write(plan.place);
    if let Some(given) = plan.given {
        to.given.write(given);
    }
    if let (Some(to), Some(rows)) = (to.rows, plan.rows) {
        to.write(rows);
    }
    harm(to);
    0
}

pub const HARM: [&str; 3] =
    ["page-written-before-the-list", "page-place-as-eight-bytes", "page-given-as-eight-bytes"];
pub const HARM_OF_BLOCKS: [&str; 1] = ["page-rows-as-eight-bytes"];

/// Changes memory beside the outputs, if that is planted.
unsafe fn harm(to: &Outputs) {
    if planted("page-written-before-the-list") && to.room > 0 {
        *to.list.sub(1) ^= 1;
    }
    let eight_bytes = |name, to: *mut u32| {
        if planted(name) {
            to.add(1).write(0);
        }
    };
    eight_bytes("page-place-as-eight-bytes", to.place);
    eight_bytes("page-given-as-eight-bytes", to.given);
    if let Some(rows) = to.rows {
        eight_bytes("page-rows-as-eight-bytes", rows);
    }
}
