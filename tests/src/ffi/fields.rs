//! What field and page calls of blocks and buckets answer.

use super::{settle, within, Called, Lent, Memory};
use crate::generate::Random;
use crate::reference::Answer;

/// The outputs of a field call: kind, whole, bits, nanos, start, length.
#[derive(Clone, Copy, Debug, PartialEq, Eq)]
pub struct Field {
    pub kind: u8,
    pub whole: i64,
    pub bits: u64,
    pub nanos: u32,
    pub start: usize,
    pub length: usize,
}

impl From<Answer> for Field {
    fn from(answer: Answer) -> Field {
        let [kind, _, _] = answer.numbers();
        let mut field =
            Field { kind: kind as u8, whole: 0, bits: 0, nanos: 0, start: 0, length: 0 };
        match answer {
            Answer::Null => {}
            Answer::YesNo(yes) => field.whole = yes.into(),
            Answer::Whole(whole) => field.whole = whole,
            Answer::Float(bits) => field.bits = bits.into(),
            Answer::Double(bits) => field.bits = bits,
            Answer::Time { count, nanos } => (field.whole, field.nanos) = (count, nanos),
            Answer::Place { start, length } => (field.start, field.length) = (start, length),
        }
        field
    }
}

impl Field {
    /// The answer without its place, and the bytes of that place, which lies in these bytes.
    pub fn by_bytes(self, bytes: &[u8]) -> Result<(Field, Vec<u8>), String> {
        let part = part(bytes, self.start, self.length)?;
        Ok((Field { start: 0, ..self }, part))
    }
}

/// The bytes of a place.
fn part(bytes: &[u8], start: usize, length: usize) -> Result<Vec<u8>, String> {
    let part = start.checked_add(length).and_then(|end| bytes.get(start..end));
    let outside = || format!("{length} bytes from {start} on lie outside of {}", bytes.len());
    part.map(<[u8]>::to_vec).ok_or_else(outside)
}

/// Pointers to the six outputs of a field call.
pub struct FieldPointers {
    pub kind: *mut u8,
    pub whole: *mut i64,
    pub bits: *mut u64,
    pub nanos: *mut u32,
    pub start: *mut usize,
    pub length: *mut usize,
}

/// Lends the six outputs of a field call.
pub(super) fn field(
    inputs: &[&dyn Memory],
    random: &mut Random,
    call: impl FnOnce(FieldPointers) -> u32,
) -> Called<Field> {
    let mut kind = Lent::output("kind", 1, random);
    let mut whole = Lent::output("whole", 1, random);
    let mut bits = Lent::output("bits", 1, random);
    let mut nanos = Lent::output("nanos", 1, random);
    let mut start = Lent::output("start", 1, random);
    let mut length = Lent::output("length", 1, random);
    let code = call(FieldPointers {
        kind: kind.pointer_mut(),
        whole: whole.pointer_mut(),
        bits: bits.pointer_mut(),
        nanos: nanos.pointer_mut(),
        start: start.pointer_mut(),
        length: length.pointer_mut(),
    });
    let outputs: [(&dyn Memory, usize); 6] =
        [(&kind, 1), (&whole, 1), (&bits, 1), (&nanos, 1), (&start, 1), (&length, 1)];
    settle(code, inputs, &outputs, || Field {
        kind: kind.value(),
        whole: whole.value(),
        bits: bits.value(),
        nanos: nanos.value(),
        start: start.value(),
        length: length.value(),
    })
}

/// What a page call leaves: its place, how many rows it gave, how many there are, and their numbers.
#[derive(Clone, Debug, PartialEq, Eq)]
pub struct Page {
    pub place: u32,
    pub given: u32,
    pub rows: u32,
    pub list: Vec<u64>,
}

impl Page {
    /// The first page of a call that sets place, given and rows, into a list too large to be copied and
    /// without guard cells. Its numbers stay in that list.
    pub(super) fn in_place(
        call: impl FnOnce(&mut u32, &mut u32, &mut u32) -> u32,
    ) -> Result<Page, u32> {
        let mut page = Page { place: 0, given: 0, rows: 0, list: Vec::new() };
        match call(&mut page.place, &mut page.given, &mut page.rows) {
            0 => Ok(page),
            code => Err(code),
        }
    }

    /// The page without the starts of its places, and the bytes of those places, which lie in these.
    pub fn by_bytes(mut self, bytes: &[u8]) -> Result<(Page, Vec<Vec<u8>>), String> {
        let mut parts = Vec::new();
        for field in self.list.chunks_mut(3).filter(|field| field[0] == 6) {
            parts.push(part(bytes, field[1] as usize, field[2] as usize)?);
            field[1] = 0;
        }
        Ok((self, parts))
    }
}

/// What a page call of blocks or buckets takes and sets alike.
pub(super) struct LentPage {
    pub place: Lent<u32>,
    pub list: Lent<u64>,
    pub given: Lent<u32>,
}

impl LentPage {
    pub fn new(place: u32, room: usize, random: &mut Random) -> LentPage {
        LentPage {
            place: Lent::scalar("place", place, random),
            list: Lent::output("list", room, random),
            given: Lent::output("given", 1, random),
        }
    }

    /// What the call left, of whose list each row takes so many numbers.
    pub fn settle(
        &self,
        code: u32,
        numbers: usize,
        inputs: &[&dyn Memory],
        others: &[(&dyn Memory, usize)],
        rows: u32,
    ) -> Called<Page> {
        let mut count = 0;
        if code == 0 {
            let given = self.given.value() as usize;
            count = within("given, in numbers", given * numbers, self.list.length)?;
        }
        let mut outputs: Vec<(&dyn Memory, usize)> =
            vec![(&self.place, 1), (&self.list, count), (&self.given, 1)];
        outputs.extend(others);
        settle(code, inputs, &outputs, || Page {
            place: self.place.value(),
            given: self.given.value(),
            rows,
            list: self.list.content()[..count].to_vec(),
        })
    }
}
