//! Row blocks over random schemas, sound and damaged towards each refusal.

use super::numbers::{all_forms, bad_varint, damage_number, push_any_form, Around, Numbers};
use super::schema::{
    bad_boolean, bad_counted, bad_nanoseconds, bits_width, columns, damaged_schema, every_type,
    lay_schema, schema_bytes, value, Value,
};
use super::{damage_bytes, Random};
use crate::reference::schema::{Column, Type};
use std::mem::take;
use std::ops::Range;
use std::sync::OnceLock;

/// A schema and a block.
#[derive(Clone)]
pub struct Case {
    pub schema: Vec<u8>,
    pub block: Vec<u8>,
}

/// One row before it is laid out: nothing stands for null.
pub type Row = Vec<Option<Value>>;

/// A row as it is written.
struct Laid {
    bytes: Vec<u8>,
    /// Where its numbers stand.
    spots: Vec<Range<usize>>,
}

/// A block part by part, before damage.
struct Draft {
    columns: Vec<Column>,
    rows: Vec<Laid>,
    gap: Vec<u8>,
    offsets: Vec<u32>,
    count: u32,
}

impl Draft {
    fn new(columns: Vec<Column>, rows: Vec<Laid>) -> Draft {
        let mut draft =
            Draft { columns, gap: Vec::new(), offsets: Vec::new(), count: rows.len() as u32, rows };
        draft.place_rows();
        draft
    }

    /// Sets each offset to where its row starts.
    fn place_rows(&mut self) {
        let mut end = 0;
        self.offsets.clear();
        for row in &self.rows {
            self.offsets.push(end);
            end += row.bytes.len() as u32;
        }
    }

    fn bytes(&self) -> Vec<u8> {
        let mut out = Vec::new();
        for row in &self.rows {
            out.extend_from_slice(&row.bytes);
        }
        out.extend_from_slice(&self.gap);
        for offset in &self.offsets {
            out.extend(offset.to_le_bytes());
        }
        out.extend(self.count.to_le_bytes());
        out
    }
}

fn row_count(random: &mut Random) -> usize {
    match random.below(300) {
        0 => random.between(50, 400),
        1..=15 => random.between(8, 40),
        16..=40 => 0,
        41..=90 => 1,
        _ => random.between(1, 5),
    }
}

fn any_row(random: &mut Random, columns: &[Column]) -> Row {
    let share = random.pick(&[1, 2, 4, 1000]);
    columns
        .iter()
        .map(|column| {
            let null = column.nullable && random.once_in(share);
            (!null).then(|| value(random, column.kind))
        })
        .collect()
}

fn lay_row(columns: &[Column], row: &Row, numbers: &mut Numbers) -> Laid {
    let mut bytes = vec![0; columns.len().div_ceil(8)];
    for (i, field) in row.iter().enumerate() {
        match field {
            None => bytes[i / 8] |= 1 << (i % 8),
            Some(value) => push_field(columns[i].kind, value, numbers, &mut bytes),
        }
    }
    Laid { bytes, spots: take(&mut numbers.spots) }
}

/// Appends a field in the layout of source 001: little endian.
fn push_field(kind: Type, value: &Value, numbers: &mut Numbers, out: &mut Vec<u8>) {
    match value {
        Value::Bits(bits) => out.extend_from_slice(&bits.to_le_bytes()[..bits_width(kind)]),
        Value::Time { count, nanos } => {
            out.extend(count.to_le_bytes());
            if kind.size() > 3 {
                numbers.push(*nanos, out);
            }
        }
        Value::Counted(bytes) => numbers.push_counted(bytes, out),
        Value::Raw(bytes) => out.extend_from_slice(bytes),
    }
}

fn any_rows(random: &mut Random) -> (Vec<Column>, Vec<Row>) {
    let columns = columns(random);
    let rows = (0..row_count(random)).map(|_| any_row(random, &columns)).collect();
    (columns, rows)
}

fn lay_rows(columns: &[Column], rows: &[Row], numbers: &mut Numbers) -> Draft {
    let laid = rows.iter().map(|row| lay_row(columns, row, numbers)).collect();
    Draft::new(columns.to_vec(), laid)
}

/// The schema and the rows, the numbers of each as it wants them.
fn lay(columns: &[Column], rows: &[Row], schema: &mut Numbers, block: &mut Numbers) -> Case {
    Case { schema: lay_schema(columns, schema), block: lay_rows(columns, rows, block).bytes() }
}

/// A block of these columns, as many rows as the bytes and the rows allow.
pub fn filled(
    random: &mut Random,
    columns: &[Column],
    bytes: usize,
    rows: usize,
    numbers: &mut Numbers,
) -> Vec<u8> {
    let mut length = 4;
    let mut laid = Vec::new();
    while laid.len() < rows {
        let row = any_row(random, columns);
        let row = lay_row(columns, &row, numbers);
        length += row.bytes.len() + 4;
        if length > bytes {
            break;
        }
        laid.push(row);
    }
    Draft::new(columns.to_vec(), laid).bytes()
}

/// A sound block and what it holds.
pub fn sound_with_content(random: &mut Random) -> (Case, Vec<Column>, Vec<Row>) {
    let (columns, rows) = any_rows(random);
    let [mut schema, mut block] = Numbers::pair(random);
    (lay(&columns, &rows, &mut schema, &mut block), columns, rows)
}

/// The same sound rows twice: every number shortest; some or all padded.
pub fn twins(random: &mut Random) -> [Case; 2] {
    let (columns, rows) = any_rows(random);
    let shortest = lay(&columns, &rows, &mut Numbers::shortest(), &mut Numbers::shortest());
    let [mut schema, mut block] = [(); 2].map(|_| Numbers::padded(random));
    [shortest, lay(&columns, &rows, &mut schema, &mut block)]
}

/// A block damaged once or twice, mostly towards a certain refusal.
pub fn damaged(random: &mut Random) -> Case {
    let (columns, rows) = any_rows(random);
    let [mut schema, mut block] = Numbers::pair(random);
    let mut draft = lay_rows(&columns, &rows, &mut block);
    let mut schema = lay_schema(&columns, &mut schema);
    let mut after = Vec::new();
    for _ in 0..if random.once_in(3) { 2 } else { 1 } {
        match random.below(14) {
            0 => schema = damaged_schema(random, &draft.columns),
            1 => after.push(After::Short),
            2 => break_count(random, &mut draft),
            3..=4 => break_offsets(random, &mut draft),
            5 => break_end(random, &mut draft),
            6..=9 => break_row(random, &mut draft, &mut block),
            10..=11 => break_number(random, &mut draft),
            12 if random.once_in(500) => after.push(After::TooLong),
            _ => after.push(After::Bytes),
        }
    }
    let mut block = draft.bytes();
    for damage in after {
        match damage {
            After::Short => block.truncate(random.below(4)),
            After::TooLong => block = vec![0; 16_777_217],
            After::Bytes => damage_bytes(random, &mut block),
        }
    }
    Case { schema, block }
}

/// Damage of the whole block's bytes.
enum After {
    Short,
    TooLong,
    Bytes,
}

fn break_count(random: &mut Random, draft: &mut Draft) {
    draft.count = match random.below(5) {
        0 => random.between(65_537, 1 << 30) as u32,
        1 => random.pick(&[1 << 31, u32::MAX, 0x8000_0001]),
        2 => draft.count.wrapping_add(1),
        3 => draft.count.wrapping_sub(1),
        _ => draft.count + random.below(70_000) as u32,
    };
}

fn break_offsets(random: &mut Random, draft: &mut Draft) {
    let at = random.below(draft.offsets.len().max(1));
    let Some(offset) = draft.offsets.get_mut(at) else { return };
    *offset = match random.below(4) {
        0 => offset.wrapping_add(1),
        1 => offset.wrapping_sub(1),
        2 => random.below(100) as u32,
        _ => random.word() as u32,
    };
}

/// Bytes between the last row and the offsets, or a last row that is cut.
fn break_end(random: &mut Random, draft: &mut Draft) {
    if random.once_in(2) {
        let more = random.between(1, 5);
        draft.gap = random.bytes(more);
    } else if let Some(last) = draft.rows.last_mut() {
        last.bytes.truncate(random.below(last.bytes.len().max(1)));
        last.spots.clear();
    }
}

/// Damage in one row's bytes; its offsets are set anew, mostly.
fn break_row(random: &mut Random, draft: &mut Draft, numbers: &mut Numbers) {
    if draft.rows.is_empty() {
        return;
    }
    let at = random.below(draft.rows.len());
    let mut row = any_row(random, &draft.columns);
    let column = random.below(draft.columns.len());
    let mut spare = false;
    match random.below(4) {
        0 => spare = true,
        1 => row[column] = None,
        _ => {
            let kind = draft.columns[column].kind;
            if let Some(bytes) = bad_field(random, kind) {
                row[column] = Some(Value::Raw(bytes));
            }
        }
    }
    let mut laid = lay_row(&draft.columns, &row, numbers);
    let used = draft.columns.len();
    if spare && !used.is_multiple_of(8) {
        laid.bytes[used / 8] |= 1 << random.between(used % 8, 7);
    }
    draft.rows[at] = laid;
    if !random.once_in(5) {
        draft.place_rows();
    }
}

/// Damage of one number, half of the time in the last row; its offsets are set anew.
fn break_number(random: &mut Random, draft: &mut Draft) {
    let count = draft.rows.len();
    if count == 0 {
        return;
    }
    let at = if random.once_in(2) { count - 1 } else { random.below(count) };
    let row = &mut draft.rows[at];
    damage_number(random, &mut row.bytes, &take(&mut row.spots));
    draft.place_rows();
}

/// The bytes of a field that is bad in a row, if its type has such.
fn bad_field(random: &mut Random, kind: Type) -> Option<Vec<u8>> {
    match kind {
        Type::Boolean => Some(vec![bad_boolean(random)]),
        Type::Timestamp { precision: 4.. } => {
            let mut out = random.bytes(8);
            if random.once_in(2) {
                let nanos = bad_nanoseconds(random);
                push_any_form(random, nanos, &mut out);
            } else {
                out.extend(bad_varint(random, 999));
            }
            Some(out)
        }
        Type::Decimal { precision: 0..=18, .. } => None,
        Type::Char { .. }
        | Type::VarChar { .. }
        | Type::String
        | Type::Binary { .. }
        | Type::VarBinary { .. }
        | Type::Bytes
        | Type::Decimal { .. } => Some(bad_counted(random, kind)),
        _ => None,
    }
}

/// Blocks at the largest sizes, and one past them; then each kind of number in each form, and sound
/// blocks with many fields.
pub fn edge(number: u64) -> Option<Case> {
    static EDGES: OnceLock<Vec<Case>> = OnceLock::new();
    let tiny = vec![1, 1, 1];
    let bytes_column = vec![1, 13, 0];
    let case = |schema, block| Some(Case { schema, block });
    match number {
        0 => case(tiny, all_null_rows(65_536)),
        1 => case(tiny, all_null_rows(65_537)),
        2 => case(bytes_column, one_field(16_777_216)),
        3 => case(bytes_column, one_field(16_777_217)),
        _ => EDGES.get_or_init(other_edges).get(number as usize - 4).cloned(),
    }
}

fn other_edges() -> Vec<Case> {
    number_edges().into_iter().chain(full_edges()).collect()
}

/// Sound blocks of every type, with and without nulls, and one of the most rows.
fn full_edges() -> Vec<Case> {
    let mut random = Random::new(10);
    let mut out = Vec::new();
    for (nullable, count) in [(false, 19), (true, 19), (true, 64), (false, 64)] {
        let columns: Vec<Column> = every_type(nullable).into_iter().cycle().take(count).collect();
        for mut numbers in [Numbers::shortest(), Numbers::five_bytes()] {
            let block = filled(&mut random, &columns, usize::MAX, 70, &mut numbers);
            out.push(Case { schema: lay_schema(&columns, &mut numbers), block });
        }
    }
    let columns = [Type::String, Type::TinyInt].map(|kind| Column { kind, nullable: true });
    let block = filled(&mut random, &columns, usize::MAX, 65_536, &mut Numbers::shortest());
    out.push(Case { schema: schema_bytes(&columns), block });
    out
}

/// Schemas and one-row blocks with one number, in each of its forms.
fn number_edges() -> Vec<Case> {
    let no_rows = vec![0; 4];
    let schemas: [(&[u8], u32, &[u8]); 8] = [
        (&[], 1, &[10, 0]),
        (&[], 0, &[]),
        (&[1, 9, 0], 0, &[]),
        (&[1, 12, 1], 300, &[]),
        (&[1, 14, 0], 19, &[19]),
        (&[1, 14, 0, 5], 5, &[]),
        (&[1, 14, 0, 5], 6, &[]),
        (&[1, 16, 0], 9, &[]),
    ];
    let rows: [Around; 8] = [
        (&[1, 10, 0], &[0], 0, &[]),
        (&[1, 10, 0], &[0], 1, b"A"),
        (&[1, 10, 0], &[0], 2, b"A"),
        (&[1, 14, 0, 19, 0], &[0], 0, &[]),
        (&[1, 14, 0, 19, 0], &[0], 1, &[7]),
        (&[1, 16, 0, 4], &[0, 1, 2, 3, 4, 5, 6, 7, 8], 0, &[]),
        (&[1, 16, 0, 4], &[0, 1, 2, 3, 4, 5, 6, 7, 8], 999_999, &[]),
        (&[1, 16, 0, 4], &[0, 1, 2, 3, 4, 5, 6, 7, 8], 1_000_000, &[]),
    ];
    let mut out = Vec::new();
    for (before, number, behind) in schemas {
        let schemas = all_forms(before, number, behind);
        out.extend(schemas.into_iter().map(|schema| Case { schema, block: no_rows.clone() }));
    }
    for (schema, before, number, behind) in rows {
        for bytes in all_forms(before, number, behind) {
            let row = Laid { bytes, spots: Vec::new() };
            let block = Draft::new(Vec::new(), vec![row]).bytes();
            out.push(Case { schema: schema.to_vec(), block });
        }
    }
    out
}

fn all_null_rows(count: usize) -> Vec<u8> {
    let row = || Laid { bytes: vec![1], spots: Vec::new() };
    Draft::new(Vec::new(), (0..count).map(|_| row()).collect()).bytes()
}

/// A block of this many bytes with one long field.
fn one_field(length: usize) -> Vec<u8> {
    let value = Value::Counted(vec![0xAB; length - 13]);
    let column = Column { kind: Type::Bytes, nullable: false };
    lay_rows(&[column], &[vec![Some(value)]], &mut Numbers::shortest()).bytes()
}
