//! Buckets over random schemas, row counts and encodings, sound and damaged towards each refusal.

use super::numbers::{all_forms, bad_varint, damage_number, Around, Number, Numbers};
use super::schema::{
    bad_boolean, bad_counted, bad_nanoseconds, bits_width, columns, damaged_schema, every_type,
    lay_schema, value, Value,
};
use super::{damage_bytes, Random};
use crate::reference::schema::{Column, Type};
use std::sync::OnceLock;

/// A schema, a number of rows and a bucket.
#[derive(Clone)]
pub struct Case {
    pub schema: Vec<u8>,
    pub rows: u32,
    pub bucket: Vec<u8>,
}

/// The columns of a bucket, and for each column what each row holds.
pub type Content = Vec<(Column, Vec<Option<Value>>)>;

pub const PLAIN: u8 = 0;
pub const CONST: u8 = 1;
pub const DICT: u8 = 2;
pub const ALL_NULL: u8 = 3;

/// One column before it is laid out. It holds only the parts that its encoding has.
struct ColumnDraft {
    tag: u8,
    has_nulls: bool,
    /// What each row holds; nothing stands for null.
    cells: Vec<Option<Value>>,
    constant: Option<Value>,
    table: Option<Table>,
    nulls: Vec<u8>,
    /// Whether the cells stand in the bucket, as plain values.
    plain: bool,
    indexes: Vec<u8>,
    index_count: usize,
}

/// A dictionary before it is laid out.
struct Table {
    /// The number of entries as it is written.
    number: Number,
    entries: Vec<Value>,
}

/// A bucket part by part, before damage.
struct Draft {
    columns: Vec<Column>,
    rows: usize,
    /// The number of columns and the number of children.
    header: [Number; 2],
    tag_spare: u8,
    has_nulls_spare: u8,
    drafts: Vec<ColumnDraft>,
    tail: Vec<u8>,
}

impl Draft {
    /// Every number goes to the same bytes.
    fn bytes(&self, numbers: &mut Numbers) -> Vec<u8> {
        let mut out = Vec::new();
        for number in &self.header {
            numbers.push_number(number, &mut out);
        }
        let tags: Vec<usize> = self.drafts.iter().map(|draft| usize::from(draft.tag)).collect();
        push_spare(&pack_low_first(&tags, 2), self.tag_spare, &mut out);
        let marks: Vec<usize> = self.drafts.iter().map(|d| usize::from(d.has_nulls)).collect();
        push_spare(&pack_low_first(&marks, 1), self.has_nulls_spare, &mut out);
        let drafts = || self.columns.iter().map(|column| column.kind).zip(&self.drafts);
        for (kind, draft) in drafts() {
            push_values(kind, draft.constant.iter(), numbers, &mut out);
        }
        for (kind, draft) in drafts() {
            if let Some(table) = &draft.table {
                numbers.push_number(&table.number, &mut out);
                push_values(kind, table.entries.iter(), numbers, &mut out);
            }
        }
        for draft in &self.drafts {
            out.extend_from_slice(&draft.nulls);
        }
        for (kind, draft) in drafts() {
            if draft.plain {
                push_values(kind, draft.cells.iter().flatten(), numbers, &mut out);
            }
            out.extend_from_slice(&draft.indexes);
        }
        out.extend_from_slice(&self.tail);
        out
    }
}

fn push_spare(array: &[u8], spare: u8, out: &mut Vec<u8>) {
    out.extend_from_slice(array);
    if let Some(last) = out.last_mut() {
        *last |= spare;
    }
}

/// Packs numbers of `width` bits, low bits first.
fn pack_low_first(values: &[usize], width: usize) -> Vec<u8> {
    let mut out = vec![0; (values.len() * width).div_ceil(8)];
    for (i, &value) in values.iter().enumerate() {
        for bit in 0..width {
            let place = i * width + bit;
            out[place / 8] |= ((value >> bit & 1) as u8) << (place % 8);
        }
    }
    out
}

/// Appends values in the layout of source 000: big endian.
fn push_values<'a>(
    kind: Type,
    values: impl Iterator<Item = &'a Value>,
    numbers: &mut Numbers,
    out: &mut Vec<u8>,
) {
    for value in values {
        match value {
            Value::Bits(bits) => out.extend_from_slice(&bits.to_be_bytes()[8 - bits_width(kind)..]),
            Value::Time { count, nanos } => {
                out.extend(count.to_be_bytes());
                if kind.size() > 6 {
                    out.extend(nanos.to_be_bytes());
                }
            }
            Value::Counted(bytes) => numbers.push_counted(bytes, out),
            Value::Raw(bytes) => out.extend_from_slice(bytes),
        }
    }
}

fn row_count(random: &mut Random) -> usize {
    match random.below(2000) {
        0 => random.pick(&[65_535, 65_536]),
        1..=20 => random.between(100, 1000),
        21..=40 => random.between(60, 70),
        41..=200 => random.between(15, 40),
        201..=400 => 0,
        401..=600 => 1,
        601..=900 => random.between(7, 9),
        _ => random.between(1, 6),
    }
}

fn any_draft(random: &mut Random) -> Draft {
    let rows = row_count(random);
    let mut columns = columns(random);
    if rows > 1000 {
        columns.truncate(2);
    }
    let tags: Vec<u8> = columns.iter().map(|_| random.below(4) as u8).collect();
    draft_of(random, columns, rows, &tags)
}

/// A sound bucket; the tags go round over the columns.
fn draft_of(random: &mut Random, columns: Vec<Column>, rows: usize, tags: &[u8]) -> Draft {
    let drafts = columns
        .iter()
        .zip(tags.iter().cycle())
        .map(|(column, &tag)| any_column(random, column, rows, tag))
        .collect();
    whole_draft(columns, rows, drafts)
}

fn whole_draft(columns: Vec<Column>, rows: usize, drafts: Vec<ColumnDraft>) -> Draft {
    let header = [Number::Value(columns.len() as u32), Number::Value(0)];
    Draft { columns, rows, header, tag_spare: 0, has_nulls_spare: 0, drafts, tail: Vec::new() }
}

/// What is chosen for a column; the rest is random.
struct Choice {
    tag: u8,
    has_nulls: bool,
    /// Once in how many rows it is null, where it may be.
    share: Option<usize>,
    /// How many entries its table has.
    entries: Option<usize>,
}

fn any_column(random: &mut Random, column: &Column, rows: usize, tag: u8) -> ColumnDraft {
    let tag = if tag == ALL_NULL && !column.nullable && rows > 0 { PLAIN } else { tag };
    let choice = Choice { tag, has_nulls: random.once_in(2), share: None, entries: None };
    chosen_column(random, column, rows, choice)
}

fn chosen_column(random: &mut Random, column: &Column, rows: usize, choice: Choice) -> ColumnDraft {
    let mut draft = ColumnDraft {
        tag: choice.tag,
        has_nulls: choice.has_nulls,
        cells: vec![None; rows],
        constant: None,
        table: None,
        nulls: Vec::new(),
        plain: false,
        indexes: Vec::new(),
        index_count: 0,
    };
    if choice.tag == ALL_NULL {
        return draft;
    }
    let share = choice.share.unwrap_or_else(|| random.pick(&[1, 2, 5, 1000]));
    let nulls: Vec<usize> = (0..rows)
        .map(|_| usize::from(draft.has_nulls && column.nullable && random.once_in(share)))
        .collect();
    if draft.has_nulls {
        draft.nulls = pack_low_first(&nulls, 1);
    }
    let filled: Vec<usize> = (0..rows).filter(|&row| nulls[row] == 0).collect();
    match choice.tag {
        PLAIN => fill_plain(random, column.kind, &filled, &mut draft),
        CONST => {
            let value = value(random, column.kind);
            filled.iter().for_each(|&row| draft.cells[row] = Some(value.clone()));
            draft.constant = Some(value);
        }
        _ => {
            let entries = choice.entries.unwrap_or_else(|| entry_count(random));
            fill_dictionary(random, column.kind, &filled, entries, &mut draft);
        }
    }
    draft
}

fn fill_plain(random: &mut Random, kind: Type, filled: &[usize], draft: &mut ColumnDraft) {
    for &row in filled {
        draft.cells[row] = Some(value(random, kind));
    }
    draft.plain = true;
}

fn index_width(entries: usize) -> usize {
    (1..=8).find(|&width| entries <= 1 << width).unwrap_or(8)
}

fn entry_count(random: &mut Random) -> usize {
    match random.below(10) {
        0 => random.between(2, 255),
        1 => random.pick(&[8, 9, 16, 17, 127, 128, 129, 254, 255]),
        _ => random.between(2, 5),
    }
}

fn fill_dictionary(
    random: &mut Random,
    kind: Type,
    filled: &[usize],
    count: usize,
    draft: &mut ColumnDraft,
) {
    let entries: Vec<Value> = (0..count).map(|_| value(random, kind)).collect();
    let mut indexes = Vec::new();
    for &row in filled {
        let index = random.below(count);
        indexes.push(index);
        draft.cells[row] = Some(entries[index].clone());
    }
    draft.indexes = pack_low_first(&indexes, index_width(count));
    draft.index_count = filled.len();
    draft.table = Some(Table { number: Number::Value(count as u32), entries });
}

/// A bucket of these columns and rows; the tags go round over the columns.
pub fn filled(
    random: &mut Random,
    columns: &[Column],
    rows: usize,
    tags: &[u8],
    numbers: &mut Numbers,
) -> Vec<u8> {
    draft_of(random, columns.to_vec(), rows, tags).bytes(numbers)
}

/// The schema and the bucket, the numbers of each as it wants them.
fn lay(draft: &Draft, schema: &mut Numbers, bucket: &mut Numbers) -> Case {
    Case {
        schema: lay_schema(&draft.columns, schema),
        rows: draft.rows as u32,
        bucket: draft.bytes(bucket),
    }
}

/// A sound bucket and what it holds.
pub fn sound_with_content(random: &mut Random) -> (Case, Content) {
    let draft = any_draft(random);
    let [mut schema, mut bucket] = Numbers::pair(random);
    let case = lay(&draft, &mut schema, &mut bucket);
    let cells = draft.drafts.into_iter().map(|column| column.cells);
    (case, draft.columns.into_iter().zip(cells).collect())
}

/// The same sound bucket twice: every number shortest; some or all padded.
pub fn twins(random: &mut Random) -> [Case; 2] {
    let draft = any_draft(random);
    let shortest = lay(&draft, &mut Numbers::shortest(), &mut Numbers::shortest());
    let [mut schema, mut bucket] = [(); 2].map(|_| Numbers::padded(random));
    [shortest, lay(&draft, &mut schema, &mut bucket)]
}

/// A bucket damaged once or twice, mostly towards a certain refusal.
pub fn damaged(random: &mut Random) -> Case {
    let mut draft = any_draft(random);
    let [mut schema, mut numbers] = Numbers::pair(random);
    let mut schema = lay_schema(&draft.columns, &mut schema);
    let mut rows = draft.rows as u32;
    let mut after = Vec::new();
    for _ in 0..if random.once_in(3) { 2 } else { 1 } {
        match random.below(18) {
            0 => schema = damaged_schema(random, &draft.columns),
            1 => rows = random.pick(&[65_537, 100_000, 1 << 31, u32::MAX]),
            2 => rows = rows.wrapping_add(random.pick(&[1, 7, 8, u32::MAX])),
            3 => break_header(random, &mut draft),
            4 => after.push(After::Cut),
            5..=6 => break_value(random, &mut draft),
            7..=8 => break_table(random, &mut draft),
            9..=10 => set_spare_bits(random, &mut draft),
            11..=12 => add_null(random, &mut draft),
            13 => {
                let more = random.between(1, 3);
                draft.tail = random.bytes(more);
            }
            14..=15 => after.push(After::Number),
            16 if random.once_in(1000) => after.push(After::TooLong),
            _ => after.push(After::Bytes),
        }
    }
    let mut bucket = draft.bytes(&mut numbers);
    for damage in after {
        match damage {
            After::Cut => {
                let most = if random.once_in(3) { 8.min(bucket.len()) } else { bucket.len() };
                bucket.truncate(random.below(most + 1));
            }
            After::TooLong => bucket = vec![0; 16_777_217],
            After::Bytes => damage_bytes(random, &mut bucket),
            After::Number => damage_number(random, &mut bucket, &numbers.spots),
        }
        // The numbers stand there no longer.
        numbers.spots.clear();
    }
    Case { schema, rows, bucket }
}

/// Damage of the whole bucket's bytes.
enum After {
    Cut,
    TooLong,
    Bytes,
    Number,
}

fn break_header(random: &mut Random, draft: &mut Draft) {
    let count = draft.columns.len() as u32;
    match random.below(4) {
        0 => draft.header[0] = Number::Raw(bad_varint(random, count)),
        1 => draft.header[0] = Number::Value(count ^ 1 << random.below(10)),
        2 => draft.header[1] = Number::Raw(bad_varint(random, 0)),
        _ => draft.header[1] = Number::Value(random.between(1, 300) as u32),
    }
}

/// Makes a value bad: plain, constant or an entry.
fn break_value(random: &mut Random, draft: &mut Draft) {
    let start = random.below(draft.columns.len());
    for i in 0..draft.columns.len() {
        let at = (start + i) % draft.columns.len();
        let Some(bad) = bad_value(random, draft.columns[at].kind) else { continue };
        let column = &mut draft.drafts[at];
        let values: Vec<&mut Value> = match (column.tag, &mut column.table) {
            (CONST, _) => column.constant.iter_mut().collect(),
            (DICT, Some(table)) => table.entries.iter_mut().collect(),
            (PLAIN, _) => column.cells.iter_mut().flatten().collect(),
            _ => continue,
        };
        let count = values.len();
        if count == 0 {
            continue;
        }
        if let Some(value) = values.into_iter().nth(random.below(count)) {
            *value = Value::Raw(bad);
        }
        return;
    }
}

/// The bytes of a value that is bad in a bucket, if its type has such.
fn bad_value(random: &mut Random, kind: Type) -> Option<Vec<u8>> {
    match kind {
        Type::Boolean => Some(vec![bad_boolean(random)]),
        Type::Timestamp { precision: 7.. } => {
            let mut out = random.bytes(8);
            out.extend(bad_nanoseconds(random).to_be_bytes());
            Some(out)
        }
        Type::Decimal { precision: 0..=18, .. } => None,
        Type::Char { .. }
        | Type::VarChar { .. }
        | Type::String
        | Type::Binary { .. }
        | Type::VarBinary { .. }
        | Type::Bytes
        | Type::Decimal { .. } => Some(bad_counted(random, kind)),
        _ => None,
    }
}

/// A wrong or ill-formed number of entries, or an index past the entries.
fn break_table(random: &mut Random, draft: &mut Draft) {
    let start = random.below(draft.columns.len());
    for i in 0..draft.columns.len() {
        let at = (start + i) % draft.columns.len();
        let column = &mut draft.drafts[at];
        let Some(table) = &mut column.table else { continue };
        let entries = table.entries.len();
        match random.below(4) {
            0 => table.number = Number::Raw(bad_varint(random, entries as u32)),
            1 => {
                let number = random.pick(&[0, 1, 256, 257, 300, 65_536, u32::MAX]);
                table.number = Number::Value(number);
            }
            _ => break_index(random, column, entries),
        }
        return;
    }
}

fn break_index(random: &mut Random, column: &mut ColumnDraft, entries: usize) {
    let width = index_width(entries);
    if entries == 1 << width || column.index_count == 0 {
        return;
    }
    let at = random.below(column.index_count);
    let index = random.between(entries, (1 << width) - 1);
    for bit in 0..width {
        let place = at * width + bit;
        let mask = 1 << (place % 8);
        if index >> bit & 1 == 1 {
            column.indexes[place / 8] |= mask;
        } else {
            column.indexes[place / 8] &= !mask;
        }
    }
}

/// Sets spare bits of the tags, the has-nulls bits, a null bitmap or the indexes.
fn set_spare_bits(random: &mut Random, draft: &mut Draft) {
    let count = draft.columns.len();
    let rows = draft.rows;
    let at = random.below(count);
    let column = &mut draft.drafts[at];
    let entries = column.table.as_ref().map_or(0, |table| table.entries.len());
    match random.below(4) {
        0 => draft.tag_spare = spare_bit(random, 2 * count),
        1 => draft.has_nulls_spare = spare_bit(random, count),
        2 => {
            if let Some(last) = column.nulls.last_mut() {
                *last |= spare_bit(random, rows);
            }
        }
        _ => {
            if let Some(last) = column.indexes.last_mut() {
                *last |= spare_bit(random, column.index_count * index_width(entries));
            }
        }
    }
}

/// One of the bits after the used ones, or none.
fn spare_bit(random: &mut Random, used: usize) -> u8 {
    match used % 8 {
        0 => 0,
        first => 1 << random.between(first, 7),
    }
}

/// A null where there was none: a set bit, or an ALL_NULL tag; also in NOT NULL columns.
fn add_null(random: &mut Random, draft: &mut Draft) {
    let at = random.below(draft.columns.len());
    let column = &mut draft.drafts[at];
    if random.once_in(2) {
        column.tag = ALL_NULL;
        return;
    }
    if draft.rows == 0 || column.tag == ALL_NULL {
        return;
    }
    if !column.has_nulls {
        column.has_nulls = true;
        column.nulls = vec![0; draft.rows.div_ceil(8)];
    }
    let row = random.below(draft.rows);
    column.nulls[row / 8] |= 1 << (row % 8);
}

/// Buckets at the largest sizes, and one past them; then each kind of number in each form, and sound
/// buckets with many fields.
pub fn edge(number: u64) -> Option<Case> {
    static EDGES: OnceLock<Vec<Case>> = OnceLock::new();
    let bytes_column = vec![1, 13, 0];
    let case = |schema, rows, bucket| Some(Case { schema, rows, bucket });
    match number {
        0 => case(vec![1, 1, 0], 65_536, [vec![1, 0, 0, 0], vec![7; 65_536]].concat()),
        1 => case(vec![1, 1, 0], 65_537, [vec![1, 0, 0, 0], vec![7; 65_537]].concat()),
        2 => case(bytes_column, 1, one_value(16_777_216)),
        3 => case(bytes_column, 1, one_value(16_777_217)),
        _ => EDGES.get_or_init(other_edges).get(number as usize - 4).cloned(),
    }
}

fn other_edges() -> Vec<Case> {
    let mut random = Random::new(11);
    let mut out = number_edges();
    for (i, rows) in [1, 63, 64, 65, 127, 128, 129, 200].into_iter().enumerate() {
        for nullable in [true, false] {
            out.push(every_encoding(&mut random, nullable, rows, i % 2 == 1));
        }
    }
    for entries in [2, 3, 4, 5, 8, 9, 16, 17, 32, 33, 64, 65, 127, 128, 129, 255] {
        out.push(dictionaries(&mut random, entries, 150));
    }
    out.push(dictionaries(&mut random, 200, 65_536));
    out
}

/// Each type in PLAIN, CONST and DICT, then some in ALL_NULL: 64 columns.
fn every_encoding(random: &mut Random, nullable: bool, rows: usize, padded: bool) -> Case {
    let types = every_type(nullable);
    let columns: Vec<Column> = types.iter().cycle().take(64).copied().collect();
    let tags: Vec<u8> = (0..64).map(|i| [PLAIN, CONST, DICT, ALL_NULL][i / types.len()]).collect();
    let draft = draft_of(random, columns, rows, &tags);
    let numbers = if padded { Numbers::five_bytes } else { Numbers::shortest };
    lay(&draft, &mut numbers(), &mut numbers())
}

/// Tables of so many entries and plain values, of numbers and of text, with nulls and without.
fn dictionaries(random: &mut Random, entries: usize, rows: usize) -> Case {
    let (mut columns, mut drafts) = (Vec::new(), Vec::new());
    for (kind, tag) in [(Type::SmallInt, DICT), (Type::String, DICT), (Type::Bytes, PLAIN)] {
        for nullable in [true, false] {
            let column = Column { kind, nullable };
            let choice =
                Choice { tag, has_nulls: nullable, share: Some(3), entries: Some(entries) };
            drafts.push(chosen_column(random, &column, rows, choice));
            columns.push(column);
        }
    }
    let draft = whole_draft(columns, rows, drafts);
    lay(&draft, &mut Numbers::shortest(), &mut Numbers::shortest())
}

/// Buckets of one row with one number in each of its forms.
fn number_edges() -> Vec<Case> {
    let tiny: &[u8] = &[1, 1, 0];
    let text: &[u8] = &[1, 10, 0];
    let decimal: &[u8] = &[1, 14, 0, 19, 0];
    let buckets: [Around; 17] = [
        (tiny, &[], 1, &[0, 0, 0, 7]),
        (tiny, &[], 2, &[0, 0, 0, 7]),
        (tiny, &[1], 0, &[0, 0, 7]),
        (tiny, &[1], 1, &[0, 0, 7]),
        (tiny, &[1, 0, DICT, 0], 2, &[7, 8, 1]),
        (tiny, &[1, 0, DICT, 0], 1, &[7, 1]),
        (tiny, &[1, 0, DICT, 0], 0, &[1]),
        (tiny, &[1, 0, DICT, 0], 256, &[7; 257]),
        (text, &[1, 0, CONST, 0], 0, &[]),
        (text, &[1, 0, CONST, 0], 1, b"A"),
        (text, &[1, 0, CONST, 0], 2, b"A"),
        (text, &[1, 0, DICT, 0, 2, 0], 1, b"A\0"),
        (text, &[1, 0, PLAIN, 0], 0, &[]),
        (text, &[1, 0, PLAIN, 0], 1, b"A"),
        (text, &[1, 0, PLAIN, 0], 2, b"A"),
        (decimal, &[1, 0, PLAIN, 0], 0, &[]),
        (decimal, &[1, 0, PLAIN, 0], 1, &[7]),
    ];
    let mut out = Vec::new();
    for (schema, before, number, behind) in buckets {
        for bucket in all_forms(before, number, behind) {
            out.push(Case { schema: schema.to_vec(), rows: 1, bucket });
        }
    }
    out
}

/// A bucket of this many bytes with one long value.
fn one_value(length: usize) -> Vec<u8> {
    let mut out = vec![1, 0, 0, 0];
    Numbers::shortest().push_counted(&vec![0xAB; length - 8], &mut out);
    out
}
