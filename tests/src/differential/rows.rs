//! Schemas and row blocks.

use super::pages::{compare_any, compare_huge, compare_whole, Listing};
use super::{any_index, by_bytes, edge_number, hex, same, Tally};
use crate::ffi::{rows, Called, Field, Lent, Page};
use crate::generate::rows::{self as generate, Case};
use crate::generate::{schema as generate_schema, Random};
use crate::reference::rows::Block;
use crate::reference::{schema, Answer};

pub fn run_case(case: u64, random: &mut Random, tally: &mut Tally) -> Result<(), String> {
    let edge = edge_number(case);
    let case = match edge.and_then(generate::edge) {
        Some(case) => case,
        None if random.once_in(3) => {
            let [shortest, padded] = generate::twins(random);
            compare_twins(&shortest, &padded, random)?;
            if random.once_in(2) {
                shortest
            } else {
                padded
            }
        }
        None => generate::damaged(random),
    };
    let schema = Lent::input("schema", &case.schema, random);
    let block = Lent::input("block", &case.block, random);
    compare_schema(&schema, random)?;
    let other = damaged_schema(random);
    compare_schema(&Lent::input("schema", &other, random), random)?;

    let judged = Block::judge(&case.schema, &case.block);
    let rows = judged.as_ref().map(|block| block.rows() as u32).map_err(|&refusal| refusal);
    tally.count(&rows);
    let question = || format!("block check{}", text(&case));
    same(question, rows::block_check(&schema, &block, random), rows)?;

    let columns = schema::check(&case.schema).unwrap_or(3);
    let count = rows.unwrap_or(3) as usize;
    for _ in 0..if judged.is_ok() { 8 } else { 2 } {
        let row = any_index(random, count);
        let column = any_index(random, columns as usize);
        let expected = match &judged {
            Ok(block) => block.field(row, column).map(Field::from),
            Err(refusal) => Err(*refusal),
        };
        tally.count(&expected);
        let question = || format!("block field, row {row}, column {column}{}", text(&case));
        same(question, rows::block_field(&schema, &block, row, column, random), expected)?;
    }
    let (rows, fields) = (count as u32, columns as usize);
    let judged = judged.as_ref().map_err(|&refusal| refusal);
    let lent = LentBlock { case: &case, schema: &schema, block: &block, judged, rows, fields };
    compare_pages(&lent, random, tally)?;
    if edge == Some(0) {
        compare_huge(&lent)?;
    }
    Ok(())
}

fn compare_pages(block: &LentBlock, random: &mut Random, tally: &mut Tally) -> Result<(), String> {
    if block.judged.is_err() {
        return compare_any(block, random, tally);
    }
    for _ in 0..4 {
        compare_any(block, random, tally)?;
    }
    compare_whole(block, random)
}

/// A block that is listed by pages.
struct LentBlock<'a> {
    case: &'a Case,
    schema: &'a Lent<u8>,
    block: &'a Lent<u8>,
    judged: Result<&'a Block<'a>, u32>,
    rows: u32,
    fields: usize,
}

impl Listing for LentBlock<'_> {
    fn rows(&self) -> u32 {
        self.rows
    }

    fn fields(&self) -> usize {
        self.fields
    }

    fn library(&self, place: u32, room: usize, random: &mut Random) -> Called<Page> {
        rows::block_page(self.schema, self.block, 3 * self.fields, place, room, random)
    }

    fn library_in_place(&self, list: &mut [u64]) -> Result<Page, u32> {
        rows::block_page_in_place(self.schema, self.block, list)
    }

    fn reference(&self, place: u32, list: &mut [u64]) -> Result<u32, u32> {
        Ok(self.judged?.page(place, list))
    }

    fn field(&self, row: u32, field: usize) -> Result<Answer, u32> {
        self.judged?.field(row, field as u32)
    }

    fn text(&self) -> String {
        text(self.case)
    }
}

fn text(case: &Case) -> String {
    format!("\nschema {}\nblock {}", hex(&case.schema), hex(&case.block))
}

/// The library answers for padded numbers as it does for shortest ones, places by their bytes.
fn compare_twins(shortest: &Case, padded: &Case, random: &mut Random) -> Result<(), String> {
    let twins = [shortest, padded];
    let [schema, padded_schema] = twins.map(|case| Lent::input("schema", &case.schema, random));
    let [block, padded_block] = twins.map(|case| Lent::input("block", &case.block, random));
    let question =
        |call: &str| format!("{call} of the shortest twin{}\nand{}", text(shortest), text(padded));
    let columns = rows::schema_check(&schema, random)?;
    same(|| question("schema check"), rows::schema_check(&padded_schema, random), columns)?;
    let columns = columns.unwrap_or(0);
    for column in 0..=columns {
        let expected = rows::schema_column(&schema, column, random)?;
        let answer = rows::schema_column(&padded_schema, column, random);
        same(|| question("schema column"), answer, expected)?;
    }
    let count = rows::block_check(&schema, &block, random)?;
    let answer = rows::block_check(&padded_schema, &padded_block, random);
    same(|| question("block check"), answer, count)?;
    for _ in 0..8 {
        let row = any_index(random, count.unwrap_or(0) as usize);
        let column = any_index(random, columns as usize);
        let [expected, answer] =
            [(&schema, &block), (&padded_schema, &padded_block)].map(|(schema, block)| {
                let answer = rows::block_field(schema, block, row, column, random);
                by_bytes(answer, |field| field.by_bytes(block.content()))
            });
        same(|| question(&format!("block field, row {row}, column {column}")), answer, expected?)?;
    }
    let numbers = 3 * columns.max(1) as usize;
    let room = numbers * random.between(1, count.unwrap_or(0) as usize + 1);
    let place = random.below(2) as u32;
    let [expected, answer] =
        [(&schema, &block), (&padded_schema, &padded_block)].map(|(schema, block)| {
            let answer = rows::block_page(schema, block, numbers, place, room, random);
            by_bytes(answer, |page| page.by_bytes(block.content()))
        });
    same(|| question(&format!("block page from {place}, room {room}")), answer, expected?)
}

/// A schema alone: it is damaged far more often than one that comes with a block.
fn damaged_schema(random: &mut Random) -> Vec<u8> {
    let columns = generate_schema::columns(random);
    generate_schema::damaged_schema(random, &columns)
}

fn compare_schema(lent: &Lent<u8>, random: &mut Random) -> Result<(), String> {
    let bytes = lent.content();
    let expected = schema::check(bytes);
    let question = || format!("schema check {}", hex(bytes));
    same(question, rows::schema_check(lent, random), expected)?;
    let column = any_index(random, expected.unwrap_or(1) as usize);
    let expected = schema::column(bytes, column).map(|column| {
        let kind = column.kind;
        (kind.id(), column.nullable, kind.size(), kind.scale())
    });
    let question = || format!("schema column {column} of {}", hex(bytes));
    same(question, rows::schema_column(lent, column, random), expected)
}
