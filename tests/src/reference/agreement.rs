//! The second program against plain lists and against what the generators laid out.

use super::bitmap::{self, Bitmap, Operation, OPERATIONS};
use super::buckets::Bucket;
use super::rows::Block;
use super::schema::Type;
use super::Answer;
use crate::generate::schema::Value;
use crate::generate::{self, Random};
use std::collections::BTreeSet;

mod old_rule;
mod packing;

fn form(set: &[u32]) -> Vec<u8> {
    let mut out = vec![0; 267_366];
    let length = bitmap::write(set, &mut out).unwrap();
    out.truncate(length);
    out
}

#[test]
fn sound_bitmaps_stand_for_their_set() {
    let mut random = Random::new(1);
    for _ in 0..3000 {
        let set = generate::bitmap::set(&mut random);
        let bytes = generate::bitmap::sound(&mut random, &set);
        let judged = Bitmap::judge(&bytes).unwrap();
        assert!(judged.members() == set);
        assert_eq!(judged.cardinality() as usize, set.len());
        let written = form(&set);
        assert!(Bitmap::judge(&written).unwrap().members() == set);
        for _ in 0..20 {
            let position = random.below(set.last().map_or(10, |&last| last as usize + 300)) as u32;
            assert_eq!(judged.contains(position), set.binary_search(&position).is_ok());
            let below = set.partition_point(|&member| member < position);
            assert_eq!(judged.rank(position) as usize, below);
        }
    }
}

#[test]
fn edges_of_bitmaps() {
    let outcome = |number| bitmap::check(&generate::bitmap::edge(number).unwrap());
    assert_eq!(outcome(0), Ok(2_097_152));
    assert_eq!(generate::bitmap::edge(0).unwrap().len(), 278_598);
    assert_eq!(outcome(1), Ok(0));
    assert_eq!(outcome(2), Err(3));
    assert_eq!(outcome(3), Ok(2_097_152));
}

#[test]
fn both_ways_to_write_256_are_edges() {
    let one_form = vec![1, 1, 0, 0, 2, 0, 0x01, 0, 0, 0x40, 0];
    let longer = vec![1, 1, 0, 0, 2, 0, 0x10, 1, 0, 1, 0x80, 0];
    assert!((0..8000).any(|number| generate::bitmap::edge(number).as_ref() == Some(&longer)));
    assert_eq!(generate::bitmap::edge_list(5), Some(vec![256]));
    let pairs = [528, 529, 530].map(|number| generate::bitmap::edge_pair(number).unwrap());
    let expected = [(&longer, &longer), (&longer, &one_form), (&one_form, &longer)];
    assert_eq!(pairs.each_ref().map(|(a, b)| (a, b)), expected);
}

/// tests/self-test has two numbers of cases: of most groups, and of bitmap_read. Edges begin at case 1,000.
#[test]
fn the_self_test_reaches_all_edges() {
    let number = |text: &str| text.lines().next().and_then(|line| line.parse::<u64>().ok());
    let script = include_str!("../../self-test");
    let edges: Vec<u64> = script.split("cases=").filter_map(number).map(|n| n - 1000).collect();
    let [most, read] = edges[..] else { panic!("{} numbers of cases", edges.len()) };
    assert!(generate::bitmap::edge(read).is_none());
    assert!(generate::bitmap::edge_list(most).is_none());
    assert!(generate::bitmap::edge_pair(most).is_none());
    assert!(generate::numbers::edge(most).is_none());
    assert!(generate::rows::edge(most).is_none());
    assert!(generate::buckets::edge(most).is_none());
}

#[test]
fn combining_is_the_operation_on_members() {
    let mut random = Random::new(2);
    for _ in 0..500 {
        let first = generate::bitmap::set(&mut random);
        let second = generate::bitmap::related_set(&mut random, &first);
        let a = generate::bitmap::sound(&mut random, &first);
        let b = generate::bitmap::sound(&mut random, &second);
        let first: BTreeSet<u32> = first.into_iter().collect();
        let second: BTreeSet<u32> = second.into_iter().collect();
        for operation in OPERATIONS {
            let expected: Vec<u32> = match operation {
                Operation::Union => first.union(&second).copied().collect(),
                Operation::Intersection => first.intersection(&second).copied().collect(),
                Operation::Difference => first.difference(&second).copied().collect(),
                Operation::SymmetricDifference => {
                    first.symmetric_difference(&second).copied().collect()
                }
            };
            let mut out = vec![0; 267_366];
            let length = bitmap::combine(operation, &a, &b, &mut out).unwrap();
            assert!(out[..length] == form(&expected));
        }
    }
}

/// Whether the answer shows the value. `nanos_over` is the precision over which nanoseconds are stored.
fn shows(answer: Answer, kind: Type, value: &Option<Value>, bytes: &[u8], nanos_over: u32) -> bool {
    match (value, answer) {
        (None, answer) => answer == Answer::Null,
        (Some(Value::Counted(content)), Answer::Place { start, length }) => {
            bytes[start..start + length] == content[..]
        }
        (Some(Value::Time { count, nanos }), answer) => {
            let nanos = if kind.size() > nanos_over { *nanos } else { 0 };
            answer == Answer::Time { count: *count as i64, nanos }
        }
        (Some(Value::Bits(bits)), answer) => answer == plain_answer(kind, *bits),
        _ => false,
    }
}

fn plain_answer(kind: Type, bits: u64) -> Answer {
    match kind {
        Type::Boolean => Answer::YesNo(bits == 1),
        Type::TinyInt => Answer::Whole((bits as i8).into()),
        Type::SmallInt => Answer::Whole((bits as i16).into()),
        Type::Integer | Type::Date | Type::Time { .. } => Answer::Whole((bits as i32).into()),
        Type::Float => Answer::Float(bits as u32),
        Type::Double => Answer::Double(bits),
        _ => Answer::Whole(bits as i64),
    }
}

#[test]
fn sound_blocks_show_their_values() {
    let mut random = Random::new(3);
    for _ in 0..3000 {
        let (case, columns, rows) = generate::rows::sound_with_content(&mut random);
        let block = Block::judge(&case.schema, &case.block).unwrap();
        assert_eq!(block.rows(), rows.len());
        for (i, row) in rows.iter().enumerate() {
            for (j, value) in row.iter().enumerate() {
                let answer = block.field(i as u32, j as u32).unwrap();
                assert!(shows(answer, columns[j].kind, value, &case.block, 3));
            }
        }
    }
}

/// Some pages give the numbers of the fields, and leave the rest of the list.
fn pages_show(
    random: &mut Random,
    rows: usize,
    columns: usize,
    page: impl Fn(u32, &mut [u64]) -> u32,
    field: impl Fn(usize, usize) -> Answer,
) {
    for _ in 0..3 {
        let place = random.below(rows + 2);
        let mut list = vec![7; random.below(3 * columns * (rows + 2))];
        let given = page(place as u32, &mut list) as usize;
        assert_eq!(given, rows.saturating_sub(place).min(list.len() / (3 * columns)));
        let (fields, rest) = list.split_at(3 * columns * given);
        for (i, numbers) in fields.chunks(3).enumerate().take(300) {
            assert_eq!(numbers, field(place + i / columns, i % columns).numbers());
        }
        assert!(rest.iter().all(|&number| number == 7));
    }
}

#[test]
fn pages_of_blocks_show_the_fields() {
    let mut random = Random::new(8);
    for _ in 0..2000 {
        let (case, columns, rows) = generate::rows::sound_with_content(&mut random);
        let block = Block::judge(&case.schema, &case.block).unwrap();
        let field = |row: usize, column: usize| block.field(row as u32, column as u32).unwrap();
        let page = |place, list: &mut [u64]| block.page(place, list);
        pages_show(&mut random, rows.len(), columns.len(), page, field);
    }
}

#[test]
fn pages_of_buckets_show_the_fields() {
    let mut random = Random::new(9);
    for _ in 0..1000 {
        let (case, columns) = generate::buckets::sound_with_content(&mut random);
        let bucket = Bucket::judge(&case.schema, case.rows, &case.bucket).unwrap();
        for column in 0..columns.len() as u32 {
            let field = |row: usize, _| bucket.field(row as u32, column).unwrap();
            let page = |place, list: &mut [u64]| bucket.page(column, place, list).unwrap();
            pages_show(&mut random, case.rows as usize, 1, page, field);
        }
    }
}

#[test]
fn edges_of_blocks() {
    let outcome = |number| {
        let case = generate::rows::edge(number).unwrap();
        super::rows::check(&case.schema, &case.block)
    };
    assert_eq!([0, 1, 2, 3].map(outcome), [Ok(65_536), Err(22), Ok(1), Err(21)]);
    let edges = (4..).map_while(generate::rows::edge);
    let mut outcomes: Vec<_> =
        edges.map(|case| super::rows::check(&case.schema, &case.block)).collect();
    let full = outcomes.split_off(75);
    assert_eq!(full, [vec![Ok(70); 8], vec![Ok(65_536)]].concat());
    // All forms of a number have one outcome.
    outcomes.dedup();
    let schemas = [Ok(0), Err(20), Ok(0), Err(20), Ok(0)];
    let rows = [Ok(1), Err(24), Ok(1), Err(24)];
    assert_eq!(outcomes, [&schemas[..], &rows].concat());
}

#[test]
fn sound_buckets_show_their_values() {
    let mut random = Random::new(4);
    for _ in 0..3000 {
        let (case, columns) = generate::buckets::sound_with_content(&mut random);
        let bucket = Bucket::judge(&case.schema, case.rows, &case.bucket).unwrap();
        for (j, (column, cells)) in columns.iter().enumerate() {
            for (i, value) in cells.iter().enumerate().take(500) {
                let answer = bucket.field(i as u32, j as u32).unwrap();
                assert!(shows(answer, column.kind, value, &case.bucket, 6));
            }
        }
    }
}

#[test]
fn edges_of_buckets() {
    let outcome = |number| {
        let case = generate::buckets::edge(number).unwrap();
        super::buckets::check(&case.schema, case.rows, &case.bucket)
    };
    assert_eq!([0, 1, 2, 3].map(outcome), [Ok(()), Err(37), Ok(()), Err(37)]);
    let edges = (4..).map_while(generate::buckets::edge);
    let mut outcomes: Vec<u32> = edges
        .map(|case| super::buckets::check(&case.schema, case.rows, &case.bucket))
        .map(|outcome| outcome.err().unwrap_or(0))
        .collect();
    assert_eq!(outcomes.split_off(84), [0; 33]);
    // All forms of a number have one outcome.
    outcomes.dedup();
    assert_eq!(outcomes, [0, 30, 0, 30, 0, 33, 0, 31, 0, 31, 32, 0]);
}
