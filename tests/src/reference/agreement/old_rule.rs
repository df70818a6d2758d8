//! The rule of today against the old one, by which a padded number was ill-formed: what the old rule
//! accepts is accepted with the same answers, and the two differ only over a padded number.

use crate::generate::schema::{columns, damaged_schema, lay_schema};
use crate::generate::{self, numbers::Numbers, Random};
use crate::reference::buckets::Bucket;
use crate::reference::rows::Block;
use crate::reference::varint::old;
use crate::reference::{schema, Answer, Refusal};
use std::fmt::Debug;

const CASES: usize = 6000;
/// Rows asked for in each case.
const ROWS: u32 = 20;

/// How often both rules accepted, only today's did, or they refused with different numbers.
#[derive(Default)]
struct Outcomes {
    both: usize,
    only_today: usize,
    other_refusal: usize,
    padded: usize,
}

impl Outcomes {
    fn compare<T: Debug + PartialEq>(&mut self, question: impl Fn() -> Result<T, Refusal>) {
        let (today, padded) = old::ask_today(&question);
        let before = old::ask(&question);
        self.padded += usize::from(padded);
        if before.is_ok() {
            assert_eq!(today, before);
            assert!(!padded, "the old rule accepts a padded number");
            self.both += 1;
        } else if today != before {
            assert!(padded, "{today:?} today, {before:?} before, no number padded");
            self.only_today += usize::from(today.is_ok());
            self.other_refusal += usize::from(today.is_err());
        }
    }

    /// The generators reach every outcome, and often.
    fn enough(&self) {
        let Outcomes { both, only_today, other_refusal, padded } = *self;
        assert!(both > CASES / 10 && only_today > CASES / 10 && other_refusal > CASES / 50);
        assert!((CASES / 5..CASES / 2).contains(&padded));
    }
}

/// The answers of the first rows' fields.
fn fields(
    rows: u32,
    columns: u32,
    ask: impl Fn(u32, u32) -> Result<Answer, Refusal>,
) -> Vec<Result<Answer, Refusal>> {
    let mut answers = Vec::new();
    for row in 0..=rows.min(ROWS) {
        answers.extend((0..=columns).map(|column| ask(row, column)));
    }
    answers
}

#[test]
fn schemas() {
    let mut random = Random::new(6);
    let mut outcomes = Outcomes::default();
    for case in 0..CASES {
        let columns = columns(&mut random);
        let bytes = match case % 2 {
            0 => lay_schema(&columns, &mut Numbers::any(&mut random)),
            _ => damaged_schema(&mut random, &columns),
        };
        outcomes.compare(|| schema::read(&bytes));
    }
    // Every fault of a schema is 20.
    assert_eq!(outcomes.other_refusal, 0);
    outcomes.other_refusal = CASES;
    outcomes.enough();
}

#[test]
fn blocks() {
    let mut random = Random::new(7);
    let mut outcomes = Outcomes::default();
    for case in 0..CASES {
        let case = match case % 2 {
            0 => generate::rows::sound_with_content(&mut random).0,
            _ => generate::rows::damaged(&mut random),
        };
        outcomes.compare(|| {
            let block = Block::judge(&case.schema, &case.block)?;
            let columns = schema::check(&case.schema)?;
            Ok(fields(block.rows() as u32, columns, |row, column| block.field(row, column)))
        });
    }
    outcomes.enough();
}

#[test]
fn buckets() {
    let mut random = Random::new(8);
    let mut outcomes = Outcomes::default();
    for case in 0..CASES {
        let case = match case % 2 {
            0 => generate::buckets::sound_with_content(&mut random).0,
            _ => generate::buckets::damaged(&mut random),
        };
        outcomes.compare(|| {
            let bucket = Bucket::judge(&case.schema, case.rows, &case.bucket)?;
            let columns = schema::check(&case.schema)?;
            Ok(fields(case.rows, columns, |row, column| bucket.field(row, column)))
        });
    }
    outcomes.enough();
}
