//! Schemas, blocks and buckets, against tables laid field by field and bytes laid by hand.

mod common;

use barcovento::{raw, Block, Bucket, Field, Schema, Type};
use common::sample;
use common::table::{Cell, Table};

const TYPES: [(Type, &str); 17] = [
    (Type::Boolean, "BOOLEAN"),
    (Type::TinyInt, "TINYINT"),
    (Type::SmallInt, "SMALLINT"),
    (Type::Int, "INT"),
    (Type::BigInt, "BIGINT"),
    (Type::Float, "FLOAT"),
    (Type::Double, "DOUBLE"),
    (Type::Date, "DATE"),
    (Type::Char, "CHAR(7)"),
    (Type::Varchar, "VARCHAR(7)"),
    (Type::String, "STRING"),
    (Type::Binary, "BINARY(7)"),
    (Type::Varbinary, "VARBINARY(7)"),
    (Type::Bytes, "BYTES"),
    (Type::Decimal, "DECIMAL(7,2)"),
    (Type::Time, "TIME(7)"),
    (Type::Timestamp, "TIMESTAMP(7)"),
];

#[test]
fn every_type_of_a_schema() {
    for (id, (kind, words)) in TYPES.into_iter().enumerate() {
        let sized = words.contains('(');
        for nullable in [false, true] {
            let mut bytes = vec![1, id as u8, nullable.into()];
            bytes.extend(if sized { &[7][..] } else { &[] });
            bytes.extend(if id == 14 { &[2][..] } else { &[] });
            let schema = Schema::new(&bytes).unwrap();
            assert_eq!(schema.as_bytes(), bytes);
            let [column] = schema.columns() else { panic!("one column") };
            assert_eq!((column.kind, column.nullable), (kind, nullable));
            assert_eq!(column.size, if sized { 7 } else { 0 });
            assert_eq!(column.scale, if id == 14 { 2 } else { 0 });
            let end = if nullable { "" } else { " NOT NULL" };
            assert_eq!(column.to_string(), format!("{words}{end}"));
            assert!(words.starts_with(kind.name()));
            assert_eq!(kind.is_text(), (8..=10).contains(&id));
        }
    }
}

#[test]
fn schemas_are_refused() {
    let bad: [&[u8]; 9] = [
        &[],
        &[0],
        &[1, 3],
        &[1, 3, 2],
        &[1, 17, 0],
        &[1, 14, 0, 39, 0],
        &[1, 14, 0, 4, 5],
        &[1, 15, 0, 10],
        &[1, 3, 0, 0],
    ];
    for bytes in bad {
        assert_eq!(Schema::new(bytes).unwrap_err().number(), 20, "{bytes:?}");
    }
    let columns = |count: u8| [vec![count], [3, 0].repeat(count.into())].concat();
    assert_eq!(Schema::new(&columns(64)).unwrap().columns().len(), 64);
    assert_eq!(Schema::new(&columns(65)).unwrap_err().number(), 20);
}

/// How many rows pages have. Every page judges all rows, so of many rows there are few pages.
fn page_sizes(rows: u32) -> [u32; 5] {
    let least = rows / 100;
    [least + 1, least + 2, least + 37, rows.max(1), u32::MAX]
}

/// Everything that can be asked of a block, against its cells.
fn hold_block(table: &Table) {
    let (schema, bytes) = (Schema::new(&table.schema()).unwrap(), table.block());
    let block = Block::new(&schema, &bytes).unwrap();
    let columns = table.columns.len();
    assert_eq!((block.len(), block.is_empty()), (table.rows, table.rows == 0));
    assert_eq!(block.schema(), &schema);
    let is = |row: u32, column: usize, field| {
        assert!(table.cell(row, column).is(field), "{row} {column} {field:?}");
        if let Field::Bytes(part @ [_, ..]) = field {
            assert!(bytes.as_ptr_range().contains(&part.as_ptr()));
        }
    };
    for (row, fields) in block.rows().enumerate() {
        assert_eq!(fields.len(), columns);
        fields.into_iter().enumerate().for_each(|(i, field)| is(row as u32, i, field));
    }
    assert_eq!(block.rows().count(), table.rows as usize);
    for size in page_sizes(table.rows) {
        let mut next = 0;
        for page in block.pages(size) {
            assert_eq!((page.first(), page.columns()), (next, columns));
            assert_eq!(page.numbers().len(), 3 * columns * page.rows());
            assert!(page.rows() as u32 == size || next + page.rows() as u32 == table.rows);
            for row in 0..page.rows() {
                (0..columns).for_each(|i| is(next + row as u32, i, page.field(row, i)));
            }
            next += page.rows() as u32;
        }
        assert_eq!(next, table.rows);
    }
    for row in (0..table.rows).step_by(table.rows as usize / 40 + 1) {
        (0..columns as u32).for_each(|i| is(row, i as usize, block.field(row, i).unwrap()));
    }
}

/// Everything that can be asked of a bucket, against its cells.
fn hold_bucket(table: &Table) {
    let (schema, bytes) = (Schema::new(&table.schema()).unwrap(), table.bucket());
    let bucket = Bucket::new(&schema, table.rows, &bytes).unwrap();
    let columns = table.columns.len();
    assert_eq!((bucket.len(), bucket.is_empty()), (table.rows, table.rows == 0));
    assert_eq!(bucket.schema(), &schema);
    let is = |row: u32, column: usize, field| {
        assert!(table.cell(row, column).is(field), "{row} {column} {field:?}");
        if let Field::Bytes(part @ [_, ..]) = field {
            assert!(bytes.as_ptr_range().contains(&part.as_ptr()));
        }
    };
    for (row, fields) in bucket.rows().enumerate() {
        assert_eq!(fields.len(), columns);
        fields.into_iter().enumerate().for_each(|(i, field)| is(row as u32, i, field));
    }
    assert_eq!(bucket.rows().count(), table.rows as usize);
    for (column, size) in (0..columns).zip(page_sizes(table.rows).into_iter().cycle()) {
        let mut next = 0;
        for page in bucket.pages(column as u32, size).unwrap() {
            assert_eq!((page.first(), page.columns()), (next, 1));
            assert!(page.rows() as u32 == size || next + page.rows() as u32 == table.rows);
            (0..page.rows()).for_each(|row| is(next + row as u32, column, page.field(row, 0)));
            next += page.rows() as u32;
        }
        assert_eq!(next, table.rows);
        for row in (0..table.rows).step_by(table.rows as usize / 40 + 1) {
            is(row, column, bucket.field(row, column as u32).unwrap());
        }
    }
}

#[test]
fn blocks_and_buckets_hold_their_cells() {
    for (columns, rows) in [(1, 0), (1, 1), (20, 2), (20, 7), (64, 90), (20, 3_000), (3, 65_536)] {
        for padded in [false, true] {
            let table = Table { padded, ..Table::new(columns, rows) };
            hold_block(&table);
            hold_bucket(&table);
        }
    }
}

/// Rows that need several pages of the wrapper's own.
#[test]
fn rows_over_one_page() {
    let table = Table::new(64, 30_000);
    let schema = Schema::new(&table.schema()).unwrap();
    let (block, bucket) = (table.block(), table.bucket());
    let block = Block::new(&schema, &block).unwrap();
    let bucket = Bucket::new(&schema, table.rows, &bucket).unwrap();
    let is = |row: u32, fields: Vec<Field>| {
        fields.into_iter().enumerate().for_each(|(i, field)| assert!(table.cell(row, i).is(field)));
    };
    block.rows().enumerate().for_each(|(row, fields)| is(row as u32, fields));
    bucket.rows().enumerate().for_each(|(row, fields)| is(row as u32, fields));
    for first in [0, 1, 5_460, 5_461, 29_999, 30_000, 30_001, u32::MAX] {
        let left = 30_000u32.saturating_sub(first) as usize;
        assert_eq!(block.rows_from(first).count(), left);
        assert_eq!(bucket.rows_from(first).count(), left);
        block.rows_from(first).take(3).zip(first..).for_each(|(fields, row)| is(row, fields));
        bucket.rows_from(first).take(3).zip(first..).for_each(|(fields, row)| is(row, fields));
        assert_eq!(block.page(first, 5).rows(), left.min(5));
        assert_eq!(bucket.page(63, first, 5).unwrap().rows(), left.min(5));
    }
    let mut rows = block.rows_from(29_999);
    assert!(rows.next().is_some() && rows.next().is_none() && rows.next().is_none());
    let mut rows = bucket.rows_from(29_999);
    assert!(rows.next().is_some() && rows.next().is_none() && rows.next().is_none());
}

#[test]
fn pages_into_lent_lists() {
    let table = Table::new(4, 10);
    let schema = Schema::new(&table.schema()).unwrap();
    let (block, bucket) = (table.block(), table.bucket());
    let block = Block::new(&schema, &block).unwrap();
    let bucket = Bucket::new(&schema, 10, &bucket).unwrap();
    let mut list = [9; 40];
    assert_eq!(block.page_into(0, &mut list[..11]), 0);
    assert_eq!(list, [9; 40]);
    assert_eq!(block.page_into(7, &mut list), 3);
    assert_eq!((&list[..36], &list[36..]), (block.page(7, 99).numbers(), &[9; 4][..]));
    assert_eq!(block.page_into(10, &mut list), 0);
    assert_eq!((block.pages(0).count(), bucket.pages(0, 0).unwrap().count()), (10, 10));
    assert_eq!(bucket.page_into(1, 0, &mut list[..8]), Ok(2));
    assert_eq!(list[..6], *bucket.page(1, 0, 2).unwrap().numbers());
    assert_eq!(bucket.page_into(1, u32::MAX, &mut list), Ok(0));
    assert_eq!(bucket.page_into(4, 0, &mut list).unwrap_err().number(), 25);
    assert_eq!(bucket.page(4, 0, 1).unwrap_err().number(), 25);
    assert_eq!(bucket.pages(4, 1).unwrap_err().number(), 25);
    for (row, column) in [(10, 0), (0, 4), (u32::MAX, u32::MAX)] {
        assert_eq!(block.field(row, column).unwrap_err().number(), 25);
        assert_eq!(bucket.field(row, column).unwrap_err().number(), 25);
    }
}

#[test]
#[should_panic(expected = "column 4 of 4")]
fn a_page_has_no_more_columns() {
    let table = Table::new(4, 10);
    let (schema, bytes) = (Schema::new(&table.schema()).unwrap(), table.block());
    Block::new(&schema, &bytes).unwrap().page(0, 2).field(0, 4);
}

#[test]
#[should_panic(expected = "out of range")]
fn a_page_has_no_more_rows() {
    let table = Table::new(4, 10);
    let (schema, bytes) = (Schema::new(&table.schema()).unwrap(), table.block());
    Block::new(&schema, &bytes).unwrap().page(0, 2).field(2, 0);
}

#[test]
fn examples() {
    let int = Schema::new(&[1, 3, 0]).unwrap();
    let bytes = [0, 5, 0, 0, 0, 0, 0, 0, 0, 1, 0, 0, 0];
    let block = Block::new(&int, &bytes).unwrap();
    assert_eq!(block.rows().collect::<Vec<_>>(), [[Field::Whole(5)]]);
    assert_eq!(block.page(0, 1).numbers(), [u64::from(raw::WHOLE), 5, 0]);
    let tiny = Schema::new(&[1, 1, 0]).unwrap();
    let bucket = Bucket::new(&tiny, 3, &[1, 0, 2, 0, 2, 1, 2, 2]).unwrap();
    let rows: Vec<_> = bucket.rows().flatten().collect();
    assert_eq!(rows, [Field::Whole(1), Field::Whole(2), Field::Whole(1)]);
}

/// The rows of the samples, which have more in a block.
fn readings(last: [Field<'static>; 2]) -> Vec<Vec<Field<'static>>> {
    let time = |count| Field::Time { count, nanos: 0 };
    let [float, text] = last;
    vec![
        vec![
            time(1_794_700_000_000),
            Field::Whole(1250),
            Field::Float(0.5),
            Field::Bytes(b"north"),
        ],
        vec![time(1_794_700_001_000), Field::Null, Field::Float(-1.0), Field::Null],
        vec![time(1_794_700_002_000), Field::Whole(-3), float, text],
    ]
}

#[test]
fn samples_and_padded_samples() {
    for (name, in_block, in_bucket) in [("readings", 16, 5), ("padded", 20, 17)] {
        let schema = Schema::new(&sample(&format!("{name}.schema"))).unwrap();
        let columns: Vec<_> = schema.columns().iter().map(|column| column.to_string()).collect();
        let expected = ["TIMESTAMP(3) NOT NULL", "SMALLINT", "FLOAT NOT NULL", "VARCHAR(10)"];
        assert_eq!(columns, expected);
        let block = sample(&format!("{name}.block"));
        let block = Block::new(&schema, &block).unwrap();
        let rows: Vec<_> = block.rows().collect();
        assert_eq!(rows, readings([Field::Float(2.25), Field::Bytes(b"")]));
        assert_eq!(block.page(0, 1).numbers()[9..], [u64::from(raw::PLACE), in_block, 5]);
        let bucket = sample(&format!("{name}.bucket"));
        let bucket = Bucket::new(&schema, 3, &bucket).unwrap();
        let rows: Vec<_> = bucket.rows().collect();
        assert_eq!(rows, readings([Field::Float(0.5), Field::Null]));
        let place = bucket.page(3, 0, 1).unwrap();
        assert_eq!(place.numbers(), [u64::from(raw::PLACE), in_bucket, 5]);
    }
}

/// Quiet and signalling, of both signs.
#[test]
fn bits_of_no_number_stay() {
    let schema = Schema::new(&[2, 5, 0, 6, 0]).unwrap();
    for (float, double) in [
        (0x7F80_0001, 0x7FF0_0000_0000_0001),
        (0xFFC0_1234, 0xFFF8_0000_0000_4321),
        (0x8000_0000, 0x8000_0000_0000_0000),
    ] {
        let [little, big] = [
            [&u32::to_le_bytes(float)[..], &u64::to_le_bytes(double)].concat(),
            [&u32::to_be_bytes(float)[..], &u64::to_be_bytes(double)].concat(),
        ];
        let block = [&[0], &little[..], &[0, 0, 0, 0, 1, 0, 0, 0]].concat();
        let bucket = [&[2, 0, 0, 0], &big[..]].concat();
        let block = Block::new(&schema, &block).unwrap();
        let bucket = Bucket::new(&schema, 1, &bucket).unwrap();
        let cells = [Cell::Float(float), Cell::Double(double)];
        for (i, cell) in cells.iter().enumerate() {
            assert!(cell.is(block.field(0, i as u32).unwrap()));
            assert!(cell.is(bucket.field(0, i as u32).unwrap()));
            assert!(cell.is(block.page(0, 1).field(0, i)));
            assert!(cell.is(bucket.page(i as u32, 0, 1).unwrap().field(0, 0)));
        }
    }
}

#[test]
fn blocks_are_refused() {
    let schema = Schema::new(&[1, 3, 0]).unwrap();
    let none = [0, 0, 0, 0];
    let long = vec![0; 16_777_217];
    let many = [vec![0; 65_537 * 9], 65_537u32.to_le_bytes().to_vec()].concat();
    let bad: [(u32, &[u8]); 11] = [
        (21, &[0, 0, 0]),
        (21, &long),
        (22, &[0xFF, 0xFF, 0xFF, 0xFF]),
        (22, &many),
        (22, &[1, 0, 0, 0]),
        (23, &[9, 0, 0, 0, 0]),
        (23, &[0, 5, 0, 0, 0, 1, 0, 0, 0, 1, 0, 0, 0]),
        (23, &[0, 5, 0, 0, 0, 9, 0, 0, 0, 0, 1, 0, 0, 0]),
        (24, &[1, 0, 0, 0, 0, 1, 0, 0, 0]),
        (24, &[2, 5, 0, 0, 0, 0, 0, 0, 0, 1, 0, 0, 0]),
        (24, &[0, 5, 0, 0, 0, 0, 0, 0, 1, 0, 0, 0]),
    ];
    for (number, bytes) in bad {
        assert_eq!(Block::new(&schema, bytes).unwrap_err().number(), number);
    }
    assert!(Block::new(&schema, &none).unwrap().rows().next().is_none());
}

#[test]
fn buckets_are_refused() {
    let tiny = Schema::new(&[1, 1, 0]).unwrap();
    let yes_no = Schema::new(&[1, 0, 1]).unwrap();
    let long = vec![0; 16_777_217];
    let bad: [(u32, &Schema, u32, &[u8]); 15] = [
        (37, &tiny, 3, &long),
        (37, &tiny, 65_537, &[1, 0, 2, 0, 2, 1, 2, 2]),
        (30, &tiny, 3, &[2, 0, 2, 0, 2, 1, 2, 2]),
        (30, &tiny, 3, &[1, 1, 2, 0, 2, 1, 2, 2]),
        (30, &tiny, 3, &[0xFF, 0xFF, 0xFF, 0xFF, 0xFF, 0]),
        (31, &tiny, 3, &[0x81, 0x80]),
        (31, &tiny, 3, &[1, 0, 2, 0, 2, 1, 2]),
        (32, &yes_no, 1, &[1, 0, 0, 0, 2]),
        (33, &tiny, 3, &[1, 0, 2, 0, 1, 1, 0]),
        (33, &tiny, 1, &[1, 0, 2, 0, 3, 1, 2, 3, 3]),
        (34, &tiny, 3, &[1, 0, 6, 0, 2, 1, 2, 2]),
        (34, &tiny, 3, &[1, 0, 2, 0, 2, 1, 2, 0x82]),
        (35, &tiny, 3, &[1, 0, 3, 0]),
        (35, &tiny, 1, &[1, 0, 0, 1, 1]),
        (36, &tiny, 3, &[1, 0, 2, 0, 2, 1, 2, 2, 0]),
    ];
    for (number, schema, rows, bytes) in bad {
        assert_eq!(Bucket::new(schema, rows, bytes).unwrap_err().number(), number, "{rows}");
    }
    let none = Bucket::new(&yes_no, 2, &[1, 0, 3, 0]).unwrap();
    assert_eq!(none.rows().collect::<Vec<_>>(), [[Field::Null], [Field::Null]]);
}
