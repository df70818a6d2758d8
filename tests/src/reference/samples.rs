//! The files of samples/ hold what samples/README.md says.

use super::bitmap::{self, Bitmap};
use super::{buckets, rows, schema, store, Answer};
use std::collections::BTreeSet;
use std::fs;
use std::path::Path;

fn sample(name: &str) -> Vec<u8> {
    let package = Path::new(env!("CARGO_MANIFEST_DIR"));
    fs::read(package.join("../samples").join(name)).unwrap()
}

fn time(count: i64) -> Answer {
    Answer::Time { count, nanos: 0 }
}

fn float(value: f32) -> Answer {
    Answer::Float(value.to_bits())
}

#[test]
fn bitmaps() {
    let members = |name| Bitmap::judge(&sample(name)).unwrap().members();
    assert_eq!(members("zone.bitmap"), [0, 34, 255]);
    assert_eq!(members("dense.bitmap"), (0..32).collect::<Vec<_>>());
    assert_eq!(members("last.bitmap"), [2_097_151]);
    assert_eq!(members("foreign.bitmap"), [256]);
    let sizes = ["zone.bitmap", "dense.bitmap", "last.bitmap"].map(|name| sample(name).len());
    assert_eq!(sizes, [12, 41, 105]);
}

/// Those that are in their one written form, and the form of the one that is not.
#[test]
fn forms() {
    let form = |name| {
        let members = Bitmap::judge(&sample(name)).unwrap().members();
        let mut out = vec![0; 300_000];
        let length = bitmap::write(&members, &mut out).unwrap();
        out[..length].to_vec()
    };
    for name in ["zone.bitmap", "dense.bitmap", "last.bitmap", "night-1.bitmap", "night-2.bitmap"] {
        assert_eq!(form(name), sample(name), "{name}");
    }
    assert_eq!((form("foreign.bitmap").len(), sample("foreign.bitmap").len()), (11, 12));
}

/// The positions of a disc's pixels in a frame of 640 by 480.
fn disc(x: i64, y: i64, radius: i64) -> Vec<u32> {
    let inside = |&p: &i64| (p % 640 - x).pow(2) + (p / 640 - y).pow(2) <= radius * radius;
    (0..640 * 480).filter(inside).map(|p| p as u32).collect()
}

#[test]
fn nights() {
    let nights = [("night-1.bitmap", disc(320, 240, 40)), ("night-2.bitmap", disc(326, 238, 42))];
    for (name, pixels) in &nights {
        assert_eq!(Bitmap::judge(&sample(name)).unwrap().members(), *pixels);
    }
    let [first, second] = nights.map(|(_, pixels)| BTreeSet::from_iter(pixels));
    assert_eq!((first.len(), second.len()), (5_025, 5_525));
    assert_eq!(first.symmetric_difference(&second).count(), 1_082);
}

/// Saved from a store that the samples were put into; it loads into a buffer of 210 bytes, whose halves take
/// the first two of the samples, and the last.
#[test]
fn saved_store() {
    let held = [(0, "zone.bitmap"), (7, "dense.bitmap"), (63, "last.bitmap")];
    let (mut buffer, mut directory) = ([0; 210], [0; 128]);
    for (slot, name) in held {
        let put = store::put(&mut buffer, &mut directory, slot / 32, slot, &sample(name));
        assert_eq!(put, Ok(()));
    }
    let mut saved = [0; 222];
    assert_eq!(store::save(&buffer, &directory, &mut saved), Ok(222));
    assert_eq!(sample("store.saved"), saved);
    let (mut buffer, mut directory) = ([0; 210], [0; 128]);
    assert_eq!(store::load(&mut buffer, &mut directory, &saved), Ok(()));
    for slot in 0..64 {
        let mut out = [0; 105];
        let fetched = store::fetch(&buffer, &directory, slot / 32, slot, &mut out);
        match held.iter().find(|(filled, _)| *filled == slot) {
            Some((_, name)) => assert_eq!(out[..fetched.unwrap()], sample(name)),
            None => assert_eq!(fetched, Err(41)),
        }
    }
    assert_eq!(store::load(&mut buffer[..209], &mut directory, &saved), Err(42));
}

#[test]
fn block() {
    let (schema, block) = (sample("readings.schema"), sample("readings.block"));
    let row = |row| [0, 1, 2].map(|column| rows::field(&schema, &block, row, column).unwrap());
    assert_eq!(row(0), [time(1_794_700_000_000), Answer::Whole(1250), float(0.5)]);
    assert_eq!(row(1), [time(1_794_700_001_000), Answer::Null, float(-1.0)]);
    assert_eq!(row(2), [time(1_794_700_002_000), Answer::Whole(-3), float(2.25)]);
    let text = |row| match rows::field(&schema, &block, row, 3).unwrap() {
        Answer::Place { start, length } => Some(block[start..start + length].to_vec()),
        _ => None,
    };
    assert_eq!([0, 1, 2].map(text), [Some(b"north".to_vec()), None, Some(Vec::new())]);
}

#[test]
fn bucket() {
    let (schema, bucket) = (sample("readings.schema"), sample("readings.bucket"));
    let ask = |row, column| buckets::field(&schema, 3, &bucket, row, column).unwrap();
    let row = |row| [0, 1, 2].map(|column| ask(row, column));
    assert_eq!(row(0), [time(1_794_700_000_000), Answer::Whole(1250), float(0.5)]);
    assert_eq!(row(1), [time(1_794_700_001_000), Answer::Null, float(-1.0)]);
    assert_eq!(row(2), [time(1_794_700_002_000), Answer::Whole(-3), float(0.5)]);
    let text = |row| match ask(row, 3) {
        Answer::Place { start, length } => Some(bucket[start..start + length].to_vec()),
        _ => None,
    };
    assert_eq!([0, 1, 2].map(text), [Some(b"north".to_vec()), None, None]);
}

/// An answer by the bytes of its place.
fn by_bytes(answer: Answer, bytes: &[u8]) -> (Answer, &[u8]) {
    match answer {
        Answer::Place { start, length } => {
            (Answer::Place { start: 0, length }, &bytes[start..start + length])
        }
        _ => (answer, &[]),
    }
}

/// Four bytes more for each number: count, precision and length; two lengths; count, children, length
/// and entries.
#[test]
fn padded_sizes() {
    let more =
        |name| sample(&format!("padded.{name}")).len() - sample(&format!("readings.{name}")).len();
    assert_eq!(["schema", "block", "bucket"].map(more), [3 * 4, 2 * 4, 4 * 4]);
}

#[test]
fn padded_answers() {
    let [shortest, padded] = ["readings", "padded"]
        .map(|name| ["schema", "block", "bucket"].map(|kind| sample(&format!("{name}.{kind}"))));
    assert_eq!(schema::read(&padded[0]), schema::read(&shortest[0]));
    for (row, column) in (0..3).flat_map(|row| (0..4).map(move |column| (row, column))) {
        let [first, second] = [&shortest, &padded].map(|[schema, block, bucket]| {
            let field = rows::field(schema, block, row, column).unwrap();
            let value = buckets::field(schema, 3, bucket, row, column).unwrap();
            (by_bytes(field, block), by_bytes(value, bucket))
        });
        assert_eq!(second, first, "row {row}, column {column}");
    }
    let place = Answer::Place { start: 20, length: 5 };
    assert_eq!(rows::field(&padded[0], &padded[1], 0, 3), Ok(place));
}

/// What a field of types.block or types.bucket shows, places by their bytes.
enum Shown {
    Says(Answer),
    Part(&'static [u8]),
}

use Shown::{Part, Says};

/// Rows 0, 2 and 3 of types.block, as the list in samples/README.md has them, column by column.
fn types_rows() -> [[Shown; 3]; 19] {
    let yes = |yes| Says(Answer::YesNo(yes));
    let whole = |whole| Says(Answer::Whole(whole));
    let float = |bits| Says(Answer::Float(bits));
    let double = |bits| Says(Answer::Double(bits));
    let time = |count, nanos| Says(Answer::Time { count, nanos });
    let hundred = &[1, 67, 30, 15, 174, 109, 114, 23, 202, 160, 0, 0, 0];
    [
        [yes(true), yes(false), yes(true)],
        [whole(-1), whole(-128), whole(127)],
        [whole(1_250), whole(-32_768), whole(32_767)],
        [whole(-70_000), whole(i32::MIN.into()), whole(i32::MAX.into())],
        [whole(1 << 40), whole(i64::MIN), whole(i64::MAX)],
        [float(0.5f32.to_bits()), float(0x7FC0_0001), float(0x8000_0000)],
        [double((-2.25f64).to_bits()), double(0xFFF8_0000_0000_0001), double(0x7FF0 << 48)],
        [whole(20_000), whole(-719_162), whole(0)],
        [Part(b"east"), Part(b""), Part(b"ab")],
        [Part("nørd".as_bytes()), Part(b"null"), Part(b"\xC3\x28")],
        [Part(b"zone 7"), Part(b"tab\tand\\"), Part(b"line\nbreak")],
        [Part(&[0, 1, 2, 3]), Part(b""), Part(&[0])],
        [Part(&[0xFF]), Part(&[0xC3]), Part(b"")],
        [Part(b""), Part(&[0xDE, 0xAD, 0xBE, 0xEF]), Part(&[0])],
        [whole(12_345), whole(-5), whole(1_000_000_000)],
        [Part(&[229, 219, 100, 224, 239, 95, 147, 105, 80, 14]), Part(&[7]), Part(hundred)],
        [whole(43_200_000), whole(0), whole(86_399_999)],
        [time(1_794_700_000_000, 0), time(-1, 0), time(0, 0)],
        [time(1_794_700_000_000, 999_999), time(i64::MIN, 1), time(0, 0)],
    ]
}

/// What a file has in place of the list: whether a row and column is null there, and a part.
type Instead = fn(u32, u32) -> Option<Option<&'static [u8]>>;

fn hold_types(bytes: &[u8], instead: Instead, ask: impl Fn(u32, u32) -> Result<Answer, u32>) {
    for (column, shown) in (0..).zip(types_rows()) {
        let first = if column == 0 { Answer::YesNo(false) } else { Answer::Null };
        assert_eq!(ask(1, column), Ok(first));
        for (row, shown) in [0, 2, 3].into_iter().zip(shown) {
            let answer = ask(row, column).unwrap();
            let (answer, part) = by_bytes(answer, bytes);
            match (instead(row, column), shown) {
                (Some(None), _) => assert_eq!(answer, Answer::Null),
                (Some(Some(other)), _) => assert_eq!(part, other),
                (None, Says(wanted)) => assert_eq!(answer, wanted, "row {row}, column {column}"),
                (None, Part(wanted)) => {
                    assert!(matches!(answer, Answer::Place { .. }));
                    assert_eq!(part, wanted, "row {row}, column {column}");
                }
            }
        }
    }
}

#[test]
fn types() {
    let [schema, block, bucket] =
        ["schema", "block", "bucket"].map(|kind| sample(&format!("types.{kind}")));
    let columns = schema::read(&schema).unwrap();
    assert_eq!(columns.len(), 19);
    assert!((0..19).all(|i| columns[i].nullable == (i > 0)));
    assert_eq!(rows::check(&schema, &block), Ok(4));
    hold_types(&block, |_, _| None, |row, column| rows::field(&schema, &block, row, column));
    let instead = |_, column| match column {
        7 => Some(None),
        8 => Some(Some("east".as_bytes())),
        _ => None,
    };
    hold_types(&bucket, instead, |row, column| buckets::field(&schema, 4, &bucket, row, column));
    assert_eq!(buckets::check(&schema, 5, &bucket), Err(31));
}

/// The refusal of a file of refused/, by what its ending says it is.
fn refusal(kind: &str, bytes: &[u8]) -> Option<u32> {
    let readings = sample("readings.schema");
    match kind {
        "bitmap" => Bitmap::judge(bytes).err(),
        "schema" => schema::read(bytes).err(),
        "block" => rows::check(&readings, bytes).err(),
        "bucket" => buckets::check(&readings, 3, bytes).err(),
        "saved" => store::load(&mut [0; 1_000], &mut [0; 128], bytes).err(),
        "txt" => {
            let text = std::str::from_utf8(bytes).unwrap();
            let positions: Vec<u32> = text.lines().map(|line| line.parse().unwrap()).collect();
            bitmap::write(&positions, &mut [0; 1_000]).err()
        }
        _ => panic!("no format is called '{kind}'"),
    }
}

/// Every file of refused/ is refused by the number it is named by, and all of the numbers that a file can
/// show are there, each in a line of samples/README.md.
#[test]
fn refused() {
    let folder = Path::new(env!("CARGO_MANIFEST_DIR")).join("../samples/refused");
    let list = String::from_utf8(sample("README.md")).unwrap();
    let mut numbers = BTreeSet::new();
    for entry in fs::read_dir(folder).unwrap() {
        let name = entry.unwrap().file_name().into_string().unwrap();
        let (number, rest) = name.split_once('-').unwrap();
        let (_, kind) = rest.split_once('.').unwrap();
        let number: u32 = number.parse().unwrap();
        let bytes = sample(&format!("refused/{name}"));
        assert_eq!(refusal(kind, &bytes), Some(number), "{name}");
        assert!(list.contains(&format!("| {name} |")), "{name} is not in samples/README.md");
        numbers.insert(number);
    }
    assert_eq!(numbers, (1..=12).chain(20..=24).chain(30..=36).chain([42]).collect());
}
