//! The verbs schema, block and bucket.

mod common;
use common::Folder;

const READINGS: &str = "samples/readings.schema";
const HEADER: &str = "TIMESTAMP(3) NOT NULL\tSMALLINT\tFLOAT NOT NULL\tVARCHAR(10)\n";
const ROWS: [&str; 3] = [
    "1794700000000+0ns\t1250\t0.5\tnorth\n",
    "1794700001000+0ns\tnull\t-1\tnull\n",
    "1794700002000+0ns\t-3\t2.25\t\n",
];
const JSON: [&str; 3] = [
    "[{\"count\":1794700000000,\"nanos\":0},1250,0.5,\"north\"]\n",
    "[{\"count\":1794700001000,\"nanos\":0},null,-1,null]\n",
    "[{\"count\":1794700002000,\"nanos\":0},-3,2.25,\"\"]\n",
];

/// A block of these rows.
fn lay(rows: &[Vec<u8>]) -> Vec<u8> {
    let mut block = rows.concat();
    let mut offset = 0_u32;
    for row in rows {
        block.extend(offset.to_le_bytes());
        offset += row.len() as u32;
    }
    block.extend((rows.len() as u32).to_le_bytes());
    block
}

/// A row of one column: its field, or no value.
fn row_of(field: Option<&[u8]>) -> Vec<u8> {
    [&[u8::from(field.is_none())], field.unwrap_or_default()].concat()
}

/// A field with its length, in groups of seven bits, before it.
fn with_length(bytes: &[u8]) -> Vec<u8> {
    let mut field = Vec::new();
    let mut rest = bytes.len();
    while rest >= 128 {
        field.push(rest as u8 | 128);
        rest >>= 7;
    }
    field.push(rest as u8);
    [field.as_slice(), bytes].concat()
}

/// Prints the fields of one column as text and as JSON, and compares each with what is wanted.
fn column_prints(kind: &[u8], name: &str, fields: &[(Option<Vec<u8>>, &str, &str)]) {
    let folder = Folder::new();
    folder.put("schema", &[&[1], kind].concat());
    let rows: Vec<Vec<u8>> = fields.iter().map(|(field, ..)| row_of(field.as_deref())).collect();
    folder.put("block", &lay(&rows));
    folder.prints(&["schema", "schema"], &format!("0\t{name}\n"));
    let text: String = fields.iter().map(|(_, text, _)| format!("{text}\n")).collect();
    folder.prints(&["block", "schema", "block"], &format!("{name}\n{text}"));
    let json: String = fields.iter().map(|(.., json)| format!("[{json}]\n")).collect();
    folder.prints(&["block", "--json", "schema", "block"], &json);
    for line in json.lines() {
        assert!(is_json(line), "{line}");
    }
}

/// Fields that are there.
fn there<'a>(fields: &[(&[u8], &'a str, &'a str)]) -> Vec<(Option<Vec<u8>>, &'a str, &'a str)> {
    fields.iter().map(|(bytes, text, json)| (Some(bytes.to_vec()), *text, *json)).collect()
}

/// Fields that are there, each behind its length.
fn long<'a>(fields: &[(&[u8], &'a str, &'a str)]) -> Vec<(Option<Vec<u8>>, &'a str, &'a str)> {
    fields.iter().map(|(bytes, text, json)| (Some(with_length(bytes)), *text, *json)).collect()
}

#[test]
fn schema_prints_columns() {
    let folder = Folder::new();
    let columns = "0\tTIMESTAMP(3) NOT NULL\n1\tSMALLINT\n2\tFLOAT NOT NULL\n3\tVARCHAR(10)\n";
    folder.prints(&["schema", READINGS], columns);
    folder.prints(&["schema", "samples/padded.schema"], columns);
    assert_eq!(folder.run_on(&["schema", "-"], &folder.get(READINGS)).text(), columns);
    folder.fails(
        &["schema", "samples/zone.bitmap"],
        1,
        "samples/zone.bitmap: refused 20: schema bad",
    );
    folder.fails(&["schema", "/dev/zero"], 2, "/dev/zero: longer than 65536 bytes");
    folder.put(
        "all",
        &[
            &[17, 0, 1, 1, 0, 2, 1, 3, 1, 4, 1, 5, 1, 6, 1, 7, 1, 8, 1, 5, 9, 1, 6, 10, 1][..],
            &[11, 1, 7, 12, 1, 8, 13, 1, 14, 1, 20, 3, 15, 1, 0, 16, 0, 9],
        ]
        .concat(),
    );
    folder.prints(
        &["schema", "all"],
        "0\tBOOLEAN\n1\tTINYINT NOT NULL\n2\tSMALLINT\n3\tINT\n4\tBIGINT\n5\tFLOAT\n6\tDOUBLE\n7\tDATE\n\
         8\tCHAR(5)\n9\tVARCHAR(6)\n10\tSTRING\n11\tBINARY(7)\n12\tVARBINARY(8)\n13\tBYTES\n\
         14\tDECIMAL(20,3)\n15\tTIME(0)\n16\tTIMESTAMP(9) NOT NULL\n",
    );
}

#[test]
fn block_prints_the_samples() {
    let folder = Folder::new();
    let whole = [HEADER, ROWS[0], ROWS[1], ROWS[2]].concat();
    folder.prints(&["block", READINGS, "samples/readings.block"], &whole);
    folder.prints(&["block", "samples/padded.schema", "samples/padded.block"], &whole);
    folder.prints(&["block", "--json", READINGS, "samples/readings.block"], &JSON.concat());
    let run = folder.run_on(&["block", READINGS, "-"], &folder.get("samples/readings.block"));
    assert_eq!((run.text(), run.status), (whole, 0));
    let line = "standard input ('-') can be read only once; try 'barcovento block --help'";
    folder.fails(&["block", "-", "-"], 2, line);
}

#[test]
fn bucket_prints_the_samples() {
    let folder = Folder::new();
    let last = "1794700002000+0ns\t-3\t0.5\tnull\n";
    let whole = [HEADER, ROWS[0], ROWS[1], last].concat();
    folder.prints(&["bucket", READINGS, "3", "samples/readings.bucket"], &whole);
    folder.prints(&["bucket", "samples/padded.schema", "3", "samples/padded.bucket"], &whole);
    let last = "[{\"count\":1794700002000,\"nanos\":0},-3,0.5,null]\n";
    let whole = [JSON[0], JSON[1], last].concat();
    folder.prints(&["bucket", READINGS, "3", "samples/readings.bucket", "--json"], &whole);
    let words = ["bucket", "--rows=1..2", READINGS, "3", "samples/readings.bucket"];
    folder.prints(&words, &[HEADER, ROWS[1]].concat());
}

#[test]
fn a_part_of_the_rows() {
    let folder = Folder::new();
    for (rows, wanted) in [
        ("0..3", [0, 1, 2].as_slice()),
        ("..", &[0, 1, 2]),
        ("1..", &[1, 2]),
        ("..1", &[0]),
        ("..0", &[]),
        ("1..2", &[1]),
        ("2..2", &[]),
        ("3..", &[]),
        ("2..99", &[2]),
        ("70000..99999999999999999999999", &[]),
        ("4294967295..", &[]),
    ] {
        let text: String = wanted.iter().map(|row| ROWS[*row]).collect();
        let words = ["block", "--rows", rows, READINGS, "samples/readings.block"];
        folder.prints(&words, &[HEADER, &text].concat());
        let json: String = wanted.iter().map(|row| JSON[*row]).collect();
        let words = ["block", "--json", "--rows", rows, READINGS, "samples/readings.block"];
        folder.prints(&words, &json);
    }
    for rows in ["", "1", "a..b", "3..2", "1..2..3", "1...2", "-1..", "1.2"] {
        let line =
            format!("'{rows}' is no range of rows, as 10..20 is; try 'barcovento block --help'");
        let words = ["block", "--rows", rows, READINGS, "samples/readings.block"];
        folder.fails(&words, 2, &line);
    }
}

#[test]
fn floats() {
    let float = |bits: u32| bits.to_le_bytes();
    let of_bits = |bits: u32| float(bits).to_vec();
    column_prints(
        &[5, 1],
        "FLOAT",
        &[
            (None, "null", "null"),
            (Some(of_bits(0)), "0", "0"),
            (Some(of_bits(0x8000_0000)), "-0", "-0"),
            (Some(of_bits(0x3DCC_CCCD)), "0.1", "0.1"),
            (Some(of_bits(0x4B80_0000)), "16777216", "16777216"),
            (Some(of_bits(0x7F80_0000)), "inf", "{\"bits\":\"0x7f800000\"}"),
            (Some(of_bits(0xFF80_0000)), "-inf", "{\"bits\":\"0xff800000\"}"),
            (Some(of_bits(0x7FC0_0000)), "NaN(0x7fc00000)", "{\"bits\":\"0x7fc00000\"}"),
            (Some(of_bits(0xFF80_0001)), "NaN(0xff800001)", "{\"bits\":\"0xff800001\"}"),
        ],
    );
    let double = |bits: u64| Some(bits.to_le_bytes().to_vec());
    column_prints(
        &[6, 1],
        "DOUBLE",
        &[
            (double(0x3FB9_9999_9999_999A), "0.1", "0.1"),
            (double(0x8000_0000_0000_0000), "-0", "-0"),
            (
                double(0x7FF0_0000_0000_0001),
                "NaN(0x7ff0000000000001)",
                "{\"bits\":\"0x7ff0000000000001\"}",
            ),
            (double(0xFFF0_0000_0000_0000), "-inf", "{\"bits\":\"0xfff0000000000000\"}"),
            (None, "null", "null"),
        ],
    );
}

#[test]
fn whole_numbers_and_times() {
    let negative = (-5_i64).to_le_bytes();
    let least = i64::MIN.to_le_bytes();
    column_prints(
        &[4, 0],
        "BIGINT NOT NULL",
        &there(&[
            (&negative, "-5", "-5"),
            (&least, "-9223372036854775808", "-9223372036854775808"),
        ]),
    );
    column_prints(
        &[0, 1],
        "BOOLEAN",
        &[
            (Some(vec![1]), "true", "true"),
            (Some(vec![0]), "false", "false"),
            (None, "null", "null"),
        ],
    );
    let small = [negative.as_slice(), &[0xBF, 0x84, 0x3D]].concat();
    let none = [negative.as_slice(), &[0]].concat();
    column_prints(
        &[16, 0, 9],
        "TIMESTAMP(9) NOT NULL",
        &there(&[
            (&small, "-5+999999ns", "{\"count\":-5,\"nanos\":999999}"),
            (&none, "-5+0ns", "{\"count\":-5,\"nanos\":0}"),
        ]),
    );
}

#[test]
fn small_decimals() {
    let number = |number: i64| number.to_le_bytes();
    column_prints(
        &[14, 0, 18, 3],
        "DECIMAL(18,3) NOT NULL",
        &there(&[
            (&number(0), "0.000", "\"0.000\""),
            (&number(-5), "-0.005", "\"-0.005\""),
            (&number(-12_345), "-12.345", "\"-12.345\""),
            (&number(i64::MIN), "-9223372036854775.808", "\"-9223372036854775.808\""),
        ]),
    );
}

#[test]
fn large_decimals() {
    column_prints(
        &[14, 0, 19, 0],
        "DECIMAL(19,0) NOT NULL",
        &long(&[
            (&[0xFF], "-1", "\"-1\""),
            (&[0x00, 0xFF], "255", "\"255\""),
            (&[0x80, 0x00], "-32768", "\"-32768\""),
        ]),
    );
    let two_to_136 = [&[1][..], &[0; 17]].concat();
    column_prints(
        &[14, 0, 38, 38],
        "DECIMAL(38,38) NOT NULL",
        &long(&[
            (
                &[0],
                "0.00000000000000000000000000000000000000",
                "\"0.00000000000000000000000000000000000000\"",
            ),
            (
                &[0xFF; 130],
                "-0.00000000000000000000000000000000000001",
                "\"-0.00000000000000000000000000000000000001\"",
            ),
            (
                &two_to_136,
                "871.12285931760246646623899502532662132736",
                "\"871.12285931760246646623899502532662132736\"",
            ),
        ]),
    );
}

#[test]
fn texts() {
    column_prints(
        &[10, 0],
        "STRING NOT NULL",
        &long(&[
            (b"", "", "\"\""),
            (b"null", "\\x6eull", "\"null\""),
            (b"\null", "\\null", "\"\\null\""),
            (b"\\null", "\\\\null", "\"\\\\null\""),
            (b"nulls", "nulls", "\"nulls\""),
            (b"a\tb\nc\rd\\e\"f", "a\\tb\\nc\\rd\\\\e\"f", "\"a\\tb\\nc\\rd\\\\e\\\"f\""),
            (b"\x00\x1b[1m\x7f", "\\x00\\x1b[1m\\x7f", "\"\\u0000\\u001b[1m\\u007f\""),
            ("ñ \u{85}€".as_bytes(), "ñ \\xc2\\x85€", "\"ñ \\u0085€\""),
            (b"a\xFFb\xC3", "a\\xffb\\xc3", "{\"hex\":\"61ff62c3\"}"),
        ]),
    );
    let mut with_null = long(&[(b"null", "\\x6eull", "\"null\"")]);
    with_null.push((None, "null", "null"));
    column_prints(&[9, 1, 3], "VARCHAR(3)", &with_null);
}

#[test]
fn bytes() {
    column_prints(
        &[13, 0],
        "BYTES NOT NULL",
        &long(&[
            (b"", "0x", "{\"hex\":\"\"}"),
            (&[0, 255, 10], "0x00ff0a", "{\"hex\":\"00ff0a\"}"),
            (b"null", "0x6e756c6c", "{\"hex\":\"6e756c6c\"}"),
        ]),
    );
}

#[test]
fn refusals() {
    let folder = Folder::new();
    folder.put("bad.schema", &[0]);
    folder.put("empty", &[]);
    folder.fails(&["block", "bad.schema", "empty"], 1, "bad.schema: refused 20: schema bad");
    let line = "empty: refused 21: block under 4 bytes or too long";
    folder.fails(&["block", READINGS, "empty"], 1, line);
    folder.fails(&["block", READINGS, "/dev/zero"], 1, &line.replace("empty", "/dev/zero"));
    folder.put("short", &[0; 8]);
    let line = "short: refused 23: rows and offsets don't touch";
    folder.fails(&["block", READINGS, "short"], 1, line);
    let line = "empty: refused 31: bucket cut short";
    folder.fails(&["bucket", READINGS, "3", "empty"], 1, line);
    let line = "samples/readings.bucket: refused 37: bucket too long or over 65,536 rows";
    for rows in ["65537", "99999999999999999999"] {
        folder.fails(&["bucket", READINGS, rows, "samples/readings.bucket"], 1, line);
    }
    let line = "/dev/zero: refused 37: bucket too long or over 65,536 rows";
    folder.fails(&["bucket", READINGS, "3", "/dev/zero"], 1, line);
    let line = "'-3' is no number for rows; try 'barcovento bucket --help'";
    folder.fails(&["bucket", "--", READINGS, "-3", "samples/readings.bucket"], 2, line);
    let line = "absent: No such file or directory";
    folder.fails(&["block", READINGS, "absent"], 2, line);
    folder.fails(&["block", "absent", "samples/readings.block"], 2, line);
}

#[test]
fn no_rows() {
    let folder = Folder::new();
    folder.put("none", &[0; 4]);
    folder.prints(&["block", READINGS, "none"], HEADER);
    folder.prints(&["block", READINGS, "none", "--json"], "");
    folder.prints(&["block", READINGS, "none", "--rows", "5..9"], HEADER);
    folder.put("schema", &[1, 1, 0]);
    folder.put("bucket", &[1, 0, 0, 0]);
    folder.prints(&["bucket", "schema", "0", "bucket"], "TINYINT NOT NULL\n");
}

#[test]
fn many_rows_by_pages() {
    let folder = Folder::new();
    folder.put("schema", &[&[64][..], &[3, 0].repeat(64)].concat());
    let rows: Vec<Vec<u8>> = (0..16_000_u32)
        .map(|row| {
            let fields = (0..64).flat_map(|column| (row * 64 + column).to_le_bytes());
            [0; 8].into_iter().chain(fields).collect()
        })
        .collect();
    folder.put("block", &lay(&rows));
    let line = |row: u32| {
        let fields: Vec<String> = (0..64).map(|column| (row * 64 + column).to_string()).collect();
        fields.join("\t")
    };
    let text = folder.run(&["block", "schema", "block"]).text();
    let mut lines = text.lines().skip(1);
    for row in 0..16_000 {
        assert_eq!(lines.next(), Some(line(row).as_str()));
    }
    assert_eq!(lines.next(), None);
    let text = folder.run(&["block", "schema", "block", "--rows", "5461..5463"]).text();
    let lines: Vec<&str> = text.lines().skip(1).collect();
    assert_eq!(lines, [line(5461), line(5462)]);
}

/// Whether the text is one JSON value.
fn is_json(text: &str) -> bool {
    value(text.as_bytes()).is_some_and(<[u8]>::is_empty)
}

/// What is left behind a JSON value.
fn value(text: &[u8]) -> Option<&[u8]> {
    match text.first()? {
        b'"' => string(&text[1..]),
        b'[' => list(&text[1..], b']', value),
        b'{' => list(&text[1..], b'}', |member| {
            value(string(member.strip_prefix(b"\"")?)?.strip_prefix(b":")?)
        }),
        b'n' => text.strip_prefix(b"null"),
        b't' => text.strip_prefix(b"true"),
        b'f' => text.strip_prefix(b"false"),
        _ => number(text),
    }
}

/// What is left behind elements and the bracket that ends them.
fn list(text: &[u8], end: u8, element: impl Fn(&[u8]) -> Option<&[u8]>) -> Option<&[u8]> {
    if text.first() == Some(&end) {
        return Some(&text[1..]);
    }
    let mut rest = element(text)?;
    while rest.first() == Some(&b',') {
        rest = element(&rest[1..])?;
    }
    (rest.first() == Some(&end)).then(|| &rest[1..])
}

/// What is left behind a string, whose first quote is gone.
fn string(text: &[u8]) -> Option<&[u8]> {
    match text {
        [b'"', rest @ ..] => Some(rest),
        [b'\\', b'u', a, b, c, d, rest @ ..] => {
            [a, b, c, d].iter().all(|digit| digit.is_ascii_hexdigit()).then_some(())?;
            string(rest)
        }
        [b'\\', letter, rest @ ..] => {
            b"\"\\/bfnrt".contains(letter).then_some(())?;
            string(rest)
        }
        [0..=31, ..] | [] => None,
        [_, rest @ ..] => string(rest),
    }
}

/// What is left behind a number.
fn number(text: &[u8]) -> Option<&[u8]> {
    let rest = text.strip_prefix(b"-").unwrap_or(text);
    let digits = |text: &[u8]| text.iter().take_while(|byte| byte.is_ascii_digit()).count();
    let whole = digits(rest);
    if whole == 0 || whole > 1 && rest[0] == b'0' {
        return None;
    }
    let Some(fraction) = rest[whole..].strip_prefix(b".") else { return Some(&rest[whole..]) };
    match digits(fraction) {
        0 => None,
        more => Some(&fraction[more..]),
    }
}

#[test]
fn the_json_check_can_fail() {
    for text in ["[1,\"a\\u0000\",{\"a\":-0.5},null,true,[]]", "\"\"", "{}"] {
        assert!(is_json(text), "{text}");
    }
    for text in ["[1,]", "[01]", "\"\\x41\"", "\"\t\"", "[1", "{a:1}", "nul", "inf", "1.", "[] "] {
        assert!(!is_json(text), "{text}");
    }
}
