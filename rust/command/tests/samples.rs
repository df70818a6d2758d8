//! The sample files: every type, and a file for each refusal.

mod common;
use common::Folder;

/// Rows 0 to 3 of types.block, as samples/README.md has them.
const TYPES: [&str; 4] = [
    "true\t-1\t1250\t-70000\t1099511627776\t0.5\t-2.25\t20000\teast\tnørd\tzone 7\t0x00010203\t0xff\t0x\t\
     123.45\t-123456789012345678901.234\t43200000\t1794700000000+0ns\t1794700000000+999999ns",
    "false\tnull\tnull\tnull\tnull\tnull\tnull\tnull\tnull\tnull\tnull\tnull\tnull\tnull\tnull\tnull\tnull\tnull\tnull",
    "false\t-128\t-32768\t-2147483648\t-9223372036854775808\tNaN(0x7fc00001)\tNaN(0xfff8000000000001)\t-719162\t\t\
     \\x6eull\ttab\\tand\\\\\t0x\t0xc3\t0xdeadbeef\t-0.05\t0.007\t0\t-1+0ns\t-9223372036854775808+1ns",
    "true\t127\t32767\t2147483647\t9223372036854775807\t-0\tinf\t0\tab\t\\xc3(\tline\\nbreak\t0x00\t0x\t0x00\t\
     10000000.00\t100000000000000000000000000.000\t86399999\t0+0ns\t0+0ns",
];

/// The rows without the header line.
fn rows(folder: &Folder, words: &[&str]) -> Vec<String> {
    let run = folder.run(words);
    assert_eq!((run.status, run.err.as_str()), (0, ""), "{words:?}");
    run.text().lines().skip(1).map(str::to_string).collect()
}

#[test]
fn every_type_in_a_block() {
    let folder = Folder::new();
    assert_eq!(rows(&folder, &["block", "samples/types.schema", "samples/types.block"]), TYPES);
}

/// The same but for column 7, which is null, and column 8, which is `east`.
#[test]
fn every_type_in_a_bucket() {
    let folder = Folder::new();
    let wanted = TYPES.map(|row| {
        let mut fields: Vec<&str> = row.split('\t').collect();
        fields[7] = "null";
        fields[8] = if fields[9] == "null" { "null" } else { "east" };
        fields.join("\t")
    });
    let words = ["bucket", "samples/types.schema", "4", "samples/types.bucket"];
    assert_eq!(rows(&folder, &words), wanted);
}

/// The words that read a file of refused/.
fn reading<'a>(name: &str, path: &'a str) -> Vec<&'a str> {
    let readings = "samples/readings.schema";
    match name.rsplit('.').next().expect("an ending") {
        "bitmap" => vec!["check", path],
        "schema" => vec!["schema", path],
        "block" => vec!["block", readings, path],
        "bucket" => vec!["bucket", readings, "3", path],
        "saved" => vec!["store", "list", path],
        _ => vec!["write", "out", "-i", path],
    }
}

/// Each file of refused/ is refused by the number in its name, with status 1 and one line.
#[test]
fn refused_files() {
    let folder = Folder::new();
    let mut files = 0;
    for entry in std::fs::read_dir(folder.path("samples/refused")).expect("the folder") {
        let name = entry.expect("an entry").file_name().into_string().expect("a name");
        let number = name.split('-').next().expect("a number");
        let path = format!("samples/refused/{name}");
        let run = folder.run(&reading(&name, &path));
        let told = format!("barcovento: {path}");
        assert!(run.err.starts_with(&told), "{name}: {}", run.err);
        assert!(run.err.contains(&format!("refused {number}: ")), "{name}: {}", run.err);
        assert_eq!((run.status, run.text().as_str()), (1, ""), "{name}");
        assert_eq!(run.err.lines().count(), 1, "{name}");
        files += 1;
    }
    assert_eq!(files, 25);
    assert!(!folder.has("out"));
}
