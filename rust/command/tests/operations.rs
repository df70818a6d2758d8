//! The verbs union, intersection, difference and symmetric-difference.

mod common;
use common::{Folder, ZONE};

/// A folder with the bitmaps a, b and c of these sets.
fn folder() -> Folder {
    let folder = Folder::new();
    for (name, positions) in [("a", "1\n2\n3\n700\n"), ("b", "2\n3\n4\n"), ("c", "3\n4\n5\n")] {
        assert_eq!(folder.run_on(&["write", name], positions.as_bytes()).status, 0);
    }
    folder
}

/// The members that the operation on the inputs makes.
fn members(folder: &Folder, verb: &str, inputs: &[&str]) -> String {
    let words: Vec<&str> = [verb].iter().chain(inputs).chain(&["-o", "out"]).copied().collect();
    folder.prints(&words, "");
    folder.run(&["list", "out"]).text().replace('\n', " ")
}

#[test]
fn two_inputs() {
    let folder = folder();
    assert_eq!(members(&folder, "union", &["a", "b"]), "1 2 3 4 700 ");
    assert_eq!(members(&folder, "intersection", &["a", "b"]), "2 3 ");
    assert_eq!(members(&folder, "difference", &["a", "b"]), "1 700 ");
    assert_eq!(members(&folder, "symmetric-difference", &["a", "b"]), "1 4 700 ");
    assert_eq!(members(&folder, "union", &["a", "a"]), "1 2 3 700 ");
    assert_eq!(members(&folder, "symmetric-difference", &["a", "a"]), "");
    assert_eq!(folder.get("out"), [1, 0, 0, 0, 0, 0]);
}

#[test]
fn more_inputs_from_the_left() {
    let folder = folder();
    assert_eq!(members(&folder, "union", &["a", "b", "c"]), "1 2 3 4 5 700 ");
    assert_eq!(members(&folder, "intersection", &["a", "b", "c"]), "3 ");
    assert_eq!(members(&folder, "difference", &["a", "b", "c"]), "1 700 ");
    assert_eq!(members(&folder, "difference", &["b", "a", "c"]), "");
    assert_eq!(members(&folder, "symmetric-difference", &["a", "b", "c"]), "1 3 5 700 ");
    assert_eq!(members(&folder, "union", &["a", "b", "c", "a", "b"]), "1 2 3 4 5 700 ");
}

#[test]
fn standard_input_and_output() {
    let folder = Folder::new();
    let run = folder.run_on(&["union", "-", "samples/zone.bitmap", "-o", "-"], &[1, 0, 0, 0, 0, 0]);
    assert_eq!((run.status, run.out, run.err.as_str()), (0, ZONE.to_vec(), ""));
    let line = "standard input ('-') can be read only once; try 'barcovento union --help'";
    folder.fails(&["union", "-", "-", "-o", "-"], 2, line);
    let line = "standard input ('-') can be read only once; try 'barcovento check --help'";
    folder.fails(&["check", "-", "samples/zone.bitmap", "-"], 2, line);
}

#[test]
fn the_refused_input_is_named() {
    let folder = folder();
    folder.put("bad", &[2, 0, 0, 0, 0, 0]);
    let line = "bad: refused 2: version 2, not 1";
    for inputs in [["bad", "a", "b"], ["a", "bad", "b"], ["a", "b", "bad"]] {
        let words: Vec<&str> =
            ["intersection"].iter().chain(&inputs).chain(&["-o", "out"]).copied().collect();
        folder.fails(&words, 1, line);
    }
    folder.put("worse", &[]);
    folder.fails(&["union", "worse", "bad", "-o", "out"], 1, "worse: refused 1: 0 bytes, under 6");
    let line = "absent: No such file or directory";
    folder.fails(&["union", "a", "absent", "-o", "out"], 2, line);
    assert!(!folder.has("out"));
}

#[test]
fn the_form_keeps_to_the_room() {
    let folder = folder();
    let zone = "samples/zone.bitmap";
    folder.prints(&["union", zone, zone, "-o", "out", "--room=12"], "");
    let line = "out: refused 13: written form longer than its room";
    folder.fails(&["union", zone, zone, "-o", "out", "--room=11"], 1, line);
    assert_eq!(folder.get("out"), ZONE);
    // What lies between may be longer than the room.
    let words = ["intersection", "samples/last.bitmap", "samples/last.bitmap", "a", "-o", "out"];
    let words: Vec<&str> = words.iter().chain(&["--room", "6"]).copied().collect();
    folder.prints(&words, "");
    assert_eq!(folder.get("out"), [1, 0, 0, 0, 0, 0]);
}

#[test]
fn wrong_use() {
    let folder = folder();
    let line = "-o OUT is missing; try 'barcovento union --help'";
    folder.fails(&["union", "a", "b"], 2, line);
    let line = "the second FILE is missing; try 'barcovento difference --help'";
    folder.fails(&["difference", "a", "-o", "out"], 2, line);
    let line = "the first FILE is missing; try 'barcovento union --help'";
    folder.fails(&["union", "-o", "out"], 2, line);
}
