//! The verbs check, list, ask and write.

mod common;
use common::{Folder, ZONE};

/// A bitmap for each refusal, and the words for it.
const REFUSED: [(&[u8], &str); 12] = [
    (&[1, 0], "refused 1: 2 bytes, under 6"),
    (&[], "refused 1: 0 bytes, under 6"),
    (&[2, 0, 0, 0, 0, 0], "refused 2: version 2, not 1"),
    (&[1, 0, 0, 0, 1, 32], "refused 3: 8193 containers, over 8192"),
    (&[1, 0, 0, 0, 1, 0], "refused 4: chunk 0 at byte 6: descriptors cut short"),
    (
        &[1, 0, 0, 0, 1, 0, 9, 0, 0],
        "refused 5: chunk 0 at byte 6: b1, b2 and e break the width rules",
    ),
    (
        &[1, 0, 0, 0, 2, 0, 16, 1, 0, 2, 128],
        "refused 6: chunk 0: the exception offset at byte 9 is not rising or too high",
    ),
    (&[1, 0, 0, 0, 2, 0, 16, 1, 0, 1, 192, 0], "refused 7: chunk 0: spare bits set at byte 10"),
    (&[1, 0, 0, 0, 1, 0, 0, 0, 64], "refused 8: chunk 0 at byte 6: descriptor 64, over 63"),
    (
        &[1, 3, 0, 0, 1, 0, 0, 0, 3, 0, 34],
        "refused 9: the containers start at byte 9: 2 bytes there, 3 asked for",
    ),
    (
        &[1, 3, 0, 0, 1, 0, 0, 0, 3, 0, 0, 255],
        "refused 10: container 0 at byte 9 is not rising, or is dense with under 32 members",
    ),
    (&[1, 4, 0, 0, 1, 0, 0, 0, 3, 0, 34, 255], "refused 11: cardinality 4 stored, 3 counted"),
];

#[test]
fn check_tells_each_bitmap() {
    let folder = Folder::new();
    folder.put("empty.bitmap", &[1, 0, 0, 0, 0, 0]);
    folder.prints(
        &["check", "samples/zone.bitmap", "samples/last.bitmap", "empty.bitmap"],
        "samples/zone.bitmap: 3 members\nsamples/last.bitmap: 1 member\nempty.bitmap: 0 members\n",
    );
    folder.prints(&["check", "--quiet", "samples/zone.bitmap", "samples/last.bitmap"], "");
    let run = folder.run_on(&["check", "samples/zone.bitmap", "-"], &ZONE);
    assert_eq!(run.text(), "samples/zone.bitmap: 3 members\n-: 3 members\n");
    assert_eq!((run.status, run.err.as_str()), (0, ""));
}

#[test]
fn every_refusal_has_its_words() {
    let folder = Folder::new();
    for (bytes, words) in REFUSED {
        folder.put("bad.bitmap", bytes);
        let line = format!("bad.bitmap: {words}");
        folder.fails(&["check", "bad.bitmap"], 1, &line);
        folder.fails(&["list", "bad.bitmap"], 1, &line);
        folder.fails(&["ask", "bad.bitmap", "0"], 1, &line);
        folder.fails(&["union", "samples/zone.bitmap", "bad.bitmap", "-o", "out"], 1, &line);
        let on_input = folder.run_on(&["check", "-"], bytes);
        assert_eq!(on_input.err, format!("barcovento: standard input: {words}\n"));
    }
}

#[test]
fn check_goes_on_behind_faults() {
    let folder = Folder::new();
    folder.put("bad.bitmap", &[2, 0, 0, 0, 0, 0]);
    let run = folder.run(&["check", "bad.bitmap", "samples/zone.bitmap"]);
    assert_eq!(run.status, 1);
    assert_eq!(run.text(), "samples/zone.bitmap: 3 members\n");
    assert_eq!(run.err, "barcovento: bad.bitmap: refused 2: version 2, not 1\n");

    let words = ["check", "-q", "absent", "bad.bitmap", "samples", "samples/zone.bitmap"];
    let run = folder.run(&words);
    assert_eq!((run.status, run.text().as_str()), (2, ""));
    assert_eq!(
        run.err,
        "barcovento: absent: No such file or directory\n\
         barcovento: bad.bitmap: refused 2: version 2, not 1\n\
         barcovento: samples: Is a directory\n"
    );
}

#[test]
fn threads_change_nothing() {
    let folder = Folder::new();
    for index in 0..500 {
        let bytes = REFUSED.get(index % 40).map_or(ZONE.as_slice(), |(bytes, _)| bytes);
        folder.put(&format!("{index}.bitmap"), bytes);
    }
    let names: Vec<String> = (0..600).map(|index| format!("{index}.bitmap")).collect();
    let run = |options: &[&str]| {
        let names = names.iter().map(String::as_str);
        let words: Vec<&str> = ["check"].iter().chain(options).copied().chain(names).collect();
        folder.run(&words)
    };
    let one = run(&[]);
    assert_eq!(one.status, 2);
    assert_eq!(one.text().lines().count(), 500 - 13 * 12);
    assert_eq!(one.err.lines().count(), 100 + 13 * 12);
    for options in
        [["-j1"].as_slice(), &["-j", "2"], &["--threads=4"], &["-j100000000000000000000"]]
    {
        assert_eq!(run(options), one, "{options:?}");
    }
    let quiet = run(&["-q", "-j4"]);
    assert_eq!((quiet.text().as_str(), quiet.err, quiet.status), ("", one.err, 2));
}

#[test]
fn outputs_on_one_stream_keep_the_order() {
    let folder = Folder::new();
    folder.put("bad", &[]);
    let run = folder.shell("$B check samples/zone.bitmap bad samples/dense.bitmap 2>&1");
    assert_eq!(
        run.text(),
        "samples/zone.bitmap: 3 members\n\
         barcovento: bad: refused 1: 0 bytes, under 6\n\
         samples/dense.bitmap: 32 members\n"
    );
}

#[test]
fn a_name_stays_in_its_line() {
    let folder = Folder::new();
    folder.put("two\nlines", &ZONE);
    folder.prints(&["check", "two\nlines"], "two\\x0alines: 3 members\n");
    let run = folder.shell("name=$(printf 'a\\377'); cp samples/zone.bitmap $name; $B check $name");
    assert_eq!((run.out.as_slice(), run.status), (b"a\xFF: 3 members\n".as_slice(), 0));
    folder.fails(&["check", "no\tfile"], 2, "no\\x09file: No such file or directory");
    folder.fails(&["check", ""], 2, "'': No such file or directory");
}

#[test]
fn no_bitmap_over_a_mebibyte_is_read() {
    let folder = Folder::new();
    folder.put("long", &vec![1; (1 << 20) + 1]);
    folder.fails(&["check", "long"], 2, "long: longer than 1048576 bytes");
    folder.fails(&["list", "/dev/zero"], 2, "/dev/zero: longer than 1048576 bytes");
    folder.put("long", &vec![2; 1 << 20]);
    folder.fails(&["check", "long"], 1, "long: refused 2: version 2, not 1");
}

#[test]
fn list_prints_members() {
    let folder = Folder::new();
    folder.prints(&["list", "samples/zone.bitmap"], "0\n34\n255\n");
    folder.prints(&["list", "samples/last.bitmap"], "2097151\n");
    let dense: String = (0..32).map(|member| format!("{member}\n")).collect();
    folder.prints(&["list", "samples/dense.bitmap"], &dense);
    folder.put("empty", &[1, 0, 0, 0, 0, 0]);
    folder.prints(&["list", "empty"], "");
    assert_eq!(folder.run_on(&["list", "-"], &ZONE).text(), "0\n34\n255\n");
}

#[test]
fn ask_tells_membership_and_rank() {
    let folder = Folder::new();
    folder.prints(
        &["ask", "samples/zone.bitmap", "255", "0", "33", "034", "256", "4294967295"],
        "255\tyes\t2\n0\tyes\t0\n33\tno\t1\n34\tyes\t1\n256\tno\t3\n4294967295\tno\t3\n",
    );
    for word in ["4294967296", "x", "", "1.5", "+1", "99999999999999999999999"] {
        let line =
            format!("'{word}' is no number from 0 to 4294967295; try 'barcovento ask --help'");
        folder.fails(&["ask", "samples/zone.bitmap", "0", word], 2, &line);
    }
}

#[test]
fn write_makes_the_one_form() {
    let folder = Folder::new();
    let run = folder.run_on(&["write", "out"], b"0\n\n  34\t\r\n   \n255");
    assert_eq!((run.status, run.err.as_str(), folder.get("out")), (0, "", ZONE.to_vec()));
    assert_eq!(folder.run_on(&["write", "-"], b"0\n34\n255\n").out, ZONE);
    assert_eq!(folder.run_on(&["write", "-"], b"").out, [1, 0, 0, 0, 0, 0]);
    folder.put("positions", b"2097151\n");
    let last = folder.get("samples/last.bitmap");
    assert_eq!(folder.run(&["write", "-", "-i", "positions"]).out, last);
    assert_eq!(folder.run_on(&["write", "-i", "-", "-"], b"2097151").out, last);
    let run = folder.run_on(&["write", "--sort", "-"], b"255\n0\n34\n255\n0\n");
    assert_eq!((run.status, run.out), (0, ZONE.to_vec()));
}

#[test]
fn write_and_list_all_positions() {
    let folder = Folder::new();
    let rising: String = (0..2_097_152).map(|position| format!("{position}\n")).collect();
    folder.put("rising", rising.as_bytes());
    folder.prints(&["write", "full", "-i", "rising"], "");
    folder.prints(&["check", "full"], "full: 2097152 members\n");
    assert_eq!(folder.run(&["list", "full"]).out, rising.as_bytes());
    let falling: String = (0..2_097_152).rev().map(|position| format!("{position}\n")).collect();
    let run = folder.run_on(&["write", "sorted", "--sort"], falling.as_bytes());
    assert_eq!((run.status, folder.get("sorted")), (0, folder.get("full")));
}

#[test]
fn write_tells_the_line_at_fault() {
    let folder = Folder::new();
    let refused = "refused 12: positions not strictly rising or too big";
    for (input, line) in [
        ("1\n\n5\n5\n", format!("standard input: line 4: {refused}")),
        ("5\n1\n", format!("standard input: line 2: {refused}")),
        ("2097152\n", format!("standard input: line 1: {refused}")),
        ("1\n99999999999999999999999999\n", format!("standard input: line 2: {refused}")),
    ] {
        let run = folder.run_on(&["write", "out"], input.as_bytes());
        assert_eq!((run.status, run.err), (1, format!("barcovento: {line}\n")));
    }
    let run = folder.run_on(&["write", "--sort", "out"], b"5\n1\n2097152\n");
    assert_eq!(
        (run.status, run.err),
        (1, format!("barcovento: standard input: line 3: {refused}\n"))
    );
    folder.put("words", b"1\n\n two \n3\n");
    folder.fails(&["write", "out", "-i", "words"], 2, "words: line 3: 'two' is no position");
    folder.put("words", b"-1\n");
    folder.fails(&["write", "out", "-i", "words"], 2, "words: line 1: '-1' is no position");
    folder.put("words", &[b'1'; 5000]);
    folder.fails(&["write", "out", "-i", "words"], 2, "words: line 1: over 4096 bytes");
    assert_eq!(folder.names(), ["words"]);
}

#[test]
fn write_keeps_to_the_room() {
    let folder = Folder::new();
    let fault = "barcovento: out: refused 13: written form longer than its room\n";
    for (room, status) in [("12", 0), ("11", 1), ("0", 1), ("99999999999999999999999", 0)] {
        let run = folder.run_on(&["write", "out", "--room", room], b"0\n34\n255\n");
        assert_eq!((run.status, run.err.as_str()), (status, if status == 0 { "" } else { fault }));
    }
    let run = folder.run_on(&["write", "out", "--room=x"], b"");
    let line = "barcovento: 'x' is no number for bytes of room; try 'barcovento write --help'\n";
    assert_eq!((run.status, run.err.as_str()), (2, line));
}

#[test]
fn threads_work_side_by_side() {
    let folder = Folder::new();
    // The second pipe is filled first: one thread alone would wait for the first one for ever.
    let run = folder.shell(
        "mkfifo one two; (cat samples/zone.bitmap >two; cat samples/dense.bitmap >one) & \
         $B check -j2 one two; wait",
    );
    assert_eq!((run.text().as_str(), run.status), ("one: 32 members\ntwo: 3 members\n", 0));
}
