//! The verbs store put, store fetch, store drop and store list.

mod common;
use common::{Folder, ZONE};

const SAVED: &str = "samples/store.saved";
const TABLE: &str = "slot\towner\tmembers\tbytes\n0\t0\t3\t12\n7\t0\t32\t41\n63\t1\t1\t105\n";

#[test]
fn list_is_a_table() {
    let folder = Folder::new();
    folder.prints(&["store", "list", SAVED], TABLE);
    let header = "slot\towner\tmembers\tbytes\n";
    let own = [header, "0\t0\t3\t12\n7\t0\t32\t41\n"].concat();
    folder.prints(&["store", "list", SAVED, "--owner", "0"], &own);
    folder.prints(&["store", "list", "--owner=1", SAVED], &[header, "63\t1\t1\t105\n"].concat());
    folder.put("empty", &[0; 64]);
    folder.prints(&["store", "list", "empty"], header);
    assert_eq!(folder.run_on(&["store", "list", "-"], &folder.get(SAVED)).text(), TABLE);
}

#[test]
fn put_builds_the_sample() {
    let folder = Folder::new();
    let run = folder.run(&["store", "put", "new", "0", "samples/zone.bitmap"]);
    assert_eq!((run.status, run.text().as_str()), (0, ""));
    assert_eq!(run.err, "barcovento: creating new\n");
    folder.prints(&["store", "put", "new", "7", "samples/zone.bitmap"], "");
    folder.prints(&["store", "put", "new", "7", "samples/dense.bitmap"], "");
    folder.prints(&["store", "put", "--owner", "1", "new", "63", "samples/last.bitmap"], "");
    assert_eq!(folder.get("new"), folder.get(SAVED));
}

#[test]
fn put_takes_the_written_form() {
    let folder = Folder::new();
    folder.put("other", &[1, 1, 0, 0, 2, 0, 16, 1, 0, 0, 128, 0]);
    assert_eq!(folder.run(&["store", "put", "new", "1", "other"]).status, 0);
    let run = folder.run(&["store", "fetch", "new", "1", "-"]);
    assert_eq!((run.status, run.out), (0, vec![1, 1, 0, 0, 1, 0, 0, 0, 1, 0]));
}

#[test]
fn fetch_and_drop() {
    let folder = Folder::new();
    folder.prints(&["store", "fetch", SAVED, "0", "out"], "");
    assert_eq!(folder.get("out"), ZONE);
    folder.prints(&["store", "fetch", SAVED, "63", "out", "--owner", "1", "--room", "105"], "");
    assert_eq!(folder.get("out"), folder.get("samples/last.bitmap"));
    folder.prints(&["store", "drop", SAVED, "7"], "");
    let left = "slot\towner\tmembers\tbytes\n0\t0\t3\t12\n63\t1\t1\t105\n";
    folder.prints(&["store", "list", SAVED], left);
}

#[test]
fn a_store_through_pipes() {
    let folder = Folder::new();
    let saved = folder.get(SAVED);
    let put = folder.run_on(&["store", "put", "-", "3", "samples/zone.bitmap"], &saved);
    assert_eq!((put.status, put.err.as_str()), (0, ""));
    let dropped = folder.run_on(&["store", "drop", "-", "3"], &put.out);
    assert_eq!(dropped.out, saved);
    let fetched = folder.run_on(&["store", "fetch", "-", "0", "-"], &put.out);
    assert_eq!(fetched.out, ZONE);
    let run = folder.run_on(&["store", "put", SAVED, "3", "-"], &ZONE);
    assert_eq!((run.status, folder.get(SAVED)), (0, put.out));
    let line = "standard input ('-') can be read only once; try 'barcovento store put --help'";
    folder.fails(&["store", "put", "-", "3", "-"], 2, line);
}

#[test]
fn refusals() {
    let folder = Folder::new();
    let zone = "samples/zone.bitmap";
    let over = "samples/store.saved: refused 40: store: slot number over 63";
    let absent = "samples/store.saved: refused 41: store: fetch or drop of an empty slot";
    let foreign = "samples/store.saved: refused 44: store: a slot that is not the owner's";
    let room = "samples/store.saved: refused 13: written form longer than its room";
    for (words, line) in [
        (["put", SAVED, "64", zone].as_slice(), over),
        (&["put", SAVED, "99999999999999", zone], over),
        (&["fetch", SAVED, "64", "out"], over),
        (&["drop", SAVED, "64"], over),
        (&["fetch", SAVED, "1", "out"], absent),
        (&["drop", SAVED, "1"], absent),
        (&["put", SAVED, "40", zone], foreign),
        (&["put", SAVED, "7", zone, "--owner=1"], foreign),
        (&["fetch", SAVED, "63", "out"], foreign),
        (&["drop", SAVED, "63"], foreign),
        (&["put", SAVED, "1", "samples/last.bitmap", "--room", "210"], room),
        (
            &["fetch", SAVED, "0", "out", "--room=11"],
            "out: refused 13: written form longer than its room",
        ),
    ] {
        let before = folder.get(SAVED);
        folder.fails(&[&["store"], words].concat(), 1, line);
        assert_eq!(folder.get(SAVED), before);
    }
    assert!(folder.names().is_empty());
}

#[test]
fn the_room_of_a_store() {
    let folder = Folder::new();
    let words =
        "refused 42: store: not written forms lying apart, or a saved store that is bad or \
                 does not fit";
    let line = format!("{SAVED}: {words}");
    // The last form needs a half of 105 bytes.
    folder.fails(&["store", "drop", SAVED, "0", "--room", "209"], 1, &line);
    folder.fails(&["store", "put", SAVED, "0", "samples/zone.bitmap", "--room=209"], 1, &line);
    folder.prints(&["store", "put", SAVED, "0", "samples/zone.bitmap", "--room=210"], "");
    folder.prints(&["store", "drop", SAVED, "0", "--room", "210"], "");
    let short = "new: refused 13: written form longer than its room";
    folder.fails(&["store", "put", "new", "0", "samples/zone.bitmap", "--room=23"], 1, short);
    assert!(!folder.has("new"));
    assert_eq!(
        folder.run(&["store", "put", "new", "0", "samples/zone.bitmap", "--room=24"]).status,
        0
    );
    folder.put("bad", &[0; 65]);
    for verb in [["list", "bad"].as_slice(), &["drop", "bad", "0"], &["fetch", "bad", "0", "out"]] {
        folder.fails(&[&["store"], verb].concat(), 1, &format!("bad: {words}"));
    }
    folder.put("bad", &[]);
    let put = ["store", "put", "bad", "0", "samples/zone.bitmap"];
    folder.fails(&put, 1, &format!("bad: {words}"));
}

#[test]
fn faults() {
    let folder = Folder::new();
    folder.put("bad", &[2, 0, 0, 0, 0, 0]);
    folder.fails(&["store", "put", "new", "0", "bad"], 1, "bad: refused 2: version 2, not 1");
    let line = "absent: No such file or directory";
    folder.fails(&["store", "put", "new", "0", "absent"], 2, line);
    folder.fails(&["store", "list", "absent"], 2, line);
    folder.fails(&["store", "drop", "absent", "0"], 2, line);
    folder.fails(&["store", "fetch", "absent", "0", "out"], 2, line);
    folder.fails(&["store", "list", "samples"], 2, "samples: Is a directory");
    folder.fails(&["store", "list", "/dev/zero"], 2, "/dev/zero: longer than 67108864 bytes");
    let line = "the owner is 0 or 1, not '2'; try 'barcovento store list --help'";
    folder.fails(&["store", "list", SAVED, "--owner", "2"], 2, line);
    let line = "'x' is no number for a slot; try 'barcovento store drop --help'";
    folder.fails(&["store", "drop", SAVED, "x"], 2, line);
    let line = "'store list' has no option '--room'; try 'barcovento store list --help'";
    folder.fails(&["store", "list", SAVED, "--room", "5"], 2, line);
    assert_eq!(folder.names(), ["bad"]);
}

#[test]
fn commands_that_change_a_store_wait_for_each_other() {
    let folder = Folder::new();
    let run = folder.shell(
        "for slot in $(seq 0 31); do $B store put many $slot samples/zone.bitmap 2>>said & done; wait",
    );
    assert_eq!(run.status, 0);
    assert_eq!(folder.get("said"), b"barcovento: creating many\n");
    let slots: String = (0..32).map(|slot| format!("{slot}\t0\t3\t12\n")).collect();
    folder.prints(&["store", "list", "many"], &format!("slot\towner\tmembers\tbytes\n{slots}"));
    assert_eq!(folder.names(), ["many", "said"]);
}
