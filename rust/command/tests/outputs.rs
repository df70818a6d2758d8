//! Output files: whole or not at all.

mod common;
use common::{Folder, ZONE};
use std::fs;
use std::os::unix::fs::{symlink, FileTypeExt, MetadataExt, PermissionsExt};

const POSITIONS: &[u8] = b"0\n34\n255\n";

#[test]
fn a_failing_input_leaves_the_output() {
    let folder = Folder::new();
    folder.put("out", b"old");
    folder.put("bad", &[]);
    folder.put("positions", b"2\n1\n");
    folder.put("words", b"one\n");
    let zone = "samples/zone.bitmap";
    for words in [
        ["write", "out", "-i", "positions"].as_slice(),
        &["write", "out", "-i", "words"],
        &["write", "out", "-i", "absent"],
        &["union", zone, "bad", "-o", "out"],
        &["union", zone, zone, "absent", "-o", "out"],
        &["intersection", zone, zone, "-o", "out", "--room", "5"],
        &["store", "fetch", "samples/store.saved", "5", "out"],
        &["store", "put", "out", "5", zone],
        &["store", "drop", "out", "5"],
    ] {
        assert_ne!(folder.run(words).status, 0, "{words:?}");
        assert_eq!(folder.get("out"), b"old", "{words:?}");
        assert_eq!(folder.names(), ["bad", "out", "positions", "words"], "{words:?}");
    }
}

#[test]
fn an_output_replaces_the_old_file() {
    let folder = Folder::new();
    folder.put("out", &[7; 100_000]);
    fs::set_permissions(folder.path("out"), fs::Permissions::from_mode(0o640)).unwrap();
    let before = fs::metadata(folder.path("out")).unwrap();
    assert_eq!(folder.run_on(&["write", "out"], POSITIONS).status, 0);
    let after = fs::metadata(folder.path("out")).unwrap();
    assert_eq!(folder.get("out"), ZONE);
    assert_eq!(after.mode(), before.mode());
    assert_eq!((after.uid(), after.gid()), (before.uid(), before.gid()));
    assert_ne!(after.ino(), before.ino());
    assert_eq!(folder.names(), ["out"]);
}

#[test]
fn a_new_file_has_the_usual_permissions() {
    let folder = Folder::new();
    let run = folder.shell("umask 027; printf '0\\n34\\n255\\n' | $B write out");
    assert_eq!((run.status, run.err.as_str()), (0, ""));
    assert_eq!(fs::metadata(folder.path("out")).unwrap().mode() & 0o777, 0o640);
}

#[test]
fn an_output_may_be_an_input() {
    let folder = Folder::new();
    let zone = "samples/zone.bitmap";
    folder.prints(&["union", zone, "samples/dense.bitmap", "-o", zone], "");
    folder.prints(&["check", zone], "samples/zone.bitmap: 34 members\n");
}

#[test]
fn a_folder_that_cannot_be_written() {
    let folder = Folder::new();
    let words = |out| ["union", "samples/zone.bitmap", "samples/zone.bitmap", "-o", out];
    folder.fails(&words("absent/out"), 2, "absent/out: No such file or directory");
    folder.fails(&words("samples"), 2, "samples: Is a directory");
    folder.fails(&words("absent/"), 2, "absent/: Is a directory");
    folder.fails(&words(""), 2, "'': No such file or directory");
    folder.put("file", b"");
    folder.fails(&words("file/out"), 2, "file/out: Not a directory");
    folder.fails(&words("/proc/out"), 2, "/proc/out: No such file or directory");
    assert_eq!(folder.names(), ["file"]);
    fs::create_dir(folder.path("locked")).unwrap();
    fs::set_permissions(folder.path("locked"), fs::Permissions::from_mode(0o555)).unwrap();
    if fs::write(folder.path("locked/try"), b"").is_ok() {
        println!("skipped: this user may write into any folder");
        return;
    }
    folder.fails(&words("locked/out"), 2, "locked/out: Permission denied");
}

#[test]
fn a_failed_write_leaves_no_rest() {
    let folder = Folder::new();
    folder.put("out", b"old");
    let run = folder.shell(
        "trap '' XFSZ; ulimit -f 0; $B union samples/zone.bitmap samples/zone.bitmap -o out; \
         echo $?; $B union samples/zone.bitmap samples/zone.bitmap -o new; echo $?",
    );
    assert_eq!(run.err, "barcovento: out: File too large\nbarcovento: new: File too large\n");
    assert_eq!(run.text(), "2\n2\n");
    assert_eq!(folder.get("out"), b"old");
    assert_eq!(folder.names(), ["out"]);
}

#[test]
fn a_full_standard_output() {
    let folder = Folder::new();
    for command in ["check samples/zone.bitmap", "list samples/zone.bitmap", "--help", "write -"] {
        let run = folder.shell(&format!("$B {command} </dev/null >/dev/full"));
        let line = "barcovento: standard output: No space left on device\n";
        assert_eq!((run.status, run.err.as_str()), (2, line), "{command}");
    }
}

#[test]
fn links_stay() {
    let folder = Folder::new();
    fs::create_dir(folder.path("far")).unwrap();
    symlink("far/out", folder.path("link")).unwrap();
    symlink("link", folder.path("again")).unwrap();
    for _ in 0..2 {
        assert_eq!(folder.run_on(&["write", "again"], POSITIONS).status, 0);
        assert!(fs::symlink_metadata(folder.path("link")).unwrap().is_symlink());
        assert!(fs::symlink_metadata(folder.path("again")).unwrap().is_symlink());
        assert_eq!(folder.get("far/out"), ZONE);
    }
    symlink("round", folder.path("round")).unwrap();
    let run = folder.run_on(&["write", "round"], POSITIONS);
    assert_eq!(run.err, "barcovento: round: Too many levels of symbolic links\n");
    assert_eq!(run.status, 2);
    assert_eq!(folder.names(), ["again", "far", "link", "round"]);
}

#[test]
fn devices_and_pipes_are_written_to() {
    let folder = Folder::new();
    assert_eq!(folder.run_on(&["write", "/dev/null"], POSITIONS).status, 0);
    assert!(fs::metadata("/dev/null").unwrap().file_type().is_char_device());
    assert_eq!(folder.run_on(&["write", "/dev/stdout"], POSITIONS).out, ZONE);
    let run = folder.shell(
        "mkfifo pipe; $B list pipe & $B union samples/zone.bitmap samples/zone.bitmap -o pipe; wait",
    );
    assert_eq!((run.text().as_str(), run.err.as_str()), ("0\n34\n255\n", ""));
    assert_eq!(folder.names(), ["pipe"]);
}

#[test]
fn a_name_that_begins_with_a_dash() {
    let folder = Folder::new();
    assert_eq!(folder.run_on(&["write", "--", "-x"], POSITIONS).status, 0);
    assert_eq!(folder.get("-x"), ZONE);
    folder.prints(&["check", "--", "-x"], "-x: 3 members\n");
    assert_eq!(folder.run_on(&["write", "./-"], POSITIONS).status, 0);
    assert_eq!(folder.names(), ["-", "-x"]);
}
