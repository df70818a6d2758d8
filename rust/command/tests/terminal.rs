//! Closed pipes, and what is shown on a terminal.

mod common;
use common::{Folder, PROGRAM, ZONE};
use std::io::Read;
use std::process::{Command, Stdio};

/// A folder with a bitmap of all positions.
fn folder() -> Folder {
    let folder = Folder::new();
    let rising: String = (0..2_097_152).map(|position| format!("{position}\n")).collect();
    assert_eq!(folder.run_on(&["write", "full"], rising.as_bytes()).status, 0);
    folder
}

/// What the shell script puts out on a terminal, both outputs; nothing where there is no `script`.
fn on_terminal(folder: &Folder, script: &str) -> Option<String> {
    let mut command = Command::new("script");
    command.args(["-qec", script, "/dev/null"]).current_dir(folder.path("")).env("B", PROGRAM);
    match command.stdin(Stdio::null()).output() {
        Ok(run) => Some(String::from_utf8_lossy(&run.stdout).into_owned()),
        Err(_) => {
            println!("skipped: no script");
            None
        }
    }
}

/// Whether short work shows nothing on a terminal, in one of some runs: on a busy machine it may be long.
fn says_nothing(folder: &Folder, script: &str) -> bool {
    (0..5).any(|_| on_terminal(folder, script).unwrap_or_default().is_empty())
}

#[test]
fn a_closed_pipe_ends_quietly() {
    let folder = folder();
    let mut command = folder.command(&["list", "full"]);
    let mut child = command.stdout(Stdio::piped()).stderr(Stdio::piped()).spawn().unwrap();
    let mut first = [0; 4];
    child.stdout.take().unwrap().read_exact(&mut first).unwrap();
    let end = child.wait_with_output().unwrap();
    assert_eq!(&first, b"0\n1\n");
    assert_eq!(String::from_utf8_lossy(&end.stderr), "");
    assert_eq!(end.status.code(), Some(0));
    for command in ["list full", "check full full", "--help", "store list samples/store.saved"] {
        let run = folder.shell(&format!("{{ $B {command}; echo $? >&2; }} | true"));
        assert_eq!(run.err, "0\n", "{command}");
    }
}

#[test]
fn a_closed_pipe_ends_many_threads() {
    let folder = Folder::new();
    folder.put("bitmap", &ZONE);
    let run = folder.shell(
        "names=$(yes bitmap | head -30000); { $B check -j4 $names; echo $? >&2; } | head -1",
    );
    assert_eq!((run.text().as_str(), run.err.as_str()), ("bitmap: 3 members\n", "0\n"));
}

#[test]
fn nothing_of_progress_in_a_pipe() {
    let folder = Folder::new();
    let run = folder.shell(
        "mkfifo slow; (sleep 0.4; cat samples/zone.bitmap) >slow & \
         $B check samples/zone.bitmap slow samples/dense.bitmap; wait",
    );
    assert_eq!(run.err, "");
    let run = folder.shell("mkfifo late; (sleep 1.3; seq 5) >late & $B write -i late out; wait");
    assert_eq!((run.err.as_str(), run.text().as_str()), ("", ""));
}

#[test]
fn check_tells_how_far_it_is() {
    let folder = Folder::new();
    let script = "mkfifo slow; (sleep 0.4; cat samples/zone.bitmap) >slow & \
                  $B check samples/zone.bitmap slow samples/dense.bitmap";
    for (redirection, lines) in [("", true), (" >file", false)] {
        let Some(shown) = on_terminal(&folder, &format!("rm -f slow; {script}{redirection}"))
        else {
            return;
        };
        assert_eq!(shown.matches("checked 2 of 3").count(), 1, "{shown:?}");
        assert!(shown.contains(&format!("\r{}\r", " ".repeat(14))), "{shown:?}");
        assert_eq!(shown.contains("\rsamples/dense.bitmap: 32 members\r\n"), lines, "{shown:?}");
        let tail = shown.rsplit('\r').next().unwrap_or_default();
        assert_eq!(tail.trim_end(), "", "{shown:?}");
    }
    assert_eq!(
        String::from_utf8(folder.get("file")).unwrap(),
        "samples/zone.bitmap: 3 members\nslow: 3 members\nsamples/dense.bitmap: 32 members\n"
    );
    // Lines come to a terminal, and nothing else where standard error is none.
    let lines = "rm -f slow; mkfifo slow; (sleep 0.3; $B --version; sleep 0.3) >slow & \
                 $B check samples/zone.bitmap slow samples/dense.bitmap 2>/dev/null";
    let shown = on_terminal(&folder, lines).unwrap_or_default();
    assert_eq!(shown, "samples/zone.bitmap: 3 members\r\nsamples/dense.bitmap: 32 members\r\n");
    assert!(says_nothing(&folder, "$B check samples/zone.bitmap >file"));
}

#[test]
fn a_refusal_clears_the_line() {
    let folder = Folder::new();
    folder.put("bad", &[]);
    let script = "mkfifo slow; (sleep 0.4; cat samples/zone.bitmap) >slow & $B check -q slow bad";
    let Some(shown) = on_terminal(&folder, script) else { return };
    let cleared = format!("\rchecked 1 of 2\r{}\r", " ".repeat(14));
    let refused = "barcovento: bad: refused 1: 0 bytes, under 6\r\n";
    assert!(shown.contains(&[cleared.as_str(), refused].concat()), "{shown:?}");
}

#[test]
fn long_printing_tells_how_far_it_is() {
    let folder = folder();
    let Some(shown) = on_terminal(&folder, "$B list full | (sleep 1.5; cat >listed)") else {
        return;
    };
    assert!(shown.starts_with("\rlisted "), "{shown:?}");
    assert!(shown.contains(" of 2097152\r"), "{shown:?}");
    assert!(shown.ends_with(" \r"), "{shown:?}");
    assert_eq!(folder.get("listed").len(), folder.run(&["list", "full"]).out.len());
    assert!(says_nothing(&folder, "$B list full >listed"));
}
