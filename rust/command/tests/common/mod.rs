//! What the tests share: a folder with the samples, and runs of the command in it.
#![allow(dead_code)]

use std::fs;
use std::io::Write;
use std::path::{Path, PathBuf};
use std::process::{self, Command, Output, Stdio};
use std::sync::atomic::{AtomicU32, Ordering};

/// The command's program.
pub const PROGRAM: &str = env!("CARGO_BIN_EXE_barcovento");

/// The repository.
pub const REPOSITORY: &str = concat!(env!("CARGO_MANIFEST_DIR"), "/../..");

/// The set {0, 34, 255}.
pub const ZONE: [u8; 12] = [1, 3, 0, 0, 1, 0, 0, 0, 3, 0, 34, 255];

static FOLDERS: AtomicU32 = AtomicU32::new(0);

/// A folder for one test, removed at its end; the samples are in its folder samples.
pub struct Folder {
    path: PathBuf,
}

/// How a run ended.
#[derive(Debug, PartialEq, Eq)]
pub struct Run {
    pub status: i32,
    pub out: Vec<u8>,
    pub err: String,
}

impl Run {
    fn of(output: Output) -> Run {
        let err = String::from_utf8_lossy(&output.stderr).into_owned();
        Run { status: output.status.code().unwrap_or(-1), out: output.stdout, err }
    }

    /// Standard output as text.
    pub fn text(&self) -> String {
        String::from_utf8(self.out.clone()).expect("text")
    }
}

/// Copies the files of a folder, not its folders.
fn copy_files(from: &Path, to: &Path) {
    fs::create_dir_all(to).expect("a folder");
    for entry in fs::read_dir(from).expect("a folder") {
        let path = entry.expect("an entry").path();
        if path.is_file() {
            fs::copy(&path, to.join(path.file_name().expect("a name"))).expect("a copy");
        }
    }
}

impl Folder {
    pub fn new() -> Folder {
        let number = FOLDERS.fetch_add(1, Ordering::Relaxed);
        let name = format!("barcovento-command-{}-{number}", process::id());
        let path = std::env::temp_dir().join(name);
        for folder in ["samples", "samples/refused"] {
            copy_files(&Path::new(REPOSITORY).join(folder), &path.join(folder));
        }
        Folder { path }
    }

    pub fn path(&self, name: &str) -> PathBuf {
        self.path.join(name)
    }

    pub fn put(&self, name: &str, bytes: &[u8]) {
        fs::write(self.path(name), bytes).expect("a file");
    }

    pub fn get(&self, name: &str) -> Vec<u8> {
        fs::read(self.path(name)).expect("a file")
    }

    pub fn has(&self, name: &str) -> bool {
        fs::symlink_metadata(self.path(name)).is_ok()
    }

    /// The names in the folder, sorted, without samples.
    pub fn names(&self) -> Vec<String> {
        let entries = fs::read_dir(&self.path).expect("the folder");
        let name = |entry: std::io::Result<fs::DirEntry>| {
            entry.expect("an entry").file_name().into_string().expect("a name")
        };
        let mut names: Vec<String> = entries.map(name).filter(|name| name != "samples").collect();
        names.sort();
        names
    }

    /// The command, to be run in the folder.
    pub fn command(&self, words: &[&str]) -> Command {
        let mut command = Command::new(PROGRAM);
        command.args(words).current_dir(&self.path).stdin(Stdio::null());
        command
    }

    pub fn run(&self, words: &[&str]) -> Run {
        Run::of(self.command(words).output().expect("a run"))
    }

    /// The command on this standard input.
    pub fn run_on(&self, words: &[&str], input: &[u8]) -> Run {
        let mut command = self.command(words);
        command.stdin(Stdio::piped()).stdout(Stdio::piped()).stderr(Stdio::piped());
        let mut child = command.spawn().expect("a run");
        let mut stdin = child.stdin.take().expect("standard input");
        let input = input.to_vec();
        let writer = std::thread::spawn(move || {
            // A command that fails early reads no more.
            let _ = stdin.write_all(&input);
        });
        let output = child.wait_with_output().expect("its end");
        writer.join().expect("the writer");
        Run::of(output)
    }

    /// A shell script in the folder, with the program as $B; one that hangs is ended.
    pub fn shell(&self, script: &str) -> Run {
        let mut command = Command::new("timeout");
        command.args(["60", "sh", "-c", script]).env("B", PROGRAM).current_dir(&self.path);
        Run::of(command.stdin(Stdio::null()).output().expect("a shell"))
    }

    /// The run succeeds, prints this, and says nothing on standard error.
    pub fn prints(&self, words: &[&str], out: &str) {
        let run = self.run(words);
        assert_eq!((run.status, run.err.as_str()), (0, ""), "{words:?}");
        assert_eq!(run.text(), out, "{words:?}");
    }

    /// The run ends with this status, prints nothing, and says this one line.
    pub fn fails(&self, words: &[&str], status: i32, line: &str) {
        let run = self.run(words);
        assert_eq!(run.err, format!("barcovento: {line}\n"), "{words:?}");
        assert_eq!((run.status, run.text().as_str()), (status, ""), "{words:?}");
    }
}

impl Drop for Folder {
    fn drop(&mut self) {
        let _ = fs::remove_dir_all(&self.path);
    }
}
