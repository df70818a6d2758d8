//! Standard output, standard error, and how far long work is.

use crate::fault::{Fault, Outcome};
use std::fs::File;
use std::io::{self, IsTerminal, Write};
use std::os::fd::AsFd;
use std::time::{Duration, Instant};

/// How many bytes are gathered before they are written.
const GATHERED: usize = 1 << 16;

/// The least time between two tellings of how far the work is.
const PAUSE: Duration = Duration::from_millis(100);

/// Work that takes no longer than this in printing is not told of.
pub const LONG: Duration = Duration::from_secs(1);

/// Both outputs, and the exit status so far.
pub struct Console {
    out: Option<File>,
    /// Output that is not written yet. Lines are added to it, then `step` is called.
    pub buffer: Vec<u8>,
    out_terminal: bool,
    error_terminal: bool,
    /// When lines are shown on a terminal, and how far the work is, the next time.
    next: Instant,
    progress: Option<Progress>,
    status: u8,
}

/// How far the work is, in place on standard error.
struct Progress {
    done_word: &'static str,
    all: usize,
    /// The length of what stands in the line now.
    shown: usize,
}

impl Console {
    pub fn new() -> Console {
        let out = io::stdout().as_fd().try_clone_to_owned().ok().map(File::from);
        Console {
            out,
            buffer: Vec::with_capacity(GATHERED + 4096),
            out_terminal: io::stdout().is_terminal(),
            error_terminal: io::stderr().is_terminal(),
            next: Instant::now(),
            progress: None,
            status: 0,
        }
    }

    /// Writes the fault's line to standard error, behind all output so far, and counts its status.
    pub fn report(&mut self, fault: &Fault) {
        self.status = self.status.max(fault.status());
        if let Fault::Closed = fault {
            return;
        }
        if let Err(worse) = self.flush() {
            self.status = self.status.max(worse.status());
        }
        self.say(&fault.line());
    }

    /// Writes a line to standard error.
    pub fn say(&mut self, line: &[u8]) {
        self.clear();
        let mut whole = line.to_vec();
        whole.push(b'\n');
        // There is nowhere to tell that standard error cannot be written.
        let _ = io::stderr().write_all(&whole);
    }

    /// The exit status of all that was reported.
    pub fn status(&self) -> u8 {
        self.status
    }

    /// Writes what was gathered, if it is enough.
    pub fn step(&mut self) -> Outcome<()> {
        if self.buffer.len() >= GATHERED {
            self.flush()?;
        }
        Ok(())
    }

    /// Writes what was gathered.
    pub fn flush(&mut self) -> Outcome<()> {
        if self.buffer.is_empty() {
            return Ok(());
        }
        if self.out_terminal {
            self.clear();
        }
        let written = match &mut self.out {
            Some(out) => out.write_all(&self.buffer),
            None => Err(io::Error::from(io::ErrorKind::NotConnected)),
        };
        self.buffer.clear();
        match written {
            Err(error) if error.kind() == io::ErrorKind::BrokenPipe => Err(Fault::Closed),
            Err(error) => Err(Fault::of_system(b"standard output".to_vec(), &error)),
            Ok(()) => Ok(()),
        }
    }

    /// Work on many files begins: how far it is will be told on a terminal.
    pub fn begin(&mut self, done_word: &'static str, all: usize) {
        self.begin_after(PAUSE, done_word, all, self.error_terminal);
    }

    /// Printing begins: how far it is will be told on a terminal if it takes long and goes elsewhere.
    pub fn begin_printing(&mut self, done_word: &'static str, all: usize) {
        self.begin_after(LONG, done_word, all, self.error_terminal && !self.out_terminal);
    }

    fn begin_after(&mut self, wait: Duration, done_word: &'static str, all: usize, tell: bool) {
        self.next = Instant::now() + wait;
        self.progress = tell.then_some(Progress { done_word, all, shown: 0 });
    }

    /// That much of the work is done. Now and then that is told, and lines for a terminal are shown.
    pub fn done(&mut self, done: usize) -> Outcome<()> {
        let now = Instant::now();
        if now < self.next {
            return Ok(());
        }
        self.next = now + PAUSE;
        if self.out_terminal {
            self.flush()?;
        }
        if let Some(progress) = &mut self.progress {
            let line = format!("{} {done} of {}", progress.done_word, progress.all);
            progress.shown = progress.shown.max(line.len());
            let _ = write!(io::stderr(), "\r{line}");
        }
        Ok(())
    }

    /// The work is done.
    pub fn end(&mut self) {
        self.clear();
        self.progress = None;
    }

    /// Clears the line that tells how far the work is.
    fn clear(&mut self) {
        if let Some(progress) = self.progress.as_mut().filter(|progress| progress.shown > 0) {
            let _ = write!(io::stderr(), "\r{:1$}\r", "", progress.shown);
            progress.shown = 0;
        }
    }
}
