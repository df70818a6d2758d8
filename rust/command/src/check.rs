//! The verb check: many bitmaps, by threads.

use crate::arguments::{Arguments, Choice};
use crate::console::Console;
use crate::decimal::push_number;
use crate::fault::{shown, Fault, Outcome};
use crate::source;
use barcovento::bitmap;
use std::collections::BTreeMap;
use std::ffi::{OsStr, OsString};
use std::sync::atomic::{AtomicUsize, Ordering};
use std::sync::mpsc::{self, Receiver, Sender};
use std::thread;

/// How many files a thread takes at once at most.
const AT_ONCE: usize = 16;

/// No more threads than this are started.
const MOST: usize = 256;

/// The number of members of a file's bitmap.
type Answer = Outcome<u32>;

pub fn check(arguments: &Arguments, console: &mut Console) -> Outcome<()> {
    arguments.count(&["FILE"], true)?;
    let files = &arguments.operands;
    source::once(arguments, files.iter().map(OsString::as_os_str))?;
    let threads = arguments.number(Choice::Threads, "threads")?.unwrap_or(1);
    if threads == 0 {
        return arguments.wrong("0 threads check nothing".to_string());
    }
    console.begin("checked", files.len());
    let quiet = arguments.has(Choice::Quiet);
    let outcome = match threads.min(MOST).min(files.len()) {
        1 => {
            let mut buffer = Vec::new();
            tell_all(console, files, quiet, files.iter().map(|file| judge(file, &mut buffer)))
        }
        threads => by_threads(console, files, quiet, threads),
    };
    console.end();
    outcome
}

/// One file's answer; the buffer is used again for the next.
fn judge(file: &OsStr, buffer: &mut Vec<u8>) -> Answer {
    source::read_into(file, source::BITMAP, buffer)?;
    bitmap::check(buffer).map_err(|refusal| Fault::refused(source::name(file), &refusal))
}

/// Tells the answers, which come in the order of the files.
fn tell_all(
    console: &mut Console,
    files: &[OsString],
    quiet: bool,
    answers: impl Iterator<Item = Answer>,
) -> Outcome<()> {
    for (index, answer) in answers.enumerate() {
        match answer {
            Err(fault) => console.report(&fault),
            Ok(_) if quiet => {}
            Ok(members) => {
                console.buffer.extend_from_slice(&shown(&files[index]));
                console.buffer.extend_from_slice(b": ");
                push_number(&mut console.buffer, members.into());
                let word: &[u8] = if members == 1 { b" member\n" } else { b" members\n" };
                console.buffer.extend_from_slice(word);
                console.step()?;
            }
        }
        console.done(index + 1)?;
    }
    Ok(())
}

/// The answers of some files: the number of the first, and one for each.
type Taken = (usize, Vec<Answer>);

fn by_threads(
    console: &mut Console,
    files: &[OsString],
    quiet: bool,
    threads: usize,
) -> Outcome<()> {
    let next = AtomicUsize::new(0);
    let at_once = (files.len() / (4 * threads)).clamp(1, AT_ONCE);
    thread::scope(|scope| {
        let (sender, receiver) = mpsc::channel();
        let mut started = 0;
        for _ in 0..threads {
            let (sender, next) = (sender.clone(), &next);
            let work = move || work(files, at_once, next, &sender);
            started += usize::from(thread::Builder::new().spawn_scoped(scope, work).is_ok());
        }
        if started == 0 {
            work(files, at_once, &next, &sender);
        }
        drop(sender);
        tell_all(console, files, quiet, InOrder::new(receiver))
    })
}

/// Judges the next files, so many at once, until none is left or nobody takes the answers.
fn work(files: &[OsString], at_once: usize, next: &AtomicUsize, sender: &Sender<Taken>) {
    let mut buffer = Vec::new();
    loop {
        let first = next.fetch_add(at_once, Ordering::Relaxed);
        if first >= files.len() {
            return;
        }
        let taken = &files[first..files.len().min(first + at_once)];
        let answers = taken.iter().map(|file| judge(file, &mut buffer)).collect();
        if sender.send((first, answers)).is_err() {
            return;
        }
    }
}

/// The threads' answers in the order of the files.
struct InOrder {
    receiver: Receiver<Taken>,
    early: BTreeMap<usize, Vec<Answer>>,
    ready: std::vec::IntoIter<Answer>,
    next: usize,
}

impl InOrder {
    fn new(receiver: Receiver<Taken>) -> InOrder {
        InOrder { receiver, early: BTreeMap::new(), ready: Vec::new().into_iter(), next: 0 }
    }
}

impl Iterator for InOrder {
    type Item = Answer;

    fn next(&mut self) -> Option<Answer> {
        loop {
            if let Some(answer) = self.ready.next() {
                return Some(answer);
            }
            if let Some(answers) = self.early.remove(&self.next) {
                self.next += answers.len();
                self.ready = answers.into_iter();
                continue;
            }
            let (first, answers) = self.receiver.recv().ok()?;
            self.early.insert(first, answers);
        }
    }
}
