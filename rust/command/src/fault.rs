//! What can go wrong, in words, and the exit status that each has.

use barcovento::Refusal;
use std::ffi::OsStr;
use std::io;
use std::os::unix::ffi::OsStrExt;

/// Why a command ends, or skips a file.
#[derive(Debug)]
pub enum Fault {
    /// Wrong use: what is wrong, and the verb whose help is named.
    Use(String, &'static str),
    /// An input that is no list of positions, or a file that cannot be read or written: its name, and why.
    File(Vec<u8>, String),
    /// The library refused: the name of what it refused, and its words.
    Refused(Vec<u8>, String),
    /// The reader of standard output is gone.
    Closed,
}

pub type Outcome<T> = Result<T, Fault>;

impl Fault {
    /// A file fault from the system's answer.
    pub fn of_system(name: Vec<u8>, error: &io::Error) -> Fault {
        let words = error.to_string();
        let plain = words.split(" (os error").next().unwrap_or(&words);
        Fault::File(name, plain.to_string())
    }

    pub fn refused(name: Vec<u8>, refusal: &Refusal) -> Fault {
        Fault::Refused(name, refusal.to_string())
    }

    /// The exit status.
    pub fn status(&self) -> u8 {
        match self {
            Fault::Use(..) | Fault::File(..) => 2,
            Fault::Refused(..) => 1,
            Fault::Closed => 0,
        }
    }

    /// The line for standard error, without its end.
    pub fn line(&self) -> Vec<u8> {
        let mut line = b"barcovento: ".to_vec();
        match self {
            Fault::Use(words, verb) => {
                let space = if verb.is_empty() { "" } else { " " };
                line.extend_from_slice(words.as_bytes());
                line.extend_from_slice(
                    format!("; try 'barcovento{space}{verb} --help'").as_bytes(),
                );
            }
            Fault::File(name, words) | Fault::Refused(name, words) => {
                line.extend_from_slice(name);
                line.extend_from_slice(b": ");
                line.extend_from_slice(words.as_bytes());
            }
            Fault::Closed => line.extend_from_slice(b"standard output is closed"),
        }
        line
    }
}

/// A file's name for a line of output: its bytes, with control characters as `\xNN`, so that the line
/// stays a line; quotes where it is empty.
pub fn shown(name: &OsStr) -> Vec<u8> {
    if name.is_empty() {
        return b"''".to_vec();
    }
    let mut shown = Vec::with_capacity(name.len());
    for byte in name.as_bytes() {
        match byte {
            0..=31 | 127 => shown.extend_from_slice(format!("\\x{byte:02x}").as_bytes()),
            _ => shown.push(*byte),
        }
    }
    shown
}

/// A word of the command line in quotes, for a fault.
pub fn quoted(word: &OsStr) -> String {
    match word.is_empty() {
        true => "''".to_string(),
        false => format!("'{}'", String::from_utf8_lossy(&shown(word))),
    }
}
