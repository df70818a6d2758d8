//! The command line: operands and options, in any order.

use crate::fault::{quoted, Fault, Outcome};
use std::ffi::{OsStr, OsString};
use std::os::unix::ffi::{OsStrExt, OsStringExt};

#[derive(Clone, Copy, Debug, PartialEq, Eq)]
pub enum Choice {
    Help,
    Version,
    Threads,
    Quiet,
    Input,
    Sort,
    Output,
    Owner,
    Room,
    Rows,
    Json,
}

/// An option: its letter, if it has one, its long name, and what it is followed by.
struct Known {
    choice: Choice,
    letter: Option<u8>,
    name: &'static str,
    valued: bool,
}

const fn known(choice: Choice, letter: Option<u8>, name: &'static str, valued: bool) -> Known {
    Known { choice, letter, name, valued }
}

const KNOWN: [Known; 11] = [
    known(Choice::Help, Some(b'h'), "help", false),
    known(Choice::Version, Some(b'V'), "version", false),
    known(Choice::Threads, Some(b'j'), "threads", true),
    known(Choice::Quiet, Some(b'q'), "quiet", false),
    known(Choice::Input, Some(b'i'), "input", true),
    known(Choice::Sort, None, "sort", false),
    known(Choice::Output, Some(b'o'), "output", true),
    known(Choice::Owner, None, "owner", true),
    known(Choice::Room, None, "room", true),
    known(Choice::Rows, None, "rows", true),
    known(Choice::Json, None, "json", false),
];

/// The operands in their order, and the options that were given.
#[derive(Debug, Default)]
pub struct Arguments {
    /// The verb, of which wrong use is told.
    pub verb: &'static str,
    pub operands: Vec<OsString>,
    options: Vec<(Choice, OsString)>,
}

impl Arguments {
    pub fn parse(words: impl Iterator<Item = OsString>) -> Outcome<Arguments> {
        let mut words = words;
        let mut arguments = Arguments::default();
        while let Some(word) = words.next() {
            match word.as_bytes() {
                b"--" => {
                    arguments.operands.extend(words);
                    break;
                }
                [b'-', b'-', long @ ..] => arguments.long(long, &mut words)?,
                [b'-', letters @ ..] if !letters.is_empty() => {
                    arguments.letters(letters, &mut words)?
                }
                _ => arguments.operands.push(word),
            }
        }
        Ok(arguments)
    }

    /// `--name`, `--name VALUE` or `--name=VALUE`.
    fn long(&mut self, long: &[u8], words: &mut dyn Iterator<Item = OsString>) -> Outcome<()> {
        let mut parts = long.splitn(2, |byte| *byte == b'=');
        let name = parts.next().unwrap_or_default();
        let value = parts.next().map(|value| OsString::from_vec(value.to_vec()));
        let shown = format!("--{}", String::from_utf8_lossy(name));
        let Some(known) = KNOWN.iter().find(|known| known.name.as_bytes() == name) else {
            return self.wrong(format!("no option {}", quoted(OsStr::new(&shown))));
        };
        if value.is_some() && !known.valued {
            return self.wrong(format!("option '{shown}' takes no value"));
        }
        self.take(known, shown, value, words)
    }

    /// `-q`, `-jN`, `-j N`, or several such letters behind one dash.
    fn letters(
        &mut self,
        letters: &[u8],
        words: &mut dyn Iterator<Item = OsString>,
    ) -> Outcome<()> {
        for (at, letter) in letters.iter().enumerate() {
            let Some(known) = KNOWN.iter().find(|known| known.letter == Some(*letter)) else {
                let rest = String::from_utf8_lossy(&letters[at..]);
                let wrong = rest.chars().next().unwrap_or('-');
                return self
                    .wrong(format!("no option {}", quoted(OsStr::new(&format!("-{wrong}")))));
            };
            let rest = &letters[at + 1..];
            let value =
                (known.valued && !rest.is_empty()).then(|| OsString::from_vec(rest.to_vec()));
            self.take(known, format!("-{}", char::from(*letter)), value, words)?;
            if known.valued {
                break;
            }
        }
        Ok(())
    }

    /// Takes an option, with the next word as its value if it wants one and has none.
    fn take(
        &mut self,
        known: &Known,
        shown: String,
        value: Option<OsString>,
        words: &mut dyn Iterator<Item = OsString>,
    ) -> Outcome<()> {
        let value = match value {
            Some(value) => value,
            None if !known.valued => OsString::new(),
            None => match words.next() {
                Some(value) => value,
                None => return self.wrong(format!("option '{shown}' wants a value")),
            },
        };
        self.options.push((known.choice, value));
        Ok(())
    }

    /// Wrong use of this verb.
    pub fn wrong<T>(&self, words: String) -> Outcome<T> {
        Err(Fault::Use(words, self.verb))
    }

    pub fn has(&self, choice: Choice) -> bool {
        self.value(choice).is_some()
    }

    /// The value of the option, the last one if it was given more than once.
    pub fn value(&self, choice: Choice) -> Option<&OsStr> {
        let given = self.options.iter().rev().find(|(given, _)| *given == choice);
        given.map(|(_, value)| value.as_os_str())
    }

    /// Wrong use if an option was given that the verb does not have.
    pub fn allow(&self, choices: &[Choice]) -> Outcome<()> {
        match self.options.iter().find(|(given, _)| !choices.contains(given)) {
            None => Ok(()),
            Some((given, _)) => {
                let name = KNOWN.iter().find(|known| known.choice == *given).map_or("", |k| k.name);
                self.wrong(format!("'{}' has no option '--{name}'", self.verb))
            }
        }
    }

    /// Wrong use if the operands are fewer or more than that; what is missing is named.
    pub fn count(&self, names: &[&str], more: bool) -> Outcome<()> {
        if let Some(missing) = names.get(self.operands.len()) {
            return self.wrong(format!("{missing} is missing"));
        }
        match self.operands.get(names.len()) {
            Some(word) if !more => self.wrong(format!("{} is one word too many", quoted(word))),
            _ => Ok(()),
        }
    }

    /// The number that an option gives, cut off at the largest.
    pub fn number(&self, choice: Choice, name: &str) -> Outcome<Option<usize>> {
        let Some(word) = self.value(choice) else { return Ok(None) };
        match whole(word.as_bytes()) {
            Some(number) => Ok(Some(usize::try_from(number).unwrap_or(usize::MAX))),
            None => self.wrong(format!("{} is no number for {name}", quoted(word))),
        }
    }

    /// The number that an operand is, cut off at the largest.
    pub fn operand(&self, index: usize, name: &str) -> Outcome<u32> {
        let word = &self.operands[index];
        match whole(word.as_bytes()) {
            Some(number) => Ok(u32::try_from(number).unwrap_or(u32::MAX)),
            None => self.wrong(format!("{} is no number for {name}", quoted(word))),
        }
    }
}

/// The number that decimal digits are, cut off at the largest; nothing if they are something else.
pub fn whole(digits: &[u8]) -> Option<u64> {
    if digits.is_empty() || !digits.iter().all(u8::is_ascii_digit) {
        return None;
    }
    let step =
        |number: u64, digit: &u8| number.saturating_mul(10).saturating_add(u64::from(digit - b'0'));
    Some(digits.iter().fold(0, step))
}

#[cfg(test)]
mod tests {
    use super::*;

    fn parse(words: &[&str]) -> Outcome<Arguments> {
        Arguments::parse(words.iter().map(OsString::from))
    }

    #[test]
    fn options_stand_anywhere() {
        for words in [
            ["check", "a", "-qj2"].as_slice(),
            &["-q", "check", "-j", "2", "a"],
            &["check", "--threads=2", "--quiet", "a"],
            &["--threads", "2", "check", "-q", "--", "a"],
            &["check", "-j7", "-j2", "-q", "a"],
        ] {
            let arguments = parse(words).unwrap();
            assert_eq!(arguments.operands, ["check", "a"]);
            assert!(arguments.has(Choice::Quiet));
            assert_eq!(arguments.number(Choice::Threads, "-j").unwrap(), Some(2));
        }
        assert_eq!(parse(&["--", "-q", "--"]).unwrap().operands, ["-q", "--"]);
        assert_eq!(parse(&["-"]).unwrap().operands, ["-"]);
    }

    #[test]
    fn wrong_words() {
        for words in [["-x"], ["--frob"], ["-j"], ["--room"], ["--sort=1"], ["-qx"]] {
            assert!(matches!(parse(&words), Err(Fault::Use(..))), "{words:?}");
        }
    }

    #[test]
    fn numbers_are_digits_alone() {
        assert_eq!(whole(b"007"), Some(7));
        assert_eq!(whole(b"99999999999999999999999999"), Some(u64::MAX));
        for word in ["", "+5", "-5", "5 ", "0x5", "5.0"] {
            assert_eq!(whole(word.as_bytes()), None, "{word}");
        }
    }
}
