//! The verbs: what each is called with, and its help.

use crate::arguments::{Arguments, Choice};
use crate::console::Console;
use crate::fault::Outcome;
use crate::{bitmap, check, combine, store, table};

/// One verb, of one or two words.
pub struct Verb {
    pub name: &'static str,
    /// Its operands, and the options that must be there.
    pub operands: &'static str,
    pub summary: &'static str,
    details: &'static str,
    /// Its options, each with its line of help.
    options: &'static [(Choice, &'static str)],
    pub run: fn(&Arguments, &mut Console) -> Outcome<()>,
}

const FORM_ROOM: (Choice, &str) =
    (Choice::Room, "--room BYTES        the form must fit into so many bytes, else refusal 13");
const STORE_ROOM: (Choice, &str) = (
    Choice::Room,
    "--room BYTES        the length of the store's buffer, half of it for each owner: what the\n\
     \x20                       store held must fit, else refusal 42, and what is put, else 13\n\
     \x20                       (default: any store fits)",
);
const OWNER: (Choice, &str) = (
    Choice::Owner,
    "--owner 0|1         the owner: 0 has slots 0 to 31, 1 has 32 to 63 (default 0)",
);
const OUTPUT: (Choice, &str) =
    (Choice::Output, "-o, --output OUT    the bitmap to write; must be there");
const ROWS: (Choice, &str) =
    (Choice::Rows, "--rows A..B         rows A to B - 1 alone; also A.. and ..B");
const JSON: (Choice, &str) =
    (Choice::Json, "--json              a JSON array for each row, one to a line; no header line");

const CHECKED: &str = "\
Prints 'FILE: N members' for each bitmap, in the order of the files. A refused one is told on
standard error, and the rest go on.";

const ASKED: &str = "\
Prints for each position a tab-separated line: the position, 'yes' or 'no', and how many members
lie below it. A position is any number from 0 to 4294967295.";

const WRITTEN: &str = "\
Reads positions, one to a line; blank lines are skipped. They must be strictly rising and below
2097152, else refusal 12.";

const COMBINED: &str = "Several inputs are combined one after the other, from the left.";

const ODD: &str = "\
Several inputs are combined one after the other, from the left: what is in an odd number of them.";

const PUT: &str = "\
The slot holds the bitmap's written form in place of what it held. Where there is no file STORE, an
empty store is begun. '-' reads the store from standard input and writes it to standard output.";

const ROW_FORM: &str = "\
The rows are tab-separated lines behind a header line with the columns' types. No value is 'null', a
FLOAT or DOUBLE its shortest decimal (NaN by its bits), a TIMESTAMP its count and nanoseconds
('5+0ns'), a DECIMAL its exact value, bytes '0x' and hexadecimal digits. Text has '\\\\', '\\t', '\\n',
'\\r', and '\\xNN' for bytes of other control characters and bytes that are not UTF-8; the text 'null'
is '\\x6eull'.";

pub const VERBS: [Verb; 16] = [
    Verb {
        name: "check",
        operands: "FILE...",
        summary: "tell how many members each bitmap has",
        details: CHECKED,
        options: &[
            (Choice::Threads, "-j, --threads N     check by N threads (default 1)"),
            (Choice::Quiet, "-q, --quiet         tell refusals and faults alone"),
        ],
        run: check::check,
    },
    Verb {
        name: "list",
        operands: "FILE",
        summary: "print a bitmap's members, one to a line",
        details: "",
        options: &[],
        run: bitmap::list,
    },
    Verb {
        name: "ask",
        operands: "FILE POSITION...",
        summary: "tell whether positions are members, and their ranks",
        details: ASKED,
        options: &[],
        run: bitmap::ask,
    },
    Verb {
        name: "write",
        operands: "OUT",
        summary: "write the bitmap of positions on standard input",
        details: WRITTEN,
        options: &[
            (Choice::Input, "-i, --input FILE    read the positions from this file"),
            (Choice::Sort, "--sort              sort the positions and drop repeats first"),
            FORM_ROOM,
        ],
        run: bitmap::write,
    },
    Verb {
        name: "union",
        operands: "FILE FILE... -o OUT",
        summary: "write the bitmap of what is in at least one",
        details: COMBINED,
        options: &[OUTPUT, FORM_ROOM],
        run: combine::union,
    },
    Verb {
        name: "intersection",
        operands: "FILE FILE... -o OUT",
        summary: "write the bitmap of what is in all",
        details: COMBINED,
        options: &[OUTPUT, FORM_ROOM],
        run: combine::intersection,
    },
    Verb {
        name: "difference",
        operands: "FILE FILE... -o OUT",
        summary: "write the bitmap of what is in the first alone",
        details: COMBINED,
        options: &[OUTPUT, FORM_ROOM],
        run: combine::difference,
    },
    Verb {
        name: "symmetric-difference",
        operands: "FILE FILE... -o OUT",
        summary: "write the bitmap of what is in one of two",
        details: ODD,
        options: &[OUTPUT, FORM_ROOM],
        run: combine::symmetric_difference,
    },
    Verb {
        name: "store put",
        operands: "STORE SLOT BITMAP",
        summary: "put a bitmap into a slot of a saved store",
        details: PUT,
        options: &[OWNER, STORE_ROOM],
        run: store::put,
    },
    Verb {
        name: "store fetch",
        operands: "STORE SLOT OUT",
        summary: "write the bitmap in a slot of a saved store",
        details: "",
        options: &[OWNER, FORM_ROOM],
        run: store::fetch,
    },
    Verb {
        name: "store drop",
        operands: "STORE SLOT",
        summary: "empty a slot of a saved store",
        details: "'-' reads the store from standard input and writes it to standard output.",
        options: &[OWNER, STORE_ROOM],
        run: store::drop_slot,
    },
    Verb {
        name: "store list",
        operands: "STORE",
        summary: "print what the slots of a saved store hold",
        details: "Prints a tab-separated table: slot, owner, members, bytes.",
        options: &[(Choice::Owner, "--owner 0|1         this owner's slots alone")],
        run: store::list,
    },
    Verb {
        name: "schema",
        operands: "FILE",
        summary: "print the columns of a schema",
        details: "Prints for each column a tab-separated line: its number, from 0, and its type.",
        options: &[],
        run: table::schema,
    },
    Verb {
        name: "block",
        operands: "SCHEMA FILE",
        summary: "print the rows of a row block",
        details: ROW_FORM,
        options: &[ROWS, JSON],
        run: table::block,
    },
    Verb {
        name: "bucket",
        operands: "SCHEMA ROWS FILE",
        summary: "print the rows of a bucket of so many rows",
        details: ROW_FORM,
        options: &[ROWS, JSON],
        run: table::bucket,
    },
    Verb {
        name: "help",
        operands: "[VERB]",
        summary: "print this help, or that of a verb",
        details: "",
        options: &[],
        run: help,
    },
];

const END: &str = "
'-' as FILE or OUT is standard input or standard output; '--' ends the options, which may stand
anywhere. 'barcovento VERB --help' tells a verb's options.

An output file is written whole or not at all.

Exit status: 0, or 1 if something was refused, or 2 for wrong use or a file that cannot be read or
written.
";

impl Verb {
    /// Which options it has.
    pub fn choices(&self) -> Vec<Choice> {
        self.options.iter().map(|(choice, _)| *choice).collect()
    }

    /// Its help.
    pub fn help(&self) -> String {
        let options = if self.options.is_empty() { "" } else { "[OPTION]... " };
        let summary = format!("{}{}", self.summary[..1].to_uppercase(), &self.summary[1..]);
        let mut help =
            format!("Usage: barcovento {} {options}{}\n\n{summary}.\n", self.name, self.operands);
        if !self.details.is_empty() {
            help.push_str(&format!("\n{}\n", self.details));
        }
        help.push('\n');
        for (_, line) in self.options {
            help.push_str(&format!("    {line}\n"));
        }
        help.push_str("    -h, --help          print this help\n");
        help
    }
}

/// The help of the whole.
pub fn help_of_all() -> String {
    let mut help = "Usage: barcovento VERB [OPTION]... OPERAND...\n\
        \n\
        Reads and writes pixel masks (bitmaps) and stores of them, and reads row blocks and buckets.\n\
        \n"
        .to_string();
    for verb in &VERBS {
        let use_of_it = format!("{} {}", verb.name, verb.operands);
        help.push_str(&format!("    {use_of_it:<42}{}\n", verb.summary));
    }
    help.push_str("\n    -h, --help                                print this help\n");
    help.push_str("    -V, --version                             print the version\n");
    help + END
}

/// How many of the operands are the verb, and the verb; nothing if there is no such one.
pub fn find(arguments: &Arguments) -> Option<(usize, &'static Verb)> {
    VERBS.iter().find_map(|verb| {
        let words: Vec<&str> = verb.name.split(' ').collect();
        let given = arguments.operands.get(..words.len())?;
        given.iter().zip(&words).all(|(given, word)| given == word).then_some((words.len(), verb))
    })
}

/// The verb help.
fn help(arguments: &Arguments, console: &mut Console) -> Outcome<()> {
    let text = match find(arguments) {
        _ if arguments.operands.is_empty() => help_of_all(),
        Some((words, verb)) if words == arguments.operands.len() => verb.help(),
        _ if arguments.operands == ["store"] => help_of_stores(),
        _ => return arguments.wrong("there is no such verb".to_string()),
    };
    console.buffer.extend_from_slice(text.as_bytes());
    Ok(())
}

/// The help of the four verbs on stores.
pub fn help_of_stores() -> String {
    let of_stores = VERBS.iter().filter(|verb| verb.name.starts_with("store "));
    of_stores.map(Verb::help).collect::<Vec<_>>().join("\n")
}
