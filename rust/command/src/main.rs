//! The command line of Barcovento: bitmaps, stores of them, row blocks and buckets in files.
//!
//! The library judges every byte; the command reads files, hands them in, and prints the answers.

mod arguments;
mod bitmap;
mod check;
mod combine;
mod console;
mod decimal;
mod digits;
mod fault;
mod json;
mod source;
mod store;
mod table;
mod target;
mod text;
mod verbs;

use arguments::{Arguments, Choice};
use console::Console;
use fault::{quoted, Outcome};
use std::env;
use std::ffi::OsStr;
use std::process::ExitCode;

fn main() -> ExitCode {
    let mut console = Console::new();
    let outcome = run(&mut console).and_then(|()| console.flush());
    console.end();
    if let Err(fault) = outcome {
        console.report(&fault);
    }
    ExitCode::from(console.status())
}

fn run(console: &mut Console) -> Outcome<()> {
    let mut arguments = Arguments::parse(env::args_os().skip(1))?;
    if arguments.has(Choice::Version) {
        let version = concat!("barcovento ", env!("CARGO_PKG_VERSION"), "\n");
        console.buffer.extend_from_slice(version.as_bytes());
        return Ok(());
    }
    let helped = arguments.has(Choice::Help);
    let Some((words, verb)) = verbs::find(&arguments) else {
        return without_verb(&arguments, console, helped);
    };
    if helped {
        console.buffer.extend_from_slice(verb.help().as_bytes());
        return Ok(());
    }
    arguments.operands.drain(..words);
    arguments.verb = verb.name;
    arguments.allow(&verb.choices())?;
    (verb.run)(&arguments, console)
}

/// Help that is asked for without a verb, or a verb that is missing or unknown.
fn without_verb(arguments: &Arguments, console: &mut Console, helped: bool) -> Outcome<()> {
    let operands = &arguments.operands;
    let on_stores = operands.first().is_some_and(|word| word == "store");
    match operands.get(usize::from(on_stores)) {
        None if helped && on_stores => {
            console.buffer.extend_from_slice(verbs::help_of_stores().as_bytes());
            Ok(())
        }
        None if helped => {
            console.buffer.extend_from_slice(verbs::help_of_all().as_bytes());
            Ok(())
        }
        None if on_stores => arguments.wrong("put, fetch, drop or list is missing".to_string()),
        None => arguments.wrong("a verb is missing".to_string()),
        Some(word) if on_stores => {
            let both = [OsStr::new("store"), word].join(OsStr::new(" "));
            arguments.wrong(format!("no verb {}", quoted(&both)))
        }
        Some(word) => arguments.wrong(format!("no verb {}", quoted(word))),
    }
}
