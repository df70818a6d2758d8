//! The verbs union, intersection, difference and symmetric-difference.

use crate::arguments::{Arguments, Choice};
use crate::bitmap::form_room;
use crate::console::Console;
use crate::fault::{Fault, Outcome};
use crate::{source, target};
use barcovento::bitmap::{self, combined_room, Operation};
use std::ffi::OsString;

pub fn union(arguments: &Arguments, console: &mut Console) -> Outcome<()> {
    combine(arguments, console, Operation::Union)
}

pub fn intersection(arguments: &Arguments, console: &mut Console) -> Outcome<()> {
    combine(arguments, console, Operation::Intersection)
}

pub fn difference(arguments: &Arguments, console: &mut Console) -> Outcome<()> {
    combine(arguments, console, Operation::Difference)
}

pub fn symmetric_difference(arguments: &Arguments, console: &mut Console) -> Outcome<()> {
    combine(arguments, console, Operation::SymmetricDifference)
}

/// Combines the inputs one after the other, from the left.
fn combine(arguments: &Arguments, console: &mut Console, operation: Operation) -> Outcome<()> {
    arguments.count(&["the first FILE", "the second FILE"], true)?;
    let inputs = &arguments.operands;
    source::once(arguments, inputs.iter().map(OsString::as_os_str))?;
    let Some(out) = arguments.value(Choice::Output) else {
        return arguments.wrong("-o OUT is missing".to_string());
    };
    let room = form_room(arguments)?;
    let mut form = source::read(&inputs[0], source::BITMAP)?;
    for index in 1..inputs.len() {
        let next = source::read(&inputs[index], source::BITMAP)?;
        let enough = combined_room(&form, &next);
        let last = index + 1 == inputs.len();
        let mut made = vec![0; if last { enough.min(room) } else { enough }];
        let length = bitmap::combine(operation, &form, &next, &mut made).map_err(|refusal| {
            let name = match refusal.fault() {
                Some(_) => source::name(&inputs[index - 1 + refusal.input()]),
                None => target::name(out),
            };
            Fault::refused(name, &refusal)
        })?;
        made.truncate(length);
        form = made;
    }
    target::write(console, out, &form)
}
