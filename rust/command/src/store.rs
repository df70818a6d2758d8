//! The verbs store put, store fetch, store drop and store list: a saved store in a file.

use crate::arguments::{Arguments, Choice};
use crate::bitmap::form_room;
use crate::console::Console;
use crate::decimal::push_number;
use crate::fault::{quoted, Fault, Outcome};
use crate::{source, target};
use barcovento::{Refusal, Store};
use std::ffi::OsStr;
use std::fs::File;
use std::path::Path;

pub fn put(arguments: &Arguments, console: &mut Console) -> Outcome<()> {
    arguments.count(&["STORE", "SLOT", "BITMAP"], false)?;
    let [file, _, bitmap] = &arguments.operands[..] else { unreachable!("three operands") };
    source::once(arguments, [file.as_os_str(), bitmap.as_os_str()].into_iter())?;
    let (slot, owner) = (arguments.operand(1, "a slot")?, owner(arguments)?.unwrap_or(0));
    let room = store_room(arguments)?;
    let bytes = source::read(bitmap, source::BITMAP)?;
    let _held = hold(file);
    let begins = !source::is_standard(file) && !exists(file);
    let mut store = if begins { Store::new(room) } else { load(file, room)? };
    store.put(owner, slot, &bytes).map_err(|refusal| {
        let name = if refusal.fault().is_some() { bitmap } else { file };
        Fault::refused(source::name(name), &refusal)
    })?;
    if begins {
        console.say(&[b"barcovento: creating ".as_slice(), &target::name(file)].concat());
    }
    target::write(console, file, &store.save())
}

pub fn fetch(arguments: &Arguments, console: &mut Console) -> Outcome<()> {
    arguments.count(&["STORE", "SLOT", "OUT"], false)?;
    let [file, _, out] = &arguments.operands[..] else { unreachable!("three operands") };
    let (slot, owner) = (arguments.operand(1, "a slot")?, owner(arguments)?.unwrap_or(0));
    let mut form = vec![0; form_room(arguments)?];
    let store = load(file, Store::LARGEST)?;
    let length = store.fetch_into(owner, slot, &mut form).map_err(|refusal| {
        let name = if refusal.number() == 13 { target::name(out) } else { source::name(file) };
        Fault::refused(name, &refusal)
    })?;
    target::write(console, out, &form[..length])
}

pub fn drop_slot(arguments: &Arguments, console: &mut Console) -> Outcome<()> {
    arguments.count(&["STORE", "SLOT"], false)?;
    let file = &arguments.operands[0];
    let (slot, owner) = (arguments.operand(1, "a slot")?, owner(arguments)?.unwrap_or(0));
    let room = store_room(arguments)?;
    let _held = hold(file);
    let mut store = load(file, room)?;
    store.remove(owner, slot).map_err(|refusal| Fault::refused(source::name(file), &refusal))?;
    target::write(console, file, &store.save())
}

pub fn list(arguments: &Arguments, console: &mut Console) -> Outcome<()> {
    arguments.count(&["STORE"], false)?;
    let file = &arguments.operands[0];
    let wanted = owner(arguments)?;
    let store = load(file, Store::LARGEST)?;
    console.buffer.extend_from_slice(b"slot\towner\tmembers\tbytes\n");
    for slot in store.slots() {
        let owner = Store::owner_of(slot);
        if wanted.is_some_and(|wanted| wanted != owner) {
            continue;
        }
        let refused = |refusal: Refusal| Fault::refused(source::name(file), &refusal);
        let members = store.fetch(owner, slot).map_err(refused)?.len();
        for (number, end) in [(slot, b'\t'), (owner, b'\t'), (members, b'\t')] {
            push_number(&mut console.buffer, number.into());
            console.buffer.push(end);
        }
        push_number(&mut console.buffer, store.length_of(slot) as u64);
        console.buffer.push(b'\n');
    }
    console.step()
}

/// Holds a store that will be changed.
fn hold(file: &OsStr) -> Option<File> {
    (!source::is_standard(file)).then(|| target::hold(file)).flatten()
}

/// Whether there is a file of this name, also one that cannot be read.
fn exists(file: &OsStr) -> bool {
    Path::new(file).try_exists().unwrap_or(true)
}

/// The saved store in a buffer of this many bytes.
fn load(file: &OsStr, room: usize) -> Outcome<Store> {
    let saved = source::read(file, source::STORE)?;
    Store::load(&saved, room).map_err(|refusal| Fault::refused(source::name(file), &refusal))
}

/// The length of the store's buffer: what `--room` says, and never more than any store needs.
fn store_room(arguments: &Arguments) -> Outcome<usize> {
    let room = arguments.number(Choice::Room, "bytes of room")?;
    Ok(room.unwrap_or(Store::LARGEST).min(Store::LARGEST))
}

/// The owner that `--owner` names.
fn owner(arguments: &Arguments) -> Outcome<Option<u32>> {
    match arguments.value(Choice::Owner) {
        None => Ok(None),
        Some(word) if word == "0" => Ok(Some(0)),
        Some(word) if word == "1" => Ok(Some(1)),
        Some(word) => arguments.wrong(format!("the owner is 0 or 1, not {}", quoted(word))),
    }
}
