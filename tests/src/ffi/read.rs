//! The reading calls of bitmaps.

use super::{mark, settle, within, Called, Lent, Memory};
use crate::generate::Random;
use crate::reference::bitmap::explain::Fault;
use barcovento::raw::{
    bv_bitmap_check, bv_bitmap_explain, bv_bitmap_page, bv_bitmap_probe, bv_bitmap_rank,
};

pub fn check(bytes: &Lent<u8>, random: &mut Random) -> Called<u32> {
    let mut cardinality = Lent::output("cardinality", 1, random);
    let code = unsafe { bv_bitmap_check(bytes.pointer(), bytes.length, cardinality.pointer_mut()) };
    settle(code, &[bytes], &[(&cardinality, 1)], || cardinality.value())
}

pub fn probe(bytes: &Lent<u8>, position: u32, random: &mut Random) -> Called<bool> {
    let mut member = Lent::output("member", 1, random);
    let code =
        unsafe { bv_bitmap_probe(bytes.pointer(), bytes.length, position, member.pointer_mut()) };
    match settle(code, &[bytes], &[(&member, 1)], || member.value())? {
        Ok(value) => Ok(Ok(mark("member", value)?)),
        Err(refusal) => Ok(Err(refusal)),
    }
}

pub fn rank(bytes: &Lent<u8>, position: u32, random: &mut Random) -> Called<u32> {
    let mut below = Lent::output("below", 1, random);
    let code =
        unsafe { bv_bitmap_rank(bytes.pointer(), bytes.length, position, below.pointer_mut()) };
    settle(code, &[bytes], &[(&below, 1)], || below.value())
}

/// The place and mark after a page, and the members that it gave.
pub type Page = (u32, u8, Vec<u32>);

pub fn page(
    bytes: &Lent<u8>,
    place: u32,
    finished: u8,
    room: usize,
    random: &mut Random,
) -> Called<Page> {
    let mut place = Lent::scalar("place", place, random);
    let mut finished = Lent::scalar("finished", finished, random);
    let mut given = Lent::output("given", 1, random);
    let mut list = Lent::output("list", room, random);
    let code = unsafe {
        bv_bitmap_page(
            bytes.pointer(),
            bytes.length,
            place.pointer_mut(),
            finished.pointer_mut(),
            list.pointer_mut(),
            room,
            given.pointer_mut(),
        )
    };
    let mut count = 0;
    if code == 0 {
        count = within("given", given.value() as usize, room)?;
    }
    let outputs: [(&dyn Memory, usize); 4] =
        [(&place, 1), (&finished, 1), (&list, count), (&given, 1)];
    settle(code, &[bytes], &outputs, || {
        (place.value(), finished.value(), list.content()[..count].to_vec())
    })
}

/// The five numbers that the call sets, whatever the bytes.
pub fn explain(bytes: &Lent<u8>, random: &mut Random) -> Result<Fault, String> {
    let mut number = Lent::output("number", 1, random);
    let mut places =
        ["index", "byte", "found", "wanted"].map(|name| Lent::<usize>::output(name, 1, random));
    let [index, byte, found, wanted] = places.each_mut().map(Lent::pointer_mut);
    let number_pointer = number.pointer_mut();
    let code = unsafe {
        bv_bitmap_explain(bytes.pointer(), bytes.length, number_pointer, index, byte, found, wanted)
    };
    if code != 0 {
        return Err(format!("the call returned {code}, not 0"));
    }
    bytes.unharmed(0)?;
    number.unharmed(1)?;
    places.iter().try_for_each(|output| output.unharmed(1))?;
    let [index, byte, found, wanted] = places.each_ref().map(Lent::value);
    Ok(Fault { number: number.value(), index, byte, found, wanted })
}
