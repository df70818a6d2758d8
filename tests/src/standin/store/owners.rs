//! Wrong programs for owners: which slots they have, and where their halves lie.

use super::super::planted;
use crate::generate::store::{own_slots, owner_of, OWN_SLOTS, SLOTS};

pub const FAULTS: [&str; 30] = [
    "slot-63-refused",
    "slot-64-accepted",
    "slot-in-a-byte",
    "slot-modulo-64",
    "slot-modulo-32",
    "border-at-31",
    "border-at-33",
    "44-before-40",
    "owner-over-1-before-the-slot",
    "put-without-44",
    "fetch-without-44",
    "drop-without-44",
    "put-44-for-owner-1-alone",
    "fetch-44-for-owner-0-alone",
    "the-others-slot-is-absent",
    "the-others-slot-is-empty",
    "owner-modulo-2",
    "owner-in-a-byte",
    "owner-over-1-as-0",
    "owner-over-1-as-1",
    "owner-over-1-has-all",
    "owner-over-1-is-absent",
    "half-rounded-up",
    "half-rounded-to-eight",
    "odd-byte-used",
    "odd-byte-between-halves",
    "halves-swapped",
    "halves-as-the-whole-buffer",
    "starts-from-the-buffer",
    "starts-one-byte-early",
];

/// The calls of an owner.
#[derive(Clone, Copy, PartialEq, Eq)]
pub enum Of {
    Put,
    Fetch,
    Drop,
}

impl Of {
    /// Whether a fault of this call alone is planted.
    pub fn planted(self, put: &str, fetch: &str, drop: &str) -> bool {
        planted(match self {
            Of::Put => put,
            Of::Fetch => fetch,
            Of::Drop => drop,
        })
    }
}

/// The owner that has the slot, and the slot: 40, then 44.
pub fn own_slot(of: Of, owner: u32, slot: u32) -> Result<(usize, usize), u32> {
    let owner = taken(owner);
    if planted("44-before-40") && slot / OWN_SLOTS as u32 != owner
        || planted("owner-over-1-before-the-slot") && owner > 1
    {
        return Err(44);
    }
    let slot = slot_index(slot)?;
    let own = owner_of(slot);
    if own as u32 == border(owner, slot) || allowed(of, owner) {
        return Ok((own, slot));
    }
    match () {
        () if planted("slot-modulo-32") && owner < 2 => {
            Ok((owner as usize, own_slots(owner as usize).start + slot % OWN_SLOTS))
        }
        () if planted("the-others-slot-is-absent") && owner < 2 => Err(40),
        () if planted("the-others-slot-is-empty") && of != Of::Put => Err(41),
        () if planted("owner-over-1-is-absent") && owner > 1 => Err(40),
        () => Err(44),
    }
}

/// The owner that is taken for the one that calls.
fn taken(owner: u32) -> u32 {
    match () {
        () if planted("owner-modulo-2") => owner % 2,
        () if planted("owner-in-a-byte") => owner % 256,
        () if planted("owner-over-1-as-0") && owner > 1 => 0,
        () if planted("owner-over-1-as-1") => owner.min(1),
        () => owner,
    }
}

/// The owner for which the slot is judged: the slot at the border is given to the wrong one.
fn border(owner: u32, slot: usize) -> u32 {
    match slot {
        31 if planted("border-at-31") => 1u32.wrapping_sub(owner),
        32 if planted("border-at-33") => 1u32.wrapping_sub(owner),
        _ => owner,
    }
}

/// Whether the owner may call with every slot.
fn allowed(of: Of, owner: u32) -> bool {
    of.planted("put-without-44", "fetch-without-44", "drop-without-44")
        || owner == 0 && of.planted("put-44-for-owner-1-alone", "", "")
        || owner == 1 && of.planted("", "fetch-44-for-owner-0-alone", "")
        || owner > 1 && planted("owner-over-1-has-all")
}

/// The slot's number, or 40.
fn slot_index(slot: u32) -> Result<usize, u32> {
    match slot {
        63 if planted("slot-63-refused") => Err(40),
        64 if planted("slot-64-accepted") => Ok(0),
        _ if planted("slot-in-a-byte") && slot % 256 < 64 => Ok(slot as usize % 256),
        _ if planted("slot-modulo-64") => Ok(slot as usize % SLOTS),
        0..=63 => Ok(slot as usize),
        _ => Err(40),
    }
}

/// An owner's half of the buffer, and the place from which its starts count.
#[derive(Clone, Copy)]
pub struct Half {
    pub start: usize,
    pub end: usize,
    pub origin: usize,
}

impl Half {
    pub fn of(length: usize, owner: usize) -> Half {
        let owner = if planted("halves-swapped") { 1 - owner } else { owner };
        let half = match () {
            () if planted("half-rounded-up") => length.div_ceil(2),
            () if planted("half-rounded-to-eight") => length / 16 * 8,
            () if planted("half-in-32-bits") => length / 2 % (1 << 32),
            () => length / 2,
        };
        let start = match () {
            () if planted("odd-byte-between-halves") => owner * (length - half),
            () if planted("halves-as-the-whole-buffer") => 0,
            () => owner * half,
        };
        let end = match () {
            () if planted("odd-byte-used") && owner == 1 => length,
            () if planted("halves-as-the-whole-buffer") => length,
            () => (start + half).min(length),
        };
        let origin = match () {
            () if planted("starts-from-the-buffer") => 0,
            () if planted("starts-one-byte-early") && owner == 1 => start.max(1) - 1,
            () => start,
        };
        Half { start, end, origin }
    }

    pub fn room(self) -> usize {
        self.end - self.start
    }
}
