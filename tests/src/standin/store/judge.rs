//! Wrong judges of a store.

use super::super::planted;
use super::forms::is_form;
use super::owners::{own_slot, Half, Of};
use crate::generate::store::{own_slots, Entries, NUMBERS, OWN_SLOTS, SLOTS};

pub const FAULTS: [&str; 35] = [
    "slot-after-the-store",
    "44-after-the-store",
    "44-after-the-numbers",
    "other-half-judged-for-44",
    "fewer-numbers-accepted",
    "more-numbers-accepted",
    "asked-slot-judged-alone",
    "asked-slot-not-judged",
    "last-slot-not-judged",
    "first-slot-not-judged",
    "slots-of-one-owner-judged",
    "other-half-judged-instead",
    "short-as-empty",
    "wild-start-refused",
    "end-wraps",
    "place-wraps",
    "end-one-past-accepted",
    "end-of-the-half-refused",
    "end-past-the-half-accepted",
    "forms-not-judged",
    "version-alone-judged",
    "overlap-not-judged",
    "overlap-of-neighbours-only",
    "overlap-within-missed",
    "overlap-of-one-byte-missed",
    "one-place-twice-accepted",
    "touching-as-overlap",
    "other-half-judged",
    "put-judges-both-halves",
    "fetch-judges-both-halves",
    "drop-judges-both-halves",
    "overlap-across-halves",
    "wild-start-of-the-other-refused",
    "short-length-of-the-other-refused",
    "full-directory-of-the-other-refused",
];

/// Faults that are seen in a buffer over 4 GiB alone.
pub const HUGE_FAULTS: [&str; 4] =
    ["end-in-32-bits", "half-end-in-32-bits", "half-in-32-bits", "buffer-in-32-bits"];

/// The owner and the slot that are asked for, and what the owner's slots hold: 40, 44, then 42.
pub fn asked(
    of: Of,
    buffer: &[u8],
    directory: &[u32],
    owner: u32,
    slot: u32,
) -> Result<(usize, usize, Entries), u32> {
    let own = own_slot(of, owner, slot);
    if own.is_err() {
        late(own.err(), buffer, directory, owner, slot)?;
    }
    let (owner, slot) = own?;
    let judged = if planted("other-half-judged-instead") { 1 - owner } else { owner };
    judge(buffer, directory, judged, Some(slot))?;
    let both =
        of.planted("put-judges-both-halves", "fetch-judges-both-halves", "drop-judges-both-halves");
    if both || planted("other-half-judged") {
        judge(buffer, directory, 1 - owner, None)?;
    }
    beside(directory, buffer.len(), owner)?;
    Ok((owner, slot, entries(buffer, directory, owner)?))
}

/// Refusals of the store that come before those of owner and slot.
fn late(
    refusal: Option<u32>,
    buffer: &[u8],
    directory: &[u32],
    owner: u32,
    slot: u32,
) -> Result<(), u32> {
    let judged = |owner: u32| match owner {
        0 | 1 => judge(buffer, directory, owner as usize, None),
        _ => Ok(()),
    };
    match refusal {
        Some(40) if planted("slot-after-the-store") => judged(owner),
        Some(44) if planted("44-after-the-store") => judged(owner),
        Some(44) if planted("other-half-judged-for-44") => judged(slot / OWN_SLOTS as u32),
        Some(44) if planted("44-after-the-numbers") && directory.len() != NUMBERS => Err(42),
        _ => Ok(()),
    }
}

/// Refusals for what stands in the other owner's numbers.
fn beside(directory: &[u32], length: usize, owner: usize) -> Result<(), u32> {
    let places = |owner| own_slots(owner).filter_map(|slot| Place::at(directory, slot));
    let wild = |place: Place| {
        let wild = place.length == 0 && place.start as usize > length;
        let short = (1..6).contains(&place.length);
        wild && planted("wild-start-of-the-other-refused")
            || short && planted("short-length-of-the-other-refused")
    };
    let full = places(1 - owner).all(|place| place.length > 0);
    if planted("overlap-across-halves") && across(directory, owner)
        || places(1 - owner).any(wild)
        || full && planted("full-directory-of-the-other-refused")
    {
        return Err(42);
    }
    Ok(())
}

/// Whether some place of the owner has numbers that overlap with the other's.
pub fn across(directory: &[u32], owner: usize) -> bool {
    let filled = |owner| {
        let places = own_slots(owner).filter_map(|slot| Place::at(directory, slot));
        places.filter(|place| place.length > 0)
    };
    filled(owner).any(|place| filled(1 - owner).any(|other| place.overlaps(other, false)))
}

/// Judges an owner's slots.
pub fn judge(
    buffer: &[u8],
    directory: &[u32],
    owner: usize,
    asked: Option<usize>,
) -> Result<(), u32> {
    let fewer = planted("fewer-numbers-accepted") && directory.len() < NUMBERS;
    let more = planted("more-numbers-accepted") && directory.len() > NUMBERS;
    if directory.len() != NUMBERS && !fewer && !more {
        return Err(42);
    }
    let half = Half::of(buffer.len(), owner);
    let mut places: Vec<(usize, Place)> = Vec::new();
    for slot in own_slots(owner) {
        let Some(place) = Place::at(directory, slot) else { continue };
        if place.is_empty(buffer.len())? || !is_judged(slot, asked) {
            continue;
        }
        place.judge(buffer, half)?;
        if places.iter().any(|&(other, before)| place.overlaps(before, slot - other == 1)) {
            return Err(42);
        }
        places.push((slot, place));
    }
    Ok(())
}

fn is_judged(slot: usize, asked: Option<usize>) -> bool {
    match () {
        () if planted("asked-slot-judged-alone") => Some(slot) == asked,
        () if planted("asked-slot-not-judged") => Some(slot) != asked,
        () if planted("last-slot-not-judged") => slot % OWN_SLOTS != OWN_SLOTS - 1,
        () if planted("first-slot-not-judged") => !slot.is_multiple_of(OWN_SLOTS),
        () if planted("slots-of-one-owner-judged") => slot < OWN_SLOTS,
        () => true,
    }
}

/// What an owner's slots hold, in a list for all 64: as much as lies in the buffer.
pub fn entries(buffer: &[u8], directory: &[u32], owner: usize) -> Result<Entries, u32> {
    let half = Half::of(buffer.len(), owner);
    let mut entries = vec![Vec::new(); SLOTS];
    for slot in own_slots(owner) {
        let Some(place) = Place::at(directory, slot) else { continue };
        if !place.is_empty(buffer.len())? {
            let [start, end] = place.ends(half).map(|end| (end as usize).min(buffer.len()));
            entries[slot] = buffer[start..end.max(start)].to_vec();
        }
    }
    Ok(entries)
}

/// Start and length of a slot.
#[derive(Clone, Copy, PartialEq, Eq)]
struct Place {
    start: u32,
    length: u32,
}

impl Place {
    /// The slot's numbers, in a directory that has them.
    fn at(directory: &[u32], slot: usize) -> Option<Place> {
        match directory.get(2 * slot..2 * slot + 2)? {
            &[start, length] => Some(Place { start, length }),
            _ => None,
        }
    }

    fn end(self) -> u64 {
        u64::from(self.start) + u64::from(self.length)
    }

    /// Where the form starts and ends in the buffer.
    fn ends(self, half: Half) -> [u64; 2] {
        let start = half.origin as u64 + u64::from(self.start);
        let start = if planted("place-wraps") { start % (1 << 32) } else { start };
        [start, start + u64::from(self.length)]
    }

    fn is_empty(self, room: usize) -> Result<bool, u32> {
        if self.length == 0 && planted("wild-start-refused") && self.start as usize > room {
            return Err(42);
        }
        Ok(self.length == 0 || planted("short-as-empty") && self.length < 6)
    }

    fn judge(self, buffer: &[u8], half: Half) -> Result<(), u32> {
        let room = half.room() as u64;
        let wrapped = self.end() > u64::from(u32::MAX) && self.end() - (1 << 32) <= room;
        let [start, end] = self.ends(half);
        let most = match () {
            () if planted("end-past-the-half-accepted") => buffer.len() as u64,
            () if planted("half-end-in-32-bits") => half.end as u64 % (1 << 32),
            () if planted("buffer-in-32-bits") => {
                (half.end as u64).min(buffer.len() as u64 % (1 << 32))
            }
            () => half.end as u64,
        };
        if planted("end-wraps") && wrapped || planted("end-one-past-accepted") && end == most + 1 {
            return Ok(());
        }
        let long = planted("end-in-32-bits") && self.end() > u64::from(u32::MAX);
        let before = start < half.start as u64 && !planted("place-wraps");
        if long || before || end + u64::from(planted("end-of-the-half-refused")) > most {
            return Err(42);
        }
        let bytes = &buffer[start as usize..end as usize];
        let sound = match () {
            () if planted("forms-not-judged") => true,
            () if planted("version-alone-judged") => bytes.len() > 5 && bytes[0] == 1,
            () => is_form(bytes),
        };
        if sound {
            Ok(())
        } else {
            Err(42)
        }
    }

    fn overlaps(self, other: Place, neighbour: bool) -> bool {
        let (low, high) = if self.start <= other.start { (self, other) } else { (other, self) };
        let start = u64::from(high.start);
        match () {
            () if planted("overlap-not-judged") => false,
            () if planted("overlap-of-neighbours-only") => neighbour && start < low.end(),
            () if planted("overlap-within-missed") => start < low.end() && low.end() < high.end(),
            () if planted("overlap-of-one-byte-missed") => start + 1 < low.end(),
            () if planted("one-place-twice-accepted") => self != other && start < low.end(),
            () if planted("touching-as-overlap") => start <= low.end(),
            () => start < low.end(),
        }
    }
}
