//! The calls on bitmaps, each on slices: every one judges its bitmaps whole.
//!
//! ```
//! use barcovento::bitmap::{self, Listing};
//! let mut form = [0; 64];
//! let length = bitmap::write(&[0, 34, 255], &mut form)?;
//! let form = &form[..length];
//! assert_eq!((bitmap::check(form)?, bitmap::probe(form, 34)?, bitmap::rank(form, 34)?), (3, true, 1));
//!
//! let (mut listing, mut list) = (Listing::default(), [0; 2]);
//! assert_eq!(bitmap::page(form, &mut listing, &mut list)?, 2);
//! assert_eq!((list, listing.finished), ([0, 34], false));
//! assert_eq!(bitmap::page(form, &mut listing, &mut list)?, 1);
//! assert_eq!((list[0], listing.finished), (255, true));
//! # Ok::<(), barcovento::Refusal>(())
//! ```

use crate::raw;
use crate::refusal::{settled, Fault, Refusal};

/// One more than the largest position.
pub const POSITIONS: u32 = 2_097_152;

/// The most containers that a bitmap has.
const CONTAINERS: usize = 8_192;

/// The most bytes that a written form has: 267,366 (proved, `bitmap_laws: form-tight`).
pub const LONGEST_FORM: usize = form_room(CONTAINERS);

/// The most bytes that a written form of this many containers has (proved, `bitmap_laws: chunks-tight`): a
/// chunk of 256 descriptors and what its containers take under 32 bytes each come to 163 at most.
pub(crate) const fn form_room(containers: usize) -> usize {
    6 + 163 * containers.div_ceil(256) + 32 * containers
}

/// The number of members.
#[inline]
pub fn check(bytes: &[u8]) -> Result<u32, Refusal> {
    let mut cardinality = 0;
    // SAFETY: the pointers are those of a slice and of a number, good for the call.
    let status = unsafe { raw::bv_bitmap_check(bytes.as_ptr(), bytes.len(), &mut cardinality) };
    judged(status, bytes)?;
    Ok(cardinality)
}

/// Why the bitmap is refused; nothing if it is accepted.
#[inline]
pub fn explain(bytes: &[u8]) -> Option<Fault> {
    let mut fault = Fault { number: 0, index: 0, byte: 0, found: 0, wanted: 0 };
    // SAFETY: as in `check`; the five outputs are apart.
    unsafe {
        raw::bv_bitmap_explain(
            bytes.as_ptr(),
            bytes.len(),
            &mut fault.number,
            &mut fault.index,
            &mut fault.byte,
            &mut fault.found,
            &mut fault.wanted,
        )
    };
    Some(fault).filter(|fault| fault.number != 0)
}

/// The outcome of a call on one bitmap that returned this status.
#[inline]
fn judged(status: u32, bytes: &[u8]) -> Result<(), Refusal> {
    judged_of(status, &[bytes])
}

/// The outcome of a call on bitmaps that returned this status.
#[inline]
pub(crate) fn judged_of(status: u32, bitmaps: &[&[u8]]) -> Result<(), Refusal> {
    match status {
        0 => Ok(()),
        number => Err(refused(number, bitmaps)),
    }
}

/// The refusal of a call on bitmaps: that of a bitmap is of the first one that has a fault.
#[cold]
fn refused(number: u32, bitmaps: &[&[u8]]) -> Refusal {
    if !(1..=11).contains(&number) {
        return Refusal::new(number);
    }
    let of_bitmap =
        |(input, bytes): (usize, &&[u8])| Some(Refusal::of_bitmap(explain(bytes)?, input));
    bitmaps.iter().enumerate().find_map(of_bitmap).unwrap_or(Refusal::new(number))
}

/// Whether the position is a member.
#[inline]
pub fn probe(bytes: &[u8], position: u32) -> Result<bool, Refusal> {
    let mut member = 0;
    // SAFETY: as in `check`.
    let status =
        unsafe { raw::bv_bitmap_probe(bytes.as_ptr(), bytes.len(), position, &mut member) };
    judged(status, bytes)?;
    Ok(member == 1)
}

/// How many members lie below the position.
#[inline]
pub fn rank(bytes: &[u8], position: u32) -> Result<u32, Refusal> {
    let mut below = 0;
    // SAFETY: as in `check`.
    let status = unsafe { raw::bv_bitmap_rank(bytes.as_ptr(), bytes.len(), position, &mut below) };
    judged(status, bytes)?;
    Ok(below)
}

/// How far a listing is. The default is its start.
#[derive(Clone, Copy, Debug, Default, PartialEq, Eq)]
pub struct Listing {
    /// The next members are at or above this position.
    pub place: u32,
    /// No member remains.
    pub finished: bool,
}

/// The next members into the list, as many as it takes: how many. The listing steps on.
#[inline]
pub fn page(bytes: &[u8], listing: &mut Listing, list: &mut [u32]) -> Result<usize, Refusal> {
    let (mut given, mut finished) = (0, u8::from(listing.finished));
    // SAFETY: as in `check`; the list is lent for as many numbers as it has.
    let status = unsafe {
        raw::bv_bitmap_page(
            bytes.as_ptr(),
            bytes.len(),
            &mut listing.place,
            &mut finished,
            list.as_mut_ptr(),
            list.len(),
            &mut given,
        )
    };
    judged(status, bytes)?;
    listing.finished = finished != 0;
    Ok(given as usize)
}

/// The one written form of strictly rising positions into the output: its length. Refusals 12, 13.
#[inline]
pub fn write(positions: &[u32], out: &mut [u8]) -> Result<usize, Refusal> {
    let mut length = 0;
    // SAFETY: the pointers are those of two slices, which are apart, and of a number.
    let status = unsafe {
        raw::bv_bitmap_write(
            positions.as_ptr(),
            positions.len(),
            out.as_mut_ptr(),
            out.len(),
            &mut length,
        )
    };
    settled(status)?;
    Ok(length)
}

/// The four set operations.
#[derive(Clone, Copy, Debug, PartialEq, Eq, Hash)]
pub enum Operation {
    /// In at least one.
    Union,
    /// In both.
    Intersection,
    /// In the first only.
    Difference,
    /// In exactly one.
    SymmetricDifference,
}

impl Operation {
    /// The call of the C interface.
    pub fn call(self) -> raw::Combine {
        match self {
            Operation::Union => raw::bv_bitmap_union,
            Operation::Intersection => raw::bv_bitmap_intersection,
            Operation::Difference => raw::bv_bitmap_difference,
            Operation::SymmetricDifference => raw::bv_bitmap_symmetric_difference,
        }
    }
}

/// The one written form of the combined set into the output: its length. Refusals 1 to 11 of a, of b, 13.
#[inline]
pub fn combine(operation: Operation, a: &[u8], b: &[u8], out: &mut [u8]) -> Result<usize, Refusal> {
    let mut length = 0;
    // SAFETY: the pointers are those of slices; the output is apart from all else.
    let status = unsafe {
        operation.call()(
            a.as_ptr(),
            a.len(),
            b.as_ptr(),
            b.len(),
            out.as_mut_ptr(),
            out.len(),
            &mut length,
        )
    };
    judged_of(status, &[a, b])?;
    Ok(length)
}

/// Room that the form of two combined bitmaps never exceeds: the header counts their containers, and a
/// form has no more than the longer one.
pub fn combined_room(a: &[u8], b: &[u8]) -> usize {
    let containers = |bytes: &[u8]| match bytes {
        [_, _, _, _, low, high, ..] => usize::from(*low) + 256 * usize::from(*high),
        _ => 0,
    };
    form_room(containers(a).max(containers(b)).min(CONTAINERS))
}
