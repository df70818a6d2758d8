//! A bitmap as a value: a set of positions, held as its one written form.

use crate::bitmap::{self, Listing, Operation};
use crate::refusal::Refusal;
use std::fmt;
use std::ops::{BitAnd, BitOr, BitXor, Sub};

/// How many members a page of a listing has at most.
const PAGE: u32 = 65_536;

/// The form of the empty set.
const EMPTY: [u8; 6] = [1, 0, 0, 0, 0, 0];

/// A set of positions below 2,097,152, held as its one written form: two bitmaps are equal, and have
/// equal bytes, exactly if they have the same members.
#[derive(Clone, PartialEq, Eq, Hash)]
pub struct Bitmap {
    form: Vec<u8>,
    cardinality: u32,
}

impl Bitmap {
    /// The set that these bytes stand for, whoever wrote them. Refusals 1 to 11.
    pub fn from_bytes(bytes: &[u8]) -> Result<Bitmap, Refusal> {
        combined(Operation::Union, bytes, &EMPTY).map(Bitmap::of_form)
    }

    /// The set of these strictly rising positions. Refusal 12.
    pub fn from_positions(positions: &[u32]) -> Result<Bitmap, Refusal> {
        let containers = positions.last().map_or(0, |last| *last as usize / 256 + 1);
        let mut form = vec![0; bitmap::form_room(containers).min(bitmap::LONGEST_FORM)];
        let length = bitmap::write(positions, &mut form)?;
        form.truncate(length);
        form.shrink_to_fit();
        Ok(Bitmap { form, cardinality: positions.len() as u32 })
    }

    /// A written form, as a call gave it: its cardinality stands in bytes 1 to 3.
    pub(crate) fn of_form(form: Vec<u8>) -> Bitmap {
        let cardinality = u32::from_le_bytes([form[1], form[2], form[3], 0]);
        Bitmap { form, cardinality }
    }

    /// The one written form.
    pub fn as_bytes(&self) -> &[u8] {
        &self.form
    }

    /// The one written form.
    pub fn into_bytes(self) -> Vec<u8> {
        self.form
    }

    /// The number of members.
    pub fn len(&self) -> u32 {
        self.cardinality
    }

    /// Whether there is no member.
    pub fn is_empty(&self) -> bool {
        self.cardinality == 0
    }

    /// Whether the position is a member.
    pub fn contains(&self, position: u32) -> bool {
        sound(bitmap::probe(&self.form, position))
    }

    /// How many members lie below the position.
    pub fn rank(&self, position: u32) -> u32 {
        sound(bitmap::rank(&self.form, position))
    }

    /// The members in rising order, listed by pages.
    pub fn iter(&self) -> Members<'_> {
        let list = vec![0; self.cardinality.min(PAGE) as usize];
        Members { bytes: &self.form, listing: Listing::default(), list, next: 0, end: 0 }
    }

    /// The set that an operation makes of this one and another.
    pub fn combine(&self, operation: Operation, other: &Bitmap) -> Bitmap {
        Bitmap::of_form(sound(combined(operation, &self.form, &other.form)))
    }
}

/// The form of two bitmaps combined, in a vector of its length.
fn combined(operation: Operation, a: &[u8], b: &[u8]) -> Result<Vec<u8>, Refusal> {
    let mut form = vec![0; bitmap::combined_room(a, b)];
    let length = bitmap::combine(operation, a, b, &mut form)?;
    form.truncate(length);
    form.shrink_to_fit();
    Ok(form)
}

/// The answer of a call on written forms, which are never refused.
fn sound<T>(answer: Result<T, Refusal>) -> T {
    answer.expect("a written form is accepted")
}

impl fmt::Debug for Bitmap {
    fn fmt(&self, f: &mut fmt::Formatter<'_>) -> fmt::Result {
        write!(f, "Bitmap({} members, {} bytes)", self.cardinality, self.form.len())
    }
}

impl AsRef<[u8]> for Bitmap {
    fn as_ref(&self) -> &[u8] {
        &self.form
    }
}

macro_rules! operator {
    ($($trait:ident $method:ident $operation:ident;)*) => {$(
        impl $trait for &Bitmap {
            type Output = Bitmap;

            fn $method(self, other: &Bitmap) -> Bitmap {
                self.combine(Operation::$operation, other)
            }
        }
    )*};
}
operator! {
    BitOr bitor Union;
    BitAnd bitand Intersection;
    Sub sub Difference;
    BitXor bitxor SymmetricDifference;
}

/// The members of a bitmap in rising order, listed by pages.
#[derive(Clone, Debug)]
pub struct Members<'a> {
    bytes: &'a [u8],
    listing: Listing,
    list: Vec<u32>,
    next: usize,
    end: usize,
}

impl Members<'_> {
    /// The members of any bytes that are a bitmap, read as they are. Refusals 1 to 11.
    pub fn of(bytes: &[u8]) -> Result<Members<'_>, Refusal> {
        let room = bitmap::check(bytes)?.min(PAGE) as usize;
        Ok(Members { bytes, listing: Listing::default(), list: vec![0; room], next: 0, end: 0 })
    }
}

impl Iterator for Members<'_> {
    type Item = u32;

    fn next(&mut self) -> Option<u32> {
        if self.next == self.end {
            if self.listing.finished {
                return None;
            }
            self.next = 0;
            self.end = sound(bitmap::page(self.bytes, &mut self.listing, &mut self.list));
            if self.end == 0 {
                return None;
            }
        }
        self.next += 1;
        Some(self.list[self.next - 1])
    }
}

impl<'a> IntoIterator for &'a Bitmap {
    type Item = u32;
    type IntoIter = Members<'a>;

    fn into_iter(self) -> Members<'a> {
        self.iter()
    }
}
