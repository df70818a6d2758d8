//! Numbers in groups of seven bits, low group first, as schemas, rows and buckets hold them.

use crate::raw;

/// What stands at the front of the bytes.
#[derive(Clone, Copy, Debug, PartialEq, Eq, Hash)]
pub enum Number {
    /// A number.
    Found {
        /// The number.
        value: u32,
        /// How many bytes it has.
        used: u32,
        /// Whether no form is shorter.
        shortest: bool,
    },
    /// Under five bytes are there, and all have the high bit.
    CutShort,
    /// The first four bytes have the high bit and the fifth is over 0F.
    IllFormed,
}

/// The number at the front of the bytes; what follows it is not looked at.
///
/// ```
/// use barcovento::number::{read, Number};
/// let five = [0x85, 0x80, 0x80, 0x80, 0x00];
/// assert_eq!(read(&five), Number::Found { value: 5, used: 5, shortest: false });
/// assert_eq!(read(&five[..2]), Number::CutShort);
/// ```
#[inline]
pub fn read(bytes: &[u8]) -> Number {
    let (mut found, mut value, mut used, mut shortest) = (0, 0, 0, 0);
    // SAFETY: the pointers are those of a slice and of four numbers, good for the call.
    unsafe {
        raw::bv_number_read(
            bytes.as_ptr(),
            bytes.len(),
            &mut found,
            &mut value,
            &mut used,
            &mut shortest,
        )
    };
    match found {
        raw::NUMBER => Number::Found { value, used, shortest: shortest == 1 },
        raw::CUT_SHORT => Number::CutShort,
        _ => Number::IllFormed,
    }
}
