//! Seven-bit-group numbers: low group first, high bit set on all but the last byte, at most 5 bytes,
//! at most 4,294,967,295. Any such form is read, padded or not.

#[cfg(test)]
pub mod old;
#[cfg(test)]
mod tests;

#[derive(Clone, Copy, Debug, PartialEq, Eq)]
pub enum Fault {
    CutShort,
    IllFormed,
}

/// The number at the place, and the place after it.
pub fn read(bytes: &[u8], place: usize) -> Result<(u32, usize), Fault> {
    #[cfg(test)]
    if old::in_force() {
        return old::read(bytes, place);
    }
    let number = read_any_form(bytes, place);
    #[cfg(test)]
    old::note(bytes, place, number);
    number
}

fn read_any_form(bytes: &[u8], place: usize) -> Result<(u32, usize), Fault> {
    let mut value = 0;
    for i in 0..5 {
        let &byte = bytes.get(place + i).ok_or(Fault::CutShort)?;
        if i == 4 && byte > 0x0F {
            return Err(Fault::IllFormed);
        }
        value |= u32::from(byte & 0x7F) << (7 * i);
        if byte < 0x80 {
            return Ok((value, place + i + 1));
        }
    }
    Err(Fault::IllFormed)
}

/// A number that stands in bytes.
#[derive(Clone, Copy, Debug, PartialEq, Eq)]
pub struct Number {
    pub value: u32,
    /// The place after it.
    pub next: usize,
    /// Whether no form of the number has fewer bytes.
    pub shortest: bool,
}

/// The number at the place, with its mark.
pub fn read_marked(bytes: &[u8], place: usize) -> Result<Number, Fault> {
    let (value, next) = read(bytes, place)?;
    Ok(Number { value, next, shortest: is_shortest(&bytes[place..next]) })
}

/// Whether a number's bytes are one byte, or end in one that is not 0.
fn is_shortest(number: &[u8]) -> bool {
    number.len() == 1 || !number.ends_with(&[0])
}

/// The number's shortest form, and how many bytes it has.
pub fn shortest(value: u32) -> ([u8; 5], usize) {
    let (mut form, mut length, mut rest) = ([0; 5], 0, value);
    loop {
        form[length] = rest as u8 & 0x7F;
        rest >>= 7;
        length += 1;
        if rest == 0 {
            return (form, length);
        }
        form[length - 1] |= 0x80;
    }
}
