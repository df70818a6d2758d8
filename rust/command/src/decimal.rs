//! Whole numbers and decimals of any length as digits.

use crate::digits::digits;

/// Adds the number's digits.
pub fn push_number(out: &mut Vec<u8>, number: u64) {
    let mut digits = [0; 20];
    let mut start = digits.len();
    let mut rest = number;
    loop {
        start -= 1;
        digits[start] = b'0' + (rest % 10) as u8;
        rest /= 10;
        if rest == 0 {
            break;
        }
    }
    out.extend_from_slice(&digits[start..]);
}

/// Adds the number's digits, with its sign.
pub fn push_signed(out: &mut Vec<u8>, number: i64) {
    if number < 0 {
        out.push(b'-');
    }
    push_number(out, number.unsigned_abs());
}

/// Adds a decimal: a whole number without its point, and how many digits stand behind the point.
pub fn push_decimal(out: &mut Vec<u8>, number: i64, scale: u32) {
    let mut digits = Vec::with_capacity(20);
    push_number(&mut digits, number.unsigned_abs());
    push_pointed(out, number < 0, &digits, scale as usize);
}

/// Adds a decimal whose number without its point is big endian, two's complement, of any length.
pub fn push_large_decimal(out: &mut Vec<u8>, bytes: &[u8], scale: u32) {
    let negative = bytes.first().is_some_and(|byte| byte & 0x80 != 0);
    let all = match bytes.len() {
        0..=16 => short_digits(bytes, negative),
        _ => digits(&magnitude(bytes, negative)),
    };
    push_pointed(out, negative, &all, scale as usize);
}

/// Adds sign, digits and point; at least one digit stands before the point.
fn push_pointed(out: &mut Vec<u8>, negative: bool, digits: &[u8], scale: usize) {
    if negative {
        out.push(b'-');
    }
    let before = digits.len().saturating_sub(scale);
    if before == 0 {
        out.push(b'0');
    }
    out.extend_from_slice(&digits[..before]);
    if scale > 0 {
        out.push(b'.');
        out.resize(out.len() + scale.saturating_sub(digits.len()), b'0');
        out.extend_from_slice(&digits[before..]);
    }
}

/// The digits of up to 16 bytes, without the sign.
fn short_digits(bytes: &[u8], negative: bool) -> Vec<u8> {
    let start: i128 = if negative { -1 } else { 0 };
    let number = bytes.iter().fold(start, |number, byte| number << 8 | i128::from(*byte));
    number.unsigned_abs().to_string().into_bytes()
}

/// The number without its sign in parts of 32 bits, the low one first.
fn magnitude(bytes: &[u8], negative: bool) -> Vec<u32> {
    let fill = if negative { 0xFF } else { 0 };
    let mut parts = Vec::with_capacity(bytes.len() / 4 + 1);
    let mut carry = negative;
    for chunk in bytes.rchunks(4) {
        let mut wide = [fill; 4];
        wide[4 - chunk.len()..].copy_from_slice(chunk);
        let part = u32::from_be_bytes(wide);
        let (part, more) =
            if negative { (!part).overflowing_add(carry.into()) } else { (part, false) };
        parts.push(part);
        carry = more;
    }
    parts
}

#[cfg(test)]
mod tests {
    use super::*;

    fn small(number: i64, scale: u32) -> String {
        let mut out = Vec::new();
        push_decimal(&mut out, number, scale);
        String::from_utf8(out).unwrap()
    }

    fn large(bytes: &[u8], scale: u32) -> String {
        let mut out = Vec::new();
        push_large_decimal(&mut out, bytes, scale);
        String::from_utf8(out).unwrap()
    }

    #[test]
    fn small_decimals() {
        for (number, scale, wanted) in [
            (0, 0, "0"),
            (0, 2, "0.00"),
            (5, 2, "0.05"),
            (-5, 1, "-0.5"),
            (-5, 3, "-0.005"),
            (12345, 2, "123.45"),
            (100, 2, "1.00"),
            (i64::MIN, 0, "-9223372036854775808"),
            (i64::MAX, 18, "9.223372036854775807"),
        ] {
            assert_eq!(small(number, scale), wanted);
        }
    }

    #[test]
    fn large_decimals() {
        for (bytes, scale, wanted) in [
            ([0].as_slice(), 0, "0"),
            (&[0xFF], 1, "-0.1"),
            (&[0x80], 0, "-128"),
            (&[0x00, 0x80], 0, "128"),
            (&[0x7F; 16], 0, "169473963133173273960190490760135540607"),
            (&[0xFF; 40], 3, "-0.001"),
            (&[0; 17], 2, "0.00"),
        ] {
            assert_eq!(large(bytes, scale), wanted);
        }
        // 2^128, -2^136, 2^160 - 1 and -2^159.
        let two_128 = [[1].as_slice(), &[0; 16]].concat();
        assert_eq!(large(&two_128, 0), "340282366920938463463374607431768211456");
        let minus_two_136 = [[0xFF].as_slice(), &[0; 17]].concat();
        assert_eq!(large(&minus_two_136, 0), "-87112285931760246646623899502532662132736");
        let minus_two_159 = [[0x80].as_slice(), &[0; 19]].concat();
        assert_eq!(large(&minus_two_159, 0), "-730750818665451459101842416358141509827966271488");
        let two_160_less_1 = [[0].as_slice(), &[0xFF; 20]].concat();
        assert_eq!(large(&two_160_less_1, 4), "146150163733090291820368483271628301965593254.2975");
    }

    #[test]
    fn long_and_short_agree() {
        let mut seed = 1_u64;
        for length in 1..=16 {
            for _ in 0..200 {
                let mut bytes = Vec::new();
                for _ in 0..length {
                    seed = seed.wrapping_mul(6364136223846793005).wrapping_add(1442695040888963407);
                    bytes.push((seed >> 33) as u8);
                }
                let negative = bytes[0] & 0x80 != 0;
                let long = digits(&magnitude(&bytes, negative));
                assert_eq!(long, short_digits(&bytes, negative), "{bytes:?}");
            }
        }
    }
}
