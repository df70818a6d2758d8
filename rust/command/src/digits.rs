//! The decimal digits of very long numbers: the two halves are converted on their own, and then joined by
//! a multiplication in parts of nine digits (Karatsuba's, so that long numbers do not take forever).

/// Parts have nine digits, the low one first.
const PART: u64 = 1_000_000_000;

/// Numbers of up to so many parts are converted and multiplied in the plain way.
const SHORT: usize = 32;

/// The digits of a number in parts of 32 bits, the low one first.
pub fn digits(binary: &[u32]) -> Vec<u8> {
    let mut powers = Vec::new();
    let parts = convert(binary, &mut powers);
    let mut digits = Vec::with_capacity(9 * parts.len() + 1);
    for part in parts.iter().rev() {
        digits.extend_from_slice(format!("{part:09}").as_bytes());
    }
    let zeros = digits.iter().take_while(|digit| **digit == b'0').count();
    digits.drain(..zeros.min(digits.len().saturating_sub(1)));
    if digits.is_empty() {
        digits.push(b'0');
    }
    digits
}

/// The number in parts of nine digits. The powers are 2 to the 32, to the 64, to the 128 and so on.
fn convert(binary: &[u32], powers: &mut Vec<Vec<u32>>) -> Vec<u32> {
    if binary.len() <= SHORT {
        return convert_short(binary);
    }
    let level = (binary.len() - 1).ilog2() as usize;
    let (low, high) = binary.split_at(1 << level);
    let (low, high) = (convert(low, powers), convert(high, powers));
    let mut both = product(&high, power(level, powers));
    add_at(&mut both, &low, 0);
    both
}

/// The power of 2 to the 32 times 2 to the level.
fn power(level: usize, powers: &mut Vec<Vec<u32>>) -> &[u32] {
    if powers.is_empty() {
        powers.push(vec![294_967_296, 4]);
    }
    while powers.len() <= level {
        let last = &powers[powers.len() - 1];
        powers.push(product(last, last));
    }
    &powers[level]
}

/// The number in parts of nine digits, each the rest of a division.
fn convert_short(binary: &[u32]) -> Vec<u32> {
    let mut binary = binary.to_vec();
    let mut parts = Vec::new();
    while let Some(last) = binary.iter().rposition(|part| *part != 0) {
        binary.truncate(last + 1);
        let mut rest = 0;
        for part in binary.iter_mut().rev() {
            let both = rest << 32 | u64::from(*part);
            *part = (both / PART) as u32;
            rest = both % PART;
        }
        parts.push(rest as u32);
    }
    parts
}

/// The product of two numbers in parts of nine digits, without zeros at the high end.
fn product(a: &[u32], b: &[u32]) -> Vec<u32> {
    if a.len().min(b.len()) <= SHORT {
        return product_short(a, b);
    }
    let half = a.len().max(b.len()).div_ceil(2);
    let (a_low, a_high) = a.split_at(half.min(a.len()));
    let (b_low, b_high) = b.split_at(half.min(b.len()));
    let (low, high) = (product(a_low, b_low), product(a_high, b_high));
    let mut middle = product(&sum(a_low, a_high), &sum(b_low, b_high));
    subtract(&mut middle, &low);
    subtract(&mut middle, &high);
    let mut all = low;
    add_at(&mut all, &middle, half);
    add_at(&mut all, &high, 2 * half);
    all
}

fn product_short(a: &[u32], b: &[u32]) -> Vec<u32> {
    let mut all = vec![0_u32; a.len() + b.len()];
    for (at, factor) in a.iter().enumerate() {
        let mut carry = 0;
        for (part, other) in all[at..].iter_mut().zip(b) {
            let next = u64::from(*part) + u64::from(*factor) * u64::from(*other) + carry;
            *part = (next % PART) as u32;
            carry = next / PART;
        }
        all[at + b.len()] = carry as u32;
    }
    trim(&mut all);
    all
}

fn sum(a: &[u32], b: &[u32]) -> Vec<u32> {
    let mut both = a.to_vec();
    add_at(&mut both, b, 0);
    both
}

/// Adds a number, moved up by so many parts.
fn add_at(all: &mut Vec<u32>, more: &[u32], at: usize) {
    if all.len() < at + more.len() {
        all.resize(at + more.len(), 0);
    }
    let mut carry = 0;
    for (index, part) in all[at..].iter_mut().enumerate() {
        if carry == 0 && index >= more.len() {
            break;
        }
        let next = u64::from(*part) + u64::from(more.get(index).copied().unwrap_or(0)) + carry;
        *part = (next % PART) as u32;
        carry = next / PART;
    }
    if carry > 0 {
        all.push(carry as u32);
    }
    trim(all);
}

/// Takes away a number that is no larger.
fn subtract(all: &mut Vec<u32>, less: &[u32]) {
    let mut borrow = 0;
    for (index, part) in all.iter_mut().enumerate() {
        let next =
            PART + u64::from(*part) - u64::from(less.get(index).copied().unwrap_or(0)) - borrow;
        *part = (next % PART) as u32;
        borrow = u64::from(next < PART);
    }
    trim(all);
}

/// Drops zeros at the high end.
fn trim(parts: &mut Vec<u32>) {
    let length = parts.iter().rposition(|part| *part != 0).map_or(0, |last| last + 1);
    parts.truncate(length);
}

#[cfg(test)]
mod tests {
    use super::*;

    /// The same digits, by divisions alone.
    fn plain(binary: &[u32]) -> String {
        let parts = convert_short(binary);
        let digits: String = parts.iter().rev().map(|part| format!("{part:09}")).collect();
        let digits = digits.trim_start_matches('0');
        if digits.is_empty() {
            "0".to_string()
        } else {
            digits.to_string()
        }
    }

    #[test]
    fn long_numbers_by_halves() {
        let mut seed = 7_u64;
        let mut next = || {
            seed = seed.wrapping_mul(6364136223846793005).wrapping_add(1442695040888963407);
            (seed >> 32) as u32
        };
        for length in (0..300).chain([511, 512, 513, 1000, 2048, 2049]) {
            let mut random: Vec<u32> = (0..length).map(|_| next()).collect();
            let mut one_bit = vec![0; length];
            if let Some(last) = one_bit.last_mut() {
                *last = 1;
            }
            for number in [&random, &vec![u32::MAX; length], &one_bit, &vec![0; length]] {
                assert_eq!(String::from_utf8(digits(number)).unwrap(), plain(number), "{length}");
            }
            random.iter_mut().step_by(3).for_each(|part| *part = 0);
            assert_eq!(String::from_utf8(digits(&random)).unwrap(), plain(&random), "{length}");
        }
    }
}
