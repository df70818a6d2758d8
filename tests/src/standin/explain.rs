//! The call that explains a refusal, and wrong programs in its place.

use super::{planted, set};
use crate::reference::bitmap::explain::{descriptors, explain, well_formed, Chunk, Fault};
use std::ops::RangeInclusive;
use std::slice::from_raw_parts;

pub fn faults() -> Vec<String> {
    let named = MEMORY.into_iter().chain(TABLES.into_iter().flatten().map(|&(name, _)| name));
    let numbers = (1..=11).map(|number| format!("explain-number-{number}"));
    named.map(str::to_string).chain(numbers).collect()
}

/// Faults in what is returned, and in what is written where.
const MEMORY: [&str; 11] = [
    "explain-returns-number",
    "explain-input-changed",
    "explain-number-as-eight-bytes",
    "explain-writes-behind-wanted",
    "explain-writes-before-index",
    "explain-number-not-set",
    "explain-index-not-set",
    "explain-byte-not-set",
    "explain-found-not-set",
    "explain-wanted-not-set",
    "explain-zeros-not-set",
];

/// What a wrong program tells of these bytes, of which this is the first fault.
type Wrong = fn(&[u8], Fault) -> Fault;
type Table = &'static [(&'static str, Wrong)];

const TABLES: [Table; 5] = [PLACES, ARRAYS, PAIRS, ORDER, MISSED];

/// Wrong indices and bytes.
const PLACES: Table = &[
    ("explain-index-0", |_, fault| when(4..=8, fault, |f| f.index = 0)),
    ("explain-index-from-1", |_, fault| when(4..=8, fault, |f| f.index += 1)),
    ("explain-container-from-1", |_, fault| when(10..=10, fault, |f| f.index += 1)),
    ("explain-container-within-chunk", |_, fault| when(10..=10, fault, |f| f.index %= 256)),
    ("explain-empty-containers-skipped", |bytes, fault| {
        when(10..=10, fault, |f| {
            f.index = sizes(bytes).iter().take(f.index).filter(|&&s| s > 0).count()
        })
    }),
    ("explain-chunk-kept", |b, fault| when(9..=9, fault, |f| f.index = usize::from(b[5]))),
    ("explain-container-kept", |b, fault| when(11..=11, fault, |f| f.index = usize::from(b[4]))),
    ("explain-byte-within-chunk", |b, fault| when(4..=8, fault, |f| f.byte -= chunk(b, f).start)),
    ("explain-offset-within-chunk", |b, fault| when(6..=6, fault, |f| f.byte -= chunk(b, f).start)),
    ("explain-spare-within-chunk", |b, fault| when(7..=7, fault, |f| f.byte -= chunk(b, f).start)),
    ("explain-byte-without-header", |_, fault| when(4..=10, fault, |f| f.byte -= 6)),
    ("explain-starts-in-16-bits", |_, fault| when(0..=11, fault, |f| f.byte %= 65_536)),
    ("explain-length-at-its-end", |b, fault| when(1..=1, fault, |f| f.byte = b.len())),
    ("explain-count-at-0", |_, fault| when(3..=3, fault, |f| f.byte = 0)),
    ("explain-count-at-high-byte", |_, fault| when(3..=3, fault, |f| f.byte = 5)),
    ("explain-cut-at-length", |b, fault| when(4..=4, fault, |f| f.byte = b.len())),
    ("explain-cut-arrays-at-arrays", |b, fault| {
        cut_arrays(b, fault, |chunk| Some(Fault { byte: chunk.start + 3, ..fault }))
    }),
    ("explain-widths-at-next-byte", |_, fault| when(5..=5, fault, |f| f.byte += 1)),
    ("explain-over-63-at-arrays", |_, fault| when(8..=8, fault, |f| f.byte += 3)),
    ("explain-containers-at-0", |_, fault| when(9..=9, fault, |f| f.byte = 0)),
    ("explain-containers-at-length", |b, fault| when(9..=9, fault, |f| f.byte = b.len())),
    ("explain-container-within-containers", |b, fault| {
        when(10..=10, fault, |f| f.byte -= descriptors(b).map_or(0, |(start, _)| start))
    }),
    ("explain-container-at-its-bad-byte", |b, fault| {
        when(10..=10, fault, |f| {
            f.byte += (1..32).find(|i| b[f.byte + i] <= b[f.byte + i - 1]).unwrap_or(0)
        })
    }),
    ("explain-cardinality-at-0", |_, fault| when(11..=11, fault, |f| f.byte = 0)),
];

/// Wrong bytes of the arrays in a chunk.
const ARRAYS: Table = &[
    ("explain-offset-at-array", |b, fault| when(6..=6, fault, |f| f.byte = chunk(b, f).offsets)),
    ("explain-offset-before", |b, fault| {
        when(6..=6, fault, |f| f.byte = chunk(b, f).offsets.max(f.byte - 1))
    }),
    ("explain-offset-last", |b, fault| {
        offset(b, fault, |offset| offset.iter().rposition(|o| o.past || o.falls))
    }),
    ("explain-offset-order-first", |b, fault| {
        offset(b, fault, |offset| offset.iter().position(|o| o.falls))
    }),
    ("explain-offset-bound-first", |b, fault| {
        offset(b, fault, |offset| offset.iter().position(|o| o.past))
    }),
    ("explain-offset-n-accepted", |b, fault| {
        when(6..=6, fault, |f| {
            *f = if usize::from(b[f.byte]) == chunk(b, f).n { Fault::default() } else { *f }
        })
    }),
    ("explain-parts-before-primary", |b, fault| {
        when(7..=7, fault, |f| {
            let chunk = chunk(b, f);
            f.byte = if chunk.parts_spare(b) { chunk.end - 1 } else { f.byte };
        })
    }),
    ("explain-spare-one-too-far", |_, fault| when(7..=7, fault, |f| f.byte += 1)),
    ("explain-spare-at-array", |b, fault| {
        when(7..=7, fault, |f| {
            let chunk = chunk(b, f);
            f.byte = if f.byte < chunk.offsets { chunk.start + 3 } else { chunk.parts };
        })
    }),
    ("explain-spare-at-chunk", |b, fault| when(7..=7, fault, |f| f.byte = chunk(b, f).start)),
];

/// Wrong pairs of found and wanted.
const PAIRS: Table = &[
    ("explain-length-0", |_, fault| when(1..=1, fault, |f| f.found = 0)),
    ("explain-version-wanted-0", |_, fault| when(2..=2, fault, |f| f.wanted = 0)),
    ("explain-version-signed", |_, fault| when(2..=2, fault, |f| f.found = f.found as i8 as usize)),
    ("explain-count-turned", |_, fault| when(3..=3, fault, turn)),
    ("explain-count-in-a-byte", |_, fault| when(3..=3, fault, |f| f.found %= 256)),
    ("explain-pair-for-others", |b, fault| {
        when(4..=7, fault, |f| (f.found, f.wanted) = (b.len(), b.len() + 1))
    }),
    ("explain-pair-for-containers", |_, fault| when(10..=10, fault, |f| f.wanted = 32)),
    ("explain-over-63-in-a-byte", |_, fault| when(8..=8, fault, |f| f.found %= 256)),
    ("explain-over-63-without-m", |b, fault| {
        when(8..=8, fault, |f| f.found -= usize::from(chunk(b, f).m))
    }),
    ("explain-over-63-last", |b, fault| {
        when(8..=8, fault, |f| f.found = over_63(b, f).last().copied().unwrap_or(0))
    }),
    ("explain-over-63-largest", |b, fault| {
        when(8..=8, fault, |f| f.found = over_63(b, f).into_iter().max().unwrap_or(0))
    }),
    ("explain-over-63-wanted-64", |_, fault| when(8..=8, fault, |f| f.wanted = 64)),
    ("explain-containers-turned", |_, fault| when(9..=9, fault, turn)),
    ("explain-containers-found-length", |b, fault| when(9..=9, fault, |f| f.found = b.len())),
    ("explain-containers-found-16-bits", |_, fault| when(9..=9, fault, |f| f.found %= 65_536)),
    ("explain-containers-wanted-16-bits", |_, fault| when(9..=9, fault, |f| f.wanted %= 65_536)),
    ("explain-containers-wanted-18-bits", |_, fault| when(9..=9, fault, |f| f.wanted %= 262_144)),
    ("explain-cardinality-turned", |_, fault| when(11..=11, fault, turn)),
    ("explain-stored-16-bits", |_, fault| when(11..=11, fault, |f| f.found %= 65_536)),
    ("explain-stored-high-first", |b, fault| {
        when(11..=11, fault, |f| f.found = u32::from_be_bytes([0, b[1], b[2], b[3]]) as usize)
    }),
    ("explain-counted-21-bits", |_, fault| when(11..=11, fault, |f| f.wanted %= 2_097_152)),
];

/// Another fault than the first.
const ORDER: Table = &[
    ("explain-last-chunk", |b, fault| chunk_faults(b).last().copied().unwrap_or(fault)),
    ("explain-rule-before-chunk", |b, fault| {
        chunk_faults(b).into_iter().min_by_key(|f| f.number).unwrap_or(fault)
    }),
    ("explain-last-container", |b, fault| {
        when(10..=10, fault, |f| *f = bad_containers(b).last().copied().unwrap_or(*f))
    }),
    ("explain-version-before-length", |b, fault| {
        when(1..=1, fault, |f| {
            f.number += u32::from(b.first().is_some_and(|&version| version != 1))
        })
    }),
    ("explain-version-last", |b, fault| when(2..=2, fault, |f| *f = with_byte(b, *f, 0, 1))),
    ("explain-count-last", |b, fault| when(3..=3, fault, |f| *f = with_byte(b, *f, 5, 2))),
    ("explain-widths-before-three-bytes", |b, fault| {
        let widths = b.get(fault.byte).map_or(0, |byte| byte % 16 + byte / 16);
        when(4..=4, fault, |f| f.number = if widths > 8 { 5 } else { 4 })
    }),
    ("explain-arrays-before-widths", |b, fault| {
        when(5..=5, fault, |f| f.number = if chunk(b, f).end > b.len() { 4 } else { 5 })
    }),
    ("explain-offsets-before-arrays", |b, fault| {
        cut_arrays(b, fault, |chunk| {
            let first = usize::from(*b.get(chunk.offsets).filter(|_| chunk.e > 0)?);
            (first >= chunk.n).then_some(Fault { number: 6, byte: chunk.offsets, ..fault })
        })
    }),
    ("explain-spare-before-arrays", |b, fault| {
        cut_arrays(b, fault, |chunk| {
            let spare = chunk.offsets <= b.len() && chunk.primary_spare(b);
            spare.then_some(Fault { number: 7, byte: chunk.offsets - 1, ..fault })
        })
    }),
    ("explain-over-63-before-arrays", |b, fault| {
        cut_arrays(b, fault, |chunk| (chunk.m > 63).then_some(Fault { number: 8, ..fault }))
    }),
    ("explain-spare-before-offsets", |b, fault| {
        when(6..=6, fault, |f| f.number += u32::from(chunk(b, f).parts_spare(b)))
    }),
    ("explain-over-63-before-offsets", |b, fault| {
        when(6..=6, fault, |f| f.number = if chunk(b, f).m > 63 { 8 } else { 6 })
    }),
    ("explain-over-63-before-spare", |b, fault| {
        when(7..=7, fault, |f| f.number += u32::from(!over_63(b, f).is_empty()))
    }),
    ("explain-containers-before-length", |b, fault| {
        when(9..=9, fault, |f| *f = bad_containers(b).first().copied().unwrap_or(*f))
    }),
    ("explain-cardinality-before-length", |b, fault| {
        when(9..=9, fault, |f| f.number = if b[3] == 255 { 11 } else { 9 })
    }),
    ("explain-cardinality-before-containers", |b, fault| {
        when(10..=10, fault, |f| f.number += u32::from(b[3] == 255))
    }),
];

/// A fault at the end of its range is taken for none.
const MISSED: Table = &[
    ("explain-misses-chunk-31", |_, fault| miss(4..=8, fault, fault.index == 31)),
    ("explain-misses-container-8191", |_, fault| miss(10..=10, fault, fault.index == 8191)),
    ("explain-misses-greatest-start", |_, fault| miss(10..=10, fault, fault.byte == 278_566)),
    ("explain-misses-start-65536", |_, fault| miss(10..=10, fault, fault.byte == 65_536)),
    ("explain-misses-chunk-at-end", |b, fault| miss(4..=4, fault, fault.byte == b.len())),
    ("explain-misses-one-byte-of-arrays", |b, fault| {
        cut_arrays(b, fault, |chunk| (chunk.end == b.len() + 1).then(Fault::default))
    }),
    ("explain-misses-offset-0", |b, fault| {
        when(6..=6, fault, |f| *f = miss(6..=6, *f, f.byte == chunk(b, f).offsets))
    }),
    ("explain-misses-offset-254", |b, fault| {
        when(6..=6, fault, |f| *f = miss(6..=6, *f, f.byte == chunk(b, f).offsets + 254))
    }),
    ("explain-misses-lowest-spare-bit", |b, fault| {
        when(7..=7, fault, |f| *f = miss(7..=7, *f, spare(b, f).trailing_zeros() == 0))
    }),
    ("explain-misses-highest-spare-bit", |b, fault| {
        when(7..=7, fault, |f| *f = miss(7..=7, *f, spare(b, f).leading_zeros() == 1))
    }),
    ("explain-misses-descriptor-255", |b, fault| {
        when(8..=8, fault, |f| {
            let chunk = chunk(b, f);
            *f = miss(8..=8, *f, chunk.n == 256 && values(b, &chunk)[..255].iter().all(|&v| v < 64))
        })
    }),
    ("explain-misses-64", |_, fault| miss(8..=8, fault, fault.found == 64)),
    ("explain-misses-over-255", |_, fault| miss(8..=8, fault, (256..320).contains(&fault.found))),
    ("explain-misses-length-by-65536", |_, fault| {
        miss(9..=9, fault, fault.found % 65_536 == fault.wanted % 65_536)
    }),
    ("explain-misses-length-below", |_, fault| miss(9..=9, fault, fault.found < fault.wanted)),
    ("explain-misses-cardinality-by-65536", |_, fault| {
        miss(11..=11, fault, fault.found % 65_536 == fault.wanted % 65_536)
    }),
];

/// No fault in place of one of these numbers, if so.
fn miss(numbers: RangeInclusive<u32>, fault: Fault, so: bool) -> Fault {
    when(numbers, fault, |f| *f = if so { Fault::default() } else { *f })
}

/// Changes a fault of these numbers.
fn when(numbers: RangeInclusive<u32>, mut fault: Fault, change: impl FnOnce(&mut Fault)) -> Fault {
    if numbers.contains(&fault.number) {
        change(&mut fault);
    }
    fault
}

fn turn(fault: &mut Fault) {
    (fault.found, fault.wanted) = (fault.wanted, fault.found);
}

pub fn count(bytes: &[u8]) -> usize {
    usize::from(bytes[4]) + 256 * usize::from(bytes[5])
}

/// The chunk of this index. A chunk of which less than its three bytes is there ends with them.
pub fn chunk_at(bytes: &[u8], index: usize) -> Chunk {
    let mut start = 6;
    for k in 0.. {
        let head = bytes.get(start..start + 3).map_or([0; 3], |head| head.try_into().unwrap());
        let chunk = Chunk::lay_out(head, k, start, (count(bytes) - 256 * k).min(256));
        if k == index {
            return chunk;
        }
        start = chunk.end;
    }
    unreachable!()
}

/// The chunk that is at fault (4 to 8).
fn chunk(bytes: &[u8], fault: &Fault) -> Chunk {
    chunk_at(bytes, fault.index)
}

/// Tells another fault of a chunk whose arrays are cut short.
fn cut_arrays(bytes: &[u8], fault: Fault, tell: impl Fn(Chunk) -> Option<Fault>) -> Fault {
    if fault.number != 4 || bytes.len() < fault.byte + 3 {
        return fault;
    }
    tell(chunk(bytes, &fault)).unwrap_or(fault)
}

/// Whether an exception offset is not below n, and whether it is not over the one before it.
struct Offset {
    past: bool,
    falls: bool,
}

/// Tells another offset, if one is chosen.
fn offset(bytes: &[u8], fault: Fault, choose: fn(&[Offset]) -> Option<usize>) -> Fault {
    if fault.number != 6 {
        return fault;
    }
    let chunk = chunk(bytes, &fault);
    let offsets: Vec<Offset> = (chunk.offsets..chunk.parts)
        .map(|at| Offset {
            past: usize::from(bytes[at]) >= chunk.n,
            falls: at > chunk.offsets && bytes[at] <= bytes[at - 1],
        })
        .collect();
    choose(&offsets).map_or(fault, |at| Fault { byte: chunk.offsets + at, ..fault })
}

/// The descriptors of a chunk whose offsets are right.
pub fn values(bytes: &[u8], chunk: &Chunk) -> Vec<u16> {
    let mut values = vec![0; chunk.n];
    chunk.values(bytes, &mut values);
    values
}

/// The descriptors over 63 of the chunk at fault.
fn over_63(bytes: &[u8], fault: &Fault) -> Vec<usize> {
    let values = values(bytes, &chunk(bytes, fault));
    values.into_iter().filter(|&value| value > 63).map(usize::from).collect()
}

/// The spare bits of the byte at fault (7).
fn spare(bytes: &[u8], fault: &Fault) -> u8 {
    let chunk = chunk(bytes, fault);
    let in_primary = fault.byte < chunk.offsets;
    let used = if in_primary { chunk.n * chunk.b1 } else { chunk.e * chunk.b2 };
    bytes[fault.byte] & (255 >> (used % 8))
}

/// The fault of each chunk, from 4 to 8, as if it stood alone; up to the last one whose end is known.
fn chunk_faults(bytes: &[u8]) -> Vec<Fault> {
    let mut faults = Vec::new();
    if bytes.len() < 6 || bytes[0] != 1 || count(bytes) > 8192 {
        return faults;
    }
    for index in 0..count(bytes).div_ceil(256) {
        let Chunk { start, n, end, .. } = chunk_at(bytes, index);
        let mut alone = vec![1, 0, 0, 0, n as u8, (n >> 8) as u8];
        alone.extend_from_slice(&bytes[start..]);
        if let Some(fault @ Fault { number: 4..=8, .. }) = explain(&alone) {
            faults.push(Fault { index, byte: fault.byte + start - 6, ..fault });
        }
        if end > bytes.len() || faults.last().is_some_and(|fault| fault.number < 6) {
            break;
        }
    }
    faults
}

/// The sizes of the containers, if the descriptors are sound.
fn sizes(bytes: &[u8]) -> Vec<u8> {
    descriptors(bytes).map_or(Vec::new(), |(_, sizes)| sizes)
}

/// The containers that are there and ill-formed.
fn bad_containers(bytes: &[u8]) -> Vec<Fault> {
    let Ok((mut start, sizes)) = descriptors(bytes) else { return Vec::new() };
    let mut bad = Vec::new();
    for (index, &size) in sizes.iter().enumerate() {
        let end = start + usize::from(size);
        if bytes.get(start..end).is_some_and(|container| !well_formed(container)) {
            bad.push(Fault { number: 10, index, byte: start, found: 0, wanted: 0 });
        }
        start = end;
    }
    bad
}

/// The fault with another value of this byte; the same fault if it then has none.
fn with_byte(bytes: &[u8], fault: Fault, at: usize, value: u8) -> Fault {
    let mut bytes = bytes.to_vec();
    bytes[at] = value;
    explain(&bytes).unwrap_or(fault)
}

/// The first fault, or what the planted wrong program tells instead.
fn fault(bytes: &[u8]) -> Fault {
    let Some(mut fault) = explain(bytes) else { return Fault::default() };
    if planted(&format!("explain-number-{}", fault.number)) {
        fault.number = fault.number % 11 + 1;
    }
    let mut wrong = TABLES.into_iter().flatten();
    wrong.find(|(name, _)| planted(name)).map_or(fault, |(_, wrong)| wrong(bytes, fault))
}

/// Sets an output, unless a planted fault leaves it: where there is no fault, or where it is 0.
unsafe fn set_output<T: Default + PartialEq>(name: &str, output: *mut T, value: T, none: bool) {
    let left = none && planted(&format!("explain-{name}-not-set"));
    let zero_left = !none && value == T::default() && planted("explain-zeros-not-set");
    if !left && !zero_left {
        set(output, value);
    }
}

/// # Safety
/// As include/barcovento.h says.
#[no_mangle]
pub unsafe extern "C" fn bv_bitmap_explain(
    bytes: *const u8,
    len: usize,
    number: *mut u32,
    index: *mut usize,
    byte: *mut usize,
    found: *mut usize,
    wanted: *mut usize,
) -> u32 {
    let fault = fault(from_raw_parts(bytes, len));
    let none = fault.number == 0;
    set_output("number", number, fault.number, none);
    set_output("index", index, fault.index, none);
    set_output("byte", byte, fault.byte, none);
    set_output("found", found, fault.found, none);
    set_output("wanted", wanted, fault.wanted, none);
    if planted("explain-number-as-eight-bytes") {
        set(number as *mut u64, fault.number.into());
    }
    if planted("explain-writes-behind-wanted") {
        set(wanted.add(1), 0);
    }
    if planted("explain-writes-before-index") {
        set(index.sub(1), 0);
    }
    if planted("explain-input-changed") && len > 0 {
        *(bytes as *mut u8).add(len - 1) ^= 1;
    }
    if planted("explain-returns-number") {
        return fault.number;
    }
    0
}
