//! Mumbling bitmaps: 'Mask bytes', 'The one written form' and 'Asking a mask' of document 01, with the
//! cost of document 02's (iii).

use super::Refusal;
use std::borrow::Cow;

pub mod explain;

pub const MAX_CONTAINERS: usize = 8192;
pub const POSITIONS: u32 = 2_097_152;
/// The size in bytes of a dense container, and the least number of its members.
pub const DENSE: u8 = 32;
const CHUNK: usize = 256;

/// An accepted bitmap.
pub struct Bitmap<'a> {
    /// For each container its size in bytes: 0 to 31 sparse, 32 dense.
    sizes: Vec<u8>,
    /// The largest descriptor.
    largest: u16,
    containers: &'a [u8],
    cardinality: u32,
}

impl<'a> Bitmap<'a> {
    /// Judges the whole bitmap: refusals 1 to 11, in document 01's order.
    pub fn judge(bytes: &'a [u8]) -> Result<Self, Refusal> {
        if bytes.len() < 6 {
            return Err(1);
        }
        if bytes[0] != 1 {
            return Err(2);
        }
        let cardinality = u32::from_le_bytes([bytes[1], bytes[2], bytes[3], 0]);
        let count = usize::from(u16::from_le_bytes([bytes[4], bytes[5]]));
        if count > MAX_CONTAINERS {
            return Err(3);
        }
        let mut sizes = vec![0; count];
        let mut largest = 0;
        let mut rest = &bytes[6..];
        for chunk in sizes.chunks_mut(CHUNK) {
            let (next, in_chunk) = read_sizes(rest, chunk)?;
            rest = next;
            largest = largest.max(in_chunk);
        }
        let total: usize = sizes.iter().map(|&size| usize::from(size)).sum();
        if rest.len() != total {
            return Err(9);
        }
        if count_members(&sizes, rest)? != cardinality {
            return Err(11);
        }
        Ok(Bitmap { sizes, largest, containers: rest, cardinality })
    }

    /// Whether the bytes, which are the bitmap's own, are the one written form of its set: then each
    /// chunk's three first bytes say so, as they leave no choice in what follows.
    fn is_form(&self, bytes: &[u8]) -> bool {
        if self.largest > u16::from(DENSE) || self.sizes.last() == Some(&0) {
            return false;
        }
        let mut rest = &bytes[6..];
        self.sizes.chunks(CHUNK).all(|chunk| {
            let packing = choose_packing(chunk);
            let same = rest[..3] == packing.head();
            rest = rest.get(3 + packing.length(chunk.len())..).unwrap_or_default();
            same
        })
    }

    /// The one written form of the bitmap's set; the bytes are the bitmap's own.
    pub fn form<'b>(&self, bytes: &'b [u8]) -> Cow<'b, [u8]> {
        if self.is_form(bytes) {
            return Cow::Borrowed(bytes);
        }
        let used = self.sizes.iter().rposition(|&size| size > 0).map_or(0, |last| last + 1);
        let mut form = form_head(&self.sizes[..used], self.cardinality);
        form.extend_from_slice(self.containers);
        Cow::Owned(form)
    }

    pub fn cardinality(&self) -> u32 {
        self.cardinality
    }

    /// The bytes of container k, and of the containers before it.
    fn container(&self, k: usize) -> (&'a [u8], &'a [u8]) {
        let start: usize = self.sizes[..k].iter().map(|&size| usize::from(size)).sum();
        let (before, after) = self.containers.split_at(start);
        (&after[..usize::from(self.sizes[k])], before)
    }

    pub fn contains(&self, position: u32) -> bool {
        let k = (position >> 8) as usize;
        if k >= self.sizes.len() {
            return false;
        }
        let (container, _) = self.container(k);
        let low = (position & 255) as u8;
        if container.len() == usize::from(DENSE) {
            dense_bit(container, low)
        } else {
            container.contains(&low)
        }
    }

    /// How many members lie below the position.
    pub fn rank(&self, position: u32) -> u32 {
        let k = (position >> 8) as usize;
        if k >= self.sizes.len() {
            return self.cardinality;
        }
        let mut below = 0;
        let mut rest = self.containers;
        for &size in &self.sizes[..k] {
            let (container, next) = rest.split_at(usize::from(size));
            below += members(container);
            rest = next;
        }
        below + members_below(&rest[..usize::from(self.sizes[k])], (position & 255) as u8)
    }

    /// Lists the first members at or above the place into the list.
    pub fn page(&self, place: u32, list: &mut [u32]) -> Page {
        let mut page = Page { place, finished: true, given: 0 };
        let first = (place >> 8) as usize;
        if first >= self.sizes.len() {
            return page;
        }
        let (_, before) = self.container(first);
        let mut rest = &self.containers[before.len()..];
        for k in first..self.sizes.len() {
            let (container, next) = rest.split_at(usize::from(self.sizes[k]));
            rest = next;
            let base = (k as u32) << 8;
            let from = place.saturating_sub(base);
            let (given, all) = list_container(container, base, from, &mut list[page.given..]);
            page.given += given;
            if !all {
                page.finished = false;
                break;
            }
        }
        if page.given > 0 {
            page.place = list[page.given - 1] + 1;
        }
        page
    }

    /// All members, rising.
    pub fn members(&self) -> Vec<u32> {
        let mut list = vec![0; self.cardinality as usize];
        self.page(0, &mut list);
        list
    }
}

/// Whether the bytes are accepted and are the one written form of their set.
pub fn is_form(bytes: &[u8]) -> bool {
    Bitmap::judge(bytes).is_ok_and(|bitmap| bitmap.is_form(bytes))
}

/// What a page call leaves: the place, the mark, and how many members it gave.
#[derive(Clone, Copy, Debug, PartialEq, Eq)]
pub struct Page {
    pub place: u32,
    pub finished: bool,
    pub given: usize,
}

pub fn check(bytes: &[u8]) -> Result<u32, Refusal> {
    Ok(Bitmap::judge(bytes)?.cardinality)
}

pub fn probe(bytes: &[u8], position: u32) -> Result<bool, Refusal> {
    Ok(Bitmap::judge(bytes)?.contains(position))
}

pub fn rank(bytes: &[u8], position: u32) -> Result<u32, Refusal> {
    Ok(Bitmap::judge(bytes)?.rank(position))
}

pub fn page(bytes: &[u8], place: u32, finished: bool, list: &mut [u32]) -> Result<Page, Refusal> {
    let bitmap = Bitmap::judge(bytes)?;
    if finished {
        return Ok(Page { place, finished, given: 0 });
    }
    Ok(bitmap.page(place, list))
}

/// Reads one chunk of descriptors as container sizes, and returns the bytes after it and the largest
/// descriptor.
fn read_sizes<'a>(bytes: &'a [u8], sizes: &mut [u8]) -> Result<(&'a [u8], u16), Refusal> {
    let mut values = [0; CHUNK];
    let values = &mut values[..sizes.len()];
    let rest = unpack_chunk(bytes, values)?;
    let mut largest = 0;
    for (size, &descriptor) in sizes.iter_mut().zip(values.iter()) {
        largest = largest.max(descriptor);
        *size = descriptor.min(u16::from(DENSE)) as u8;
    }
    if largest > 63 {
        return Err(8);
    }
    Ok((rest, largest))
}

/// Decodes a chunk of `values.len()` values (1 to 256), and returns the bytes after it: 4, 5, 6 and 7.
pub fn unpack_chunk<'a>(bytes: &'a [u8], values: &mut [u16]) -> Result<&'a [u8], Refusal> {
    let n = values.len();
    let (&[widths, e, m], rest) = bytes.split_first_chunk().ok_or(4u32)?;
    let b1 = usize::from(widths & 15);
    let b2 = usize::from(widths >> 4);
    let e = usize::from(e);
    if b1 > 8 || b1 + b2 > 8 || (b1 == 8 && e > 0) {
        return Err(5);
    }
    let primary_length = (n * b1).div_ceil(8);
    let parts_length = (e * b2).div_ceil(8);
    if rest.len() < primary_length + e + parts_length {
        return Err(4);
    }
    let (primary, rest) = rest.split_at(primary_length);
    let (offsets, rest) = rest.split_at(e);
    let (parts, rest) = rest.split_at(parts_length);
    if !rising(offsets) || offsets.last().is_some_and(|&last| usize::from(last) >= n) {
        return Err(6);
    }
    if spare_bits(primary, n * b1) || spare_bits(parts, e * b2) {
        return Err(7);
    }
    unpack(primary, b1, u16::from(m), values);
    if b2 > 0 {
        let mut high = [0; CHUNK];
        unpack(parts, b2, 0, &mut high[..e]);
        for (&offset, &part) in offsets.iter().zip(&high) {
            values[usize::from(offset)] += part << b1;
        }
    }
    Ok(rest)
}

/// Strictly rising; without a branch for each byte.
fn rising(bytes: &[u8]) -> bool {
    bytes.windows(2).fold(true, |rising, pair| rising & (pair[0] < pair[1]))
}

/// Whether a bit after the first `used` bits is set in the last byte.
fn spare_bits(packed: &[u8], used: usize) -> bool {
    !used.is_multiple_of(8) && packed[used / 8] & (0xFF >> (used % 8)) != 0
}

/// Unpacks values of `width` bits, first value in the highest bits, and adds `base` to each.
fn unpack(packed: &[u8], width: usize, base: u16, values: &mut [u16]) {
    match width {
        0 => values.fill(base),
        1 => unpack_width::<1>(packed, base, values),
        2 => unpack_width::<2>(packed, base, values),
        3 => unpack_width::<3>(packed, base, values),
        4 => unpack_width::<4>(packed, base, values),
        5 => unpack_width::<5>(packed, base, values),
        6 => unpack_width::<6>(packed, base, values),
        7 => unpack_width::<7>(packed, base, values),
        _ => unpack_width::<8>(packed, base, values),
    }
}

/// Eight values take W bytes: each such group goes through one word.
fn unpack_width<const W: usize>(packed: &[u8], base: u16, values: &mut [u16]) {
    let mask = (1 << W) - 1;
    for (group, bytes) in values.chunks_mut(8).zip(packed.chunks(W)) {
        let mut word = [0; 8];
        match <[u8; W]>::try_from(bytes) {
            Ok(full) => word[..W].copy_from_slice(&full),
            Err(_) => word[..bytes.len()].copy_from_slice(bytes),
        }
        let word = u64::from_be_bytes(word);
        for (i, value) in group.iter_mut().enumerate() {
            *value = base + (word >> (64 - W * (i + 1)) & mask) as u16;
        }
    }
}

/// Judges each container (10) and counts the members.
fn count_members(sizes: &[u8], containers: &[u8]) -> Result<u32, Refusal> {
    let mut total = 0;
    let mut rest = containers;
    for &size in sizes {
        let (container, next) = rest.split_at(usize::from(size));
        rest = next;
        let count = members(container);
        let sound = if size == DENSE { count >= u32::from(DENSE) } else { rising(container) };
        if !sound {
            return Err(10);
        }
        total += count;
    }
    Ok(total)
}

/// The 256 bits of a dense container in four words: bit 0 is the highest bit of the first word.
fn words(dense: &[u8]) -> [u64; 4] {
    let mut words = [0; 4];
    for (word, bytes) in words.iter_mut().zip(dense.chunks_exact(8)) {
        *word = u64::from_be_bytes(bytes.try_into().unwrap());
    }
    words
}

fn dense_bit(dense: &[u8], low: u8) -> bool {
    dense[usize::from(low / 8)] << (low % 8) & 0x80 != 0
}

fn members(container: &[u8]) -> u32 {
    if container.len() == usize::from(DENSE) {
        words(container).iter().map(|word| word.count_ones()).sum()
    } else {
        container.len() as u32
    }
}

fn members_below(container: &[u8], low: u8) -> u32 {
    if container.len() < usize::from(DENSE) {
        return container.iter().filter(|&&member| member < low).count() as u32;
    }
    let words = words(container);
    let k = usize::from(low / 64);
    let whole: u32 = words[..k].iter().map(|word| word.count_ones()).sum();
    let part = words[k] & !(u64::MAX >> (low % 64));
    whole + part.count_ones()
}

/// Lists the members at or above `from` (both counted in the container, `base` added in the list).
/// Returns how many it gave, and whether these are all.
fn list_container(container: &[u8], base: u32, from: u32, list: &mut [u32]) -> (usize, bool) {
    let mut given = 0;
    if container.len() < usize::from(DENSE) {
        for &member in container {
            if u32::from(member) < from {
                continue;
            }
            if given == list.len() {
                return (given, false);
            }
            list[given] = base + u32::from(member);
            given += 1;
        }
        return (given, true);
    }
    for (k, mut word) in words(container).into_iter().enumerate() {
        let start = k as u32 * 64;
        match from.saturating_sub(start) {
            0 => {}
            skipped @ 1..=63 => word &= u64::MAX >> skipped,
            _ => continue,
        }
        while word != 0 {
            if given == list.len() {
                return (given, false);
            }
            let bit = word.leading_zeros();
            list[given] = base + start + bit;
            given += 1;
            word ^= 1 << (63 - bit);
        }
    }
    (given, true)
}

/// Writes the one form of a list of positions: 12, then 13, else the form's length.
pub fn write(positions: &[u32], out: &mut [u8]) -> Result<usize, Refusal> {
    let strict = positions.windows(2).fold(true, |strict, pair| strict & (pair[0] < pair[1]));
    let last = positions.last().copied();
    if !strict || last.is_some_and(|last| last >= POSITIONS) {
        return Err(12);
    }
    let mut sizes = vec![0; last.map_or(0, |last| (last >> 8) as usize + 1)];
    let mut containers = Vec::with_capacity(positions.len().min(32 * sizes.len()));
    let mut rest = positions;
    while let Some(&first) = rest.first() {
        let key = first >> 8;
        let near = &rest[..rest.len().min(256)];
        let (members, others) = rest.split_at(near.partition_point(|&p| p >> 8 == key));
        rest = others;
        let start = containers.len();
        append_members(members, &mut containers);
        sizes[key as usize] = (containers.len() - start) as u8;
    }
    write_form(&sizes, &containers, positions.len() as u32, out)
}

/// Appends the container of these positions, which differ only in their low byte.
fn append_members(members: &[u32], out: &mut Vec<u8>) {
    if members.len() < usize::from(DENSE) {
        out.extend(members.iter().map(|&position| position as u8));
        return;
    }
    let mut words = [0; 4];
    let mut rest = members;
    for (k, word) in words.iter_mut().enumerate() {
        while let Some((&position, others)) = rest.split_first() {
            if (position >> 6 & 3) as usize != k {
                break;
            }
            *word |= 1 << (63 - position % 64);
            rest = others;
        }
    }
    append_dense(&words, out);
}

fn set_bit(words: &mut [u64; 4], low: u8) {
    words[usize::from(low / 64)] |= 1 << (63 - low % 64);
}

/// Writes the form of these containers; 13 if it does not fit.
fn write_form(
    sizes: &[u8],
    containers: &[u8],
    cardinality: u32,
    out: &mut [u8],
) -> Result<usize, Refusal> {
    let head = form_head(sizes, cardinality);
    let length = head.len() + containers.len();
    let form = out.get_mut(..length).ok_or(13u32)?;
    form[..head.len()].copy_from_slice(&head);
    form[head.len()..].copy_from_slice(containers);
    Ok(length)
}

/// The header and the descriptors of a form.
fn form_head(sizes: &[u8], cardinality: u32) -> Vec<u8> {
    let mut head = Vec::with_capacity(6 + sizes.len() + 3 * sizes.len().div_ceil(CHUNK));
    head.push(1);
    head.extend_from_slice(&cardinality.to_le_bytes()[..3]);
    head.extend_from_slice(&(sizes.len() as u16).to_le_bytes());
    for chunk in sizes.chunks(CHUNK) {
        pack_chunk(chunk, &mut head);
    }
    head
}

/// How a chunk is packed: b1, b2, e and m.
struct Packing {
    primary_width: usize,
    part_width: usize,
    exceptions: usize,
    least: u8,
}

impl Packing {
    /// The chunk's three first bytes.
    fn head(&self) -> [u8; 3] {
        let widths = self.primary_width as u8 | (self.part_width as u8) << 4;
        [widths, self.exceptions as u8, self.least]
    }

    /// The length of the arrays of n descriptors.
    fn length(&self, n: usize) -> usize {
        let parts = (self.exceptions * self.part_width).div_ceil(8);
        (n * self.primary_width).div_ceil(8) + self.exceptions + parts
    }
}

fn width(value: u8) -> usize {
    (8 - value.leading_zeros()) as usize
}

/// The widths of least cost, the smaller b on a tie. The cost of b is the length of the three arrays.
fn choose_packing(values: &[u8]) -> Packing {
    let least = values.iter().copied().min().unwrap_or(0);
    let mut of_width = [0; 9];
    for &value in values {
        of_width[width(value - least)] += 1;
    }
    let largest = of_width.iter().rposition(|&count| count > 0).unwrap_or(0);
    let mut wider = values.len();
    let mut best = (usize::MAX, 0, 0);
    for (b, &count) in of_width.iter().enumerate().take(largest + 1) {
        wider -= count;
        let primary = (values.len() * b).div_ceil(8);
        let cost = primary + wider + (wider * (largest - b)).div_ceil(8);
        if cost < best.0 {
            best = (cost, b, wider);
        }
    }
    let (_, primary_width, exceptions) = best;
    Packing {
        primary_width,
        part_width: if exceptions == 0 { 0 } else { largest - primary_width },
        exceptions,
        least,
    }
}

fn pack_chunk(values: &[u8], out: &mut Vec<u8>) {
    let packing = choose_packing(values);
    let b1 = packing.primary_width;
    out.extend_from_slice(&packing.head());
    let value = |i: usize| u32::from(values[i] - packing.least);
    pack(values.len(), b1, |i| value(i) & ((1 << b1) - 1), out);
    if packing.exceptions == 0 {
        return;
    }
    let first = out.len();
    out.extend((0..values.len()).filter(|&i| value(i) >> b1 != 0).map(|i| i as u8));
    let offsets: Vec<u8> = out[first..].to_vec();
    let part = |i: usize| value(usize::from(offsets[i])) >> b1;
    pack(offsets.len(), packing.part_width, part, out);
}

/// Packs `count` values of `width` bits, first value in the highest bits.
fn pack(count: usize, width: usize, value: impl Fn(usize) -> u32, out: &mut Vec<u8>) {
    let mut held = 0u32;
    let mut bits = 0;
    for i in 0..if width == 0 { 0 } else { count } {
        held = held << width | value(i);
        bits += width;
        if bits >= 8 {
            bits -= 8;
            out.push((held >> bits) as u8);
        }
    }
    if bits > 0 {
        out.push((held << (8 - bits)) as u8);
    }
}

/// The four set operations.
#[derive(Clone, Copy, Debug, PartialEq, Eq)]
pub enum Operation {
    Union,
    Intersection,
    Difference,
    SymmetricDifference,
}

pub const OPERATIONS: [Operation; 4] = [
    Operation::Union,
    Operation::Intersection,
    Operation::Difference,
    Operation::SymmetricDifference,
];

/// Writes the one form of the combined set: the first bitmap's refusal, the second's, then 13.
pub fn combine(
    operation: Operation,
    first: &[u8],
    second: &[u8],
    out: &mut [u8],
) -> Result<usize, Refusal> {
    let first = Bitmap::judge(first)?;
    let second = Bitmap::judge(second)?;
    let (first, second) = (&first, &second);
    match operation {
        Operation::Union => combine_with::<true, true, true>(first, second, out),
        Operation::Intersection => combine_with::<false, true, false>(first, second, out),
        Operation::Difference => combine_with::<true, false, false>(first, second, out),
        Operation::SymmetricDifference => combine_with::<true, false, true>(first, second, out),
    }
}

/// Combines container by container. The result keeps what is only in the first, in both, only in the
/// second, as the three parameters say.
fn combine_with<const FIRST: bool, const BOTH: bool, const SECOND: bool>(
    first: &Bitmap,
    second: &Bitmap,
    out: &mut [u8],
) -> Result<usize, Refusal> {
    let count = first.sizes.len().max(second.sizes.len());
    let mut sizes = Vec::with_capacity(count);
    let mut containers = Vec::with_capacity(first.containers.len() + second.containers.len());
    let mut cardinality = 0;
    let mut rest = (first.containers, second.containers);
    for k in 0..count {
        let (a, next_a) = rest.0.split_at(first.sizes.get(k).map_or(0, |&s| usize::from(s)));
        let (b, next_b) = rest.1.split_at(second.sizes.get(k).map_or(0, |&s| usize::from(s)));
        rest = (next_a, next_b);
        let start = containers.len();
        cardinality += if a.is_empty() || b.is_empty() {
            let kept = match (FIRST, SECOND) {
                (true, _) if b.is_empty() => a,
                (_, true) if a.is_empty() => b,
                _ => &[],
            };
            containers.extend_from_slice(kept);
            members(kept)
        } else if !SECOND && a.len() < usize::from(DENSE) {
            filter_sparse(a, &container_words(b), BOTH, &mut containers)
        } else if a.len() < usize::from(DENSE) && b.len() < usize::from(DENSE) {
            merge_sparse::<FIRST, BOTH, SECOND>(a, b, &mut containers)
        } else {
            let (a, b) = (container_words(a), container_words(b));
            let result = [0, 1, 2, 3].map(|i| {
                let only_first = if FIRST { a[i] & !b[i] } else { 0 };
                let both = if BOTH { a[i] & b[i] } else { 0 };
                let only_second = if SECOND { b[i] & !a[i] } else { 0 };
                only_first | both | only_second
            });
            append_words(&result, &mut containers)
        };
        sizes.push((containers.len() - start) as u8);
    }
    let used = sizes.iter().rposition(|&size| size > 0).map_or(0, |last| last + 1);
    write_form(&sizes[..used], &containers, cardinality, out)
}

/// Appends the members of a sparse container that are in the other one, or those that are not, and
/// returns how many they are.
fn filter_sparse(members: &[u8], other: &[u64; 4], wanted: bool, out: &mut Vec<u8>) -> u32 {
    let mut kept = [0; 32];
    let mut n = 0;
    for &member in members {
        kept[n & 31] = member;
        let found = other[usize::from(member / 64)] << (member % 64) >> 63 == 1;
        n += usize::from(found == wanted);
    }
    out.extend_from_slice(&kept[..n]);
    n as u32
}

/// Merges two sparse containers, without a branch for each member, appends the result, and returns
/// how many members it has.
fn merge_sparse<const FIRST: bool, const BOTH: bool, const SECOND: bool>(
    a: &[u8],
    b: &[u8],
    out: &mut Vec<u8>,
) -> u32 {
    let mut merged = [0; 64];
    let (mut i, mut j, mut n) = (0, 0, 0);
    while i < a.len() && j < b.len() {
        let (x, y) = (a[i], b[j]);
        merged[n & 63] = x.min(y);
        let kept = (FIRST & (x < y)) | (BOTH & (x == y)) | (SECOND & (x > y));
        n += usize::from(kept);
        i += usize::from(x <= y);
        j += usize::from(y <= x);
    }
    for (tail, keep) in [(&a[i..], FIRST), (&b[j..], SECOND)] {
        if keep {
            merged[n..n + tail.len()].copy_from_slice(tail);
            n += tail.len();
        }
    }
    if n < usize::from(DENSE) {
        out.extend_from_slice(&merged[..n]);
    } else {
        append_dense(&container_bits(&merged[..n]), out);
    }
    n as u32
}

fn append_dense(words: &[u64; 4], out: &mut Vec<u8>) {
    for word in words {
        out.extend_from_slice(&word.to_be_bytes());
    }
}

fn container_words(container: &[u8]) -> [u64; 4] {
    if container.len() == usize::from(DENSE) {
        words(container)
    } else {
        container_bits(container)
    }
}

/// The bits of a list of members.
fn container_bits(members: &[u8]) -> [u64; 4] {
    let mut words = [0; 4];
    for &member in members {
        set_bit(&mut words, member);
    }
    words
}

/// Appends the container of these bits, sparse or dense, and returns how many members it has.
fn append_words(words: &[u64; 4], out: &mut Vec<u8>) -> u32 {
    let count = words.iter().map(|word| word.count_ones()).sum();
    if count >= u32::from(DENSE) {
        append_dense(words, out);
        return count;
    }
    let mut sparse = [0; 32];
    let mut given = 0;
    for (k, &word) in words.iter().enumerate() {
        let mut word = word;
        while word != 0 {
            let bit = word.leading_zeros();
            sparse[given & 31] = (k as u32 * 64 + bit) as u8;
            given += 1;
            word ^= 1 << (63 - bit);
        }
    }
    out.extend_from_slice(&sparse[..given]);
    count
}

#[cfg(test)]
mod tests;
