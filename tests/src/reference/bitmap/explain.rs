//! Why a bitmap is refused: the first fault in document 01's order, and where it lies.

use super::{members, rising, spare_bits, unpack, CHUNK, DENSE, MAX_CONTAINERS};
use crate::reference::Refusal;

/// A broken rule. Bytes count from 0 at the start of the bitmap.
#[derive(Clone, Copy, Debug, Default, PartialEq, Eq)]
pub struct Fault {
    pub number: Refusal,
    /// The chunk (4 to 8) or the container (10) at fault, else 0.
    pub index: usize,
    /// Where the header field, the chunk, the offset, the byte with spare bits, the containers or
    /// the container starts.
    pub byte: usize,
    /// What was found there and what was wanted (1, 2, 3, 8, 9, 11), else 0.
    pub found: usize,
    pub wanted: usize,
}

impl Fault {
    fn at(number: Refusal, index: usize, byte: usize) -> Fault {
        Fault { number, index, byte, ..Fault::default() }
    }

    fn with(self, found: usize, wanted: usize) -> Fault {
        Fault { found, wanted, ..self }
    }
}

/// The first fault of these bytes; none if they are accepted.
pub fn explain(bytes: &[u8]) -> Option<Fault> {
    first_fault(bytes).err()
}

fn need(holds: bool, fault: impl FnOnce() -> Fault) -> Result<(), Fault> {
    if holds {
        Ok(())
    } else {
        Err(fault())
    }
}

fn first_fault(bytes: &[u8]) -> Result<(), Fault> {
    let (start, sizes) = descriptors(bytes)?;
    let there = bytes.len() - start;
    let wanted = sizes.iter().map(|&size| usize::from(size)).sum();
    need(there == wanted, || Fault::at(9, 0, start).with(there, wanted))?;
    let mut counted = 0;
    let mut at = start;
    for (index, &size) in sizes.iter().enumerate() {
        let container = &bytes[at..at + usize::from(size)];
        need(well_formed(container), || Fault::at(10, index, at))?;
        counted += members(container) as usize;
        at += container.len();
    }
    let stored =
        usize::from(bytes[1]) + 256 * usize::from(bytes[2]) + 65_536 * usize::from(bytes[3]);
    need(stored == counted, || Fault::at(11, 0, 1).with(stored, counted))
}

/// Where the containers start, and the size in bytes of each; or a fault from 1 to 8.
pub fn descriptors(bytes: &[u8]) -> Result<(usize, Vec<u8>), Fault> {
    need(bytes.len() >= 6, || Fault::at(1, 0, 0).with(bytes.len(), 6))?;
    let version = usize::from(bytes[0]);
    need(version == 1, || Fault::at(2, 0, 0).with(version, 1))?;
    let count = usize::from(bytes[4]) + 256 * usize::from(bytes[5]);
    need(count <= MAX_CONTAINERS, || Fault::at(3, 0, 4).with(count, MAX_CONTAINERS))?;
    let mut sizes = vec![0; count];
    let mut start = 6;
    for (index, sizes) in sizes.chunks_mut(CHUNK).enumerate() {
        let chunk = Chunk::read(bytes, index, start, sizes.len())?;
        chunk.judge(bytes, sizes)?;
        start = chunk.end;
    }
    Ok((start, sizes))
}

/// Where a chunk's three bytes, its primary array, its offsets and its exception parts lie.
#[derive(Clone, Copy)]
pub struct Chunk {
    index: usize,
    pub start: usize,
    /// How many descriptors.
    pub n: usize,
    pub b1: usize,
    pub b2: usize,
    pub e: usize,
    pub m: u8,
    pub offsets: usize,
    pub parts: usize,
    pub end: usize,
}

impl Chunk {
    /// The chunk that starts at this byte, which is at most the length; 4 and 5.
    pub fn read(bytes: &[u8], index: usize, start: usize, n: usize) -> Result<Chunk, Fault> {
        let cut = || Fault::at(4, index, start);
        need(bytes.len() - start >= 3, cut)?;
        let chunk =
            Chunk::lay_out([bytes[start], bytes[start + 1], bytes[start + 2]], index, start, n);
        need(chunk.widths_allowed(), || Fault::at(5, index, start))?;
        need(bytes.len() >= chunk.end, cut)?;
        Ok(chunk)
    }

    /// The chunk that has these three bytes, whatever they say.
    pub fn lay_out(head: [u8; 3], index: usize, start: usize, n: usize) -> Chunk {
        let (b1, b2) = (usize::from(head[0] % 16), usize::from(head[0] / 16));
        let e = usize::from(head[1]);
        let offsets = start + 3 + (n * b1).div_ceil(8);
        let parts = offsets + e;
        let end = parts + (e * b2).div_ceil(8);
        Chunk { index, start, n, b1, b2, e, m: head[2], offsets, parts, end }
    }

    fn widths_allowed(&self) -> bool {
        self.b1 < 8 && self.b2 <= 8 - self.b1 || self.b1 == 8 && self.b2 == 0 && self.e == 0
    }

    /// Judges offsets, spare bits and descriptors (6, 7, 8), and gives the sizes of the containers.
    fn judge(&self, bytes: &[u8], sizes: &mut [u8]) -> Result<(), Fault> {
        if let Some(at) = self.wrong_offset(bytes) {
            return Err(Fault::at(6, self.index, at));
        }
        need(!self.primary_spare(bytes), || Fault::at(7, self.index, self.offsets - 1))?;
        need(!self.parts_spare(bytes), || Fault::at(7, self.index, self.end - 1))?;
        let mut values = [0; CHUNK];
        let values = &mut values[..self.n];
        self.values(bytes, values);
        if let Some(&over) = values.iter().find(|&&value| value > 63) {
            return Err(Fault::at(8, self.index, self.start).with(over.into(), 63));
        }
        for (size, &value) in sizes.iter_mut().zip(values.iter()) {
            *size = value.min(u16::from(DENSE)) as u8;
        }
        Ok(())
    }

    /// The first offset that is not below n or not over the one before it.
    fn wrong_offset(&self, bytes: &[u8]) -> Option<usize> {
        (self.offsets..self.parts).find(|&at| {
            usize::from(bytes[at]) >= self.n || at > self.offsets && bytes[at] <= bytes[at - 1]
        })
    }

    /// Whether the primary array's last byte has spare bits set.
    pub fn primary_spare(&self, bytes: &[u8]) -> bool {
        spare_bits(&bytes[self.start + 3..self.offsets], self.n * self.b1)
    }

    /// Whether the last byte of the exception parts has spare bits set.
    pub fn parts_spare(&self, bytes: &[u8]) -> bool {
        spare_bits(&bytes[self.parts..self.end], self.e * self.b2)
    }

    /// The descriptors as plain sums, up to 510. The offsets are below n.
    pub fn values(&self, bytes: &[u8], values: &mut [u16]) {
        unpack(&bytes[self.start + 3..self.offsets], self.b1, self.m.into(), values);
        if self.b2 == 0 {
            return;
        }
        let mut parts = [0; CHUNK];
        unpack(&bytes[self.parts..self.end], self.b2, 0, &mut parts[..self.e]);
        for (&offset, part) in bytes[self.offsets..self.parts].iter().zip(parts) {
            values[usize::from(offset)] += part << self.b1;
        }
    }
}

/// A sparse container rises strictly; a dense one has at least 32 members.
pub fn well_formed(container: &[u8]) -> bool {
    if container.len() == usize::from(DENSE) {
        return members(container) >= u32::from(DENSE);
    }
    rising(container)
}

#[cfg(test)]
mod tests;
