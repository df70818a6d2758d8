//! Wrong choices of b1 in what is written, and wrong readers that refuse what another choice gave.

use super::explain::{chunk_at, count, values};
use super::planted;
use crate::generate::bitmap::packing::{packed_by, packed_with, widths, Width};
use crate::generate::bitmap::used_containers;
use crate::reference::bitmap::Bitmap;

/// The faults, with the groups that must find each one.
pub fn faults() -> Vec<(&'static str, String)> {
    let writers = WRITERS.iter().map(|(name, _)| (["bitmap_write", "combine", "plans"], name));
    let readers = READERS.iter().map(|(name, _)| (["bitmap_read", "combine", "plans"], name));
    let groups = writers.chain(readers);
    groups.flat_map(|(groups, name)| groups.map(|group| (group, name.to_string()))).collect()
}

/// The b1 that a wrong writer chooses among the widths of a chunk; the bitmap has so many containers.
type Choose = fn(&[Width], usize) -> usize;

const WRITERS: [(&str, Choose); 7] = [
    ("cost-of-a-whole-chunk", |widths, _| least(widths, |w| (w.whole_chunk_cost(), w.b))),
    ("cost-rounded-down", |widths, _| least(widths, |w| (w.n * w.b / 8 + w.exceptions(), w.b))),
    ("cost-by-all-containers", |widths, count| least_by(widths, |_| count)),
    ("cost-by-the-first-chunk", |widths, count| least_by(widths, |_| count.min(256))),
    ("cost-by-n-in-a-byte", |widths, _| least_by(widths, |n| n % 256)),
    ("larger-width-on-a-tie", |widths, _| least(widths, |w| (w.cost(), 8 - w.b))),
    ("stops-at-a-whole-chunk", |widths, _| stopped(widths)),
];

fn least(widths: &[Width], cost: impl Fn(&Width) -> (usize, usize)) -> usize {
    widths.iter().min_by_key(|width| cost(width)).map_or(0, |width| width.b)
}

/// The width of least cost if n were another number.
fn least_by(widths: &[Width], another: impl Fn(usize) -> usize) -> usize {
    least(widths, |width| (Width { n: another(width.n), ..*width }.cost(), width.b))
}

/// The width of least cost up to the one from which a wider one would cost no less in a whole chunk.
fn stopped(widths: &[Width]) -> usize {
    let mut best = widths[0];
    for width in widths {
        if width.cost() < best.cost() {
            best = *width;
        }
        if best.cost() <= 32 * (width.b + 1) {
            break;
        }
    }
    best.b
}

/// Writes a form, with the widths of a wrong writer if one is planted.
pub fn write(
    out: &mut [u8],
    write: impl FnOnce(&mut [u8]) -> Result<usize, u32>,
) -> Result<usize, u32> {
    let Some((_, choose)) = WRITERS.iter().find(|(name, _)| planted(name)) else {
        return write(out);
    };
    let mut form = vec![0; 268_390];
    let length = write(&mut form)?;
    let set = Bitmap::judge(&form[..length])?.members();
    let count = used_containers(&set);
    let packed = packed_with(&set, |widths| choose(widths, count));
    out.get_mut(..packed.len()).ok_or(13u32)?.copy_from_slice(&packed);
    Ok(packed.len())
}

/// Whether a wrong reader refuses these accepted bytes.
type Refuses = fn(&[u8], &Bitmap) -> bool;

const READERS: [(&str, Refuses); 3] = [
    ("refuses-longer-chunks", |bytes, _| has_longer_last_chunk(bytes)),
    ("refuses-cost-of-a-whole-chunk", |bytes, bitmap| {
        let set = bitmap.members();
        packed_by(&set, Width::whole_chunk_cost) == bytes && packed_by(&set, Width::cost) != bytes
    }),
    ("refuses-longer-256", |bytes, _| bytes == [1, 1, 0, 0, 2, 0, 16, 1, 0, 1, 128, 0]),
];

/// Whether the last chunk can be written shorter.
fn has_longer_last_chunk(bytes: &[u8]) -> bool {
    let Some(last) = count(bytes).div_ceil(256).checked_sub(1) else { return false };
    let chunk = chunk_at(bytes, last);
    let descriptors: Vec<u8> = values(bytes, &chunk).iter().map(|&value| value as u8).collect();
    widths(&descriptors).iter().any(|width| 3 + width.cost() < chunk.end - chunk.start)
}

/// What a wrong reader, if one is planted, refuses these accepted bytes for.
pub fn refused(bytes: &[u8], bitmap: &Bitmap) -> Option<u32> {
    let (_, refuses) = READERS.iter().find(|(name, _)| planted(name))?;
    refuses(bytes, bitmap).then_some(5)
}

/// Judges any bytes as a wrong reader does, if one is planted.
pub fn judge(bytes: &[u8]) -> Result<(), u32> {
    if !READERS.iter().any(|(name, _)| planted(name)) {
        return Ok(());
    }
    let bitmap = Bitmap::judge(bytes)?;
    refused(bytes, &bitmap).map_or(Ok(()), Err)
}
