//! Wrong judges of whether accepted bytes are the one written form of their set.

use super::super::explain::{chunk_at, count, values};
use super::super::planted;
use crate::generate::bitmap::packing::{packed_by, widths, Width};
use crate::reference::bitmap::{self, Bitmap};

pub const FAULTS: [&str; 14] = [
    "accepted-is-enough",
    "trailing-containers-accepted",
    "dense-bits-accepted",
    "smaller-least-accepted",
    "useless-exceptions-accepted",
    "wider-parts-accepted",
    "wider-parts-of-none-accepted",
    "other-widths-accepted",
    "larger-width-on-a-tie-accepted",
    "whole-chunk-cost-accepted",
    "whole-chunk-cost-asked-for",
    "first-chunk-not-compared",
    "last-chunk-not-compared",
    "first-chunk-compared-alone",
];

/// Whether the bytes are taken for a form.
pub fn is_form(bytes: &[u8]) -> bool {
    let Ok(judged) = Bitmap::judge(bytes) else { return false };
    if planted("whole-chunk-cost-asked-for") {
        return packed_by(&judged.members(), Width::whole_chunk_cost) == bytes;
    }
    if !FAULTS.iter().any(|name| planted(name)) {
        return bitmap::is_form(bytes);
    }
    planted("accepted-is-enough") || is_form_by_chunks(bytes)
}

fn is_form_by_chunks(bytes: &[u8]) -> bool {
    let chunks = count(bytes).div_ceil(256);
    let compared = |index: &usize| match () {
        () if planted("first-chunk-not-compared") => *index > 0,
        () if planted("last-chunk-not-compared") => index + 1 < chunks,
        () if planted("first-chunk-compared-alone") => *index == 0,
        () => true,
    };
    let trailing = (0..chunks)
        .next_back()
        .is_some_and(|last| values(bytes, &chunk_at(bytes, last)).last() == Some(&0));
    (!trailing || planted("trailing-containers-accepted"))
        && (0..chunks).filter(compared).all(|index| is_written(bytes, index))
}

/// Whether a chunk is packed as in the form.
fn is_written(bytes: &[u8], index: usize) -> bool {
    let chunk = chunk_at(bytes, index);
    let descriptors: Vec<u8> = values(bytes, &chunk).iter().map(|&value| value as u8).collect();
    if descriptors.iter().any(|&value| value > 32) && !planted("dense-bits-accepted") {
        return false;
    }
    let least = descriptors.iter().copied().min().unwrap_or(0);
    if chunk.m != least {
        return planted("smaller-least-accepted") && chunk.m < least;
    }
    let widths = widths(&descriptors);
    let Some(width) = widths.get(chunk.b1) else { return planted("other-widths-accepted") };
    let exceptions = chunk.e == width.e || planted("useless-exceptions-accepted");
    let b2 = if width.e == 0 { 0 } else { width.b2 };
    let parts = match () {
        () if planted("wider-parts-accepted") => true,
        () if planted("wider-parts-of-none-accepted") => chunk.b2 == b2 || chunk.e == 0,
        () if planted("useless-exceptions-accepted") => chunk.b2 == b2 || width.e == 0,
        () => chunk.b2 == b2,
    };
    exceptions && parts && is_chosen(&widths, chunk.b1)
}

/// Whether b1 is the width to choose.
fn is_chosen(widths: &[Width], b1: usize) -> bool {
    let by = |cost: fn(&Width) -> (usize, usize)| {
        widths.iter().min_by_key(|width| cost(width)).map(|width| width.b) == Some(b1)
    };
    by(|width| (width.cost(), width.b))
        || planted("other-widths-accepted")
        || planted("larger-width-on-a-tie-accepted") && by(|width| (width.cost(), 8 - width.b))
        || planted("whole-chunk-cost-accepted") && by(|width| (width.whole_chunk_cost(), width.b))
}
