//! The writing call of bitmaps.

use super::{written, Called, Lent};
use crate::generate::Random;
use barcovento::raw::bv_bitmap_write;

pub fn write(positions: &Lent<u32>, room: usize, random: &mut Random) -> Called<Vec<u8>> {
    written(&[positions], room, random, |out, room, length| unsafe {
        bv_bitmap_write(positions.pointer(), positions.length, out, room, length)
    })
}
