//! Writing lists of positions.

use super::{bitmaps, form, measure, Print};
use crate::reference::bitmap as reference;
use barcovento::bitmap;
use std::hint::black_box;

/// An earlier library may write a short last chunk longer, by less than so many bytes.
const MORE: usize = 256;

type Write = unsafe extern "C" fn(*const u32, usize, *mut u8, usize, *mut usize) -> u32;

pub fn run(print: Print) {
    let full = ("full, 2,097,152 members", (0..2_097_152).collect());
    for (name, set) in bitmaps().into_iter().chain([full]) {
        let expected = form(&set);
        let room = expected.len() + MORE;
        let (mut first, mut second) = (vec![0; room], vec![0; room]);
        let before = earlier!(bv_bitmap_write as Write);
        let writing = &mut |call| write(call, &set, &mut first);
        print(measure("write", name, before, writing, &mut || {
            black_box(reference::write(black_box(&set), &mut second)).ok();
        }));
        assert_eq!(first[..expected.len()], expected);
        assert_eq!(second[..expected.len()], expected);
    }
}

fn write(earlier: Option<Write>, set: &[u32], out: &mut [u8]) {
    let Some(call) = earlier else {
        black_box(bitmap::write(set, out).ok());
        return;
    };
    let mut length = 0;
    let code = unsafe { call(set.as_ptr(), set.len(), out.as_mut_ptr(), out.len(), &mut length) };
    black_box((code, length));
}
