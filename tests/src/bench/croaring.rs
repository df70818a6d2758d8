//! CRoaring's chain: deserialise both portable bitmaps, operate, serialise.

use super::{calls, median, once, RUNS};
use crate::reference::bitmap::Operation;
use std::ffi::{c_char, c_void};
use std::hint::black_box;

type Roaring = *mut c_void;

extern "C" {
    fn roaring_bitmap_of_ptr(count: usize, values: *const u32) -> Roaring;
    fn roaring_bitmap_portable_size_in_bytes(bitmap: Roaring) -> usize;
    fn roaring_bitmap_portable_serialize(bitmap: Roaring, out: *mut c_char) -> usize;
    fn roaring_bitmap_portable_deserialize_safe(bytes: *const c_char, length: usize) -> Roaring;
    fn roaring_bitmap_or(a: Roaring, b: Roaring) -> Roaring;
    fn roaring_bitmap_and(a: Roaring, b: Roaring) -> Roaring;
    fn roaring_bitmap_andnot(a: Roaring, b: Roaring) -> Roaring;
    fn roaring_bitmap_xor(a: Roaring, b: Roaring) -> Roaring;
    fn roaring_bitmap_free(bitmap: Roaring);
}

fn portable(set: &[u32]) -> Vec<u8> {
    unsafe {
        let bitmap = roaring_bitmap_of_ptr(set.len(), set.as_ptr());
        let mut out = vec![0; roaring_bitmap_portable_size_in_bytes(bitmap)];
        roaring_bitmap_portable_serialize(bitmap, out.as_mut_ptr().cast());
        roaring_bitmap_free(bitmap);
        out
    }
}

fn combine(operation: Operation, a: &[u8], b: &[u8], out: &mut Vec<u8>) {
    unsafe {
        let a = roaring_bitmap_portable_deserialize_safe(a.as_ptr().cast(), a.len());
        let b = roaring_bitmap_portable_deserialize_safe(b.as_ptr().cast(), b.len());
        let result = match operation {
            Operation::Union => roaring_bitmap_or(a, b),
            Operation::Intersection => roaring_bitmap_and(a, b),
            Operation::Difference => roaring_bitmap_andnot(a, b),
            Operation::SymmetricDifference => roaring_bitmap_xor(a, b),
        };
        let length = roaring_bitmap_portable_size_in_bytes(result);
        if out.len() < length {
            out.resize(length, 0);
        }
        black_box(roaring_bitmap_portable_serialize(result, out.as_mut_ptr().cast()));
        roaring_bitmap_free(a);
        roaring_bitmap_free(b);
        roaring_bitmap_free(result);
    }
}

/// Seconds for one chain.
pub fn measure(operation: Operation, first: &[u32], second: &[u32]) -> f64 {
    let (a, b) = (portable(first), portable(second));
    let mut out = Vec::new();
    let mut chain = || combine(operation, &a, &b, &mut out);
    let count = calls(&mut chain);
    median((0..RUNS).map(|_| once(count, &mut chain)).collect())
}
