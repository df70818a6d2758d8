//! Check, explain, probe, rank and a full listing.

use super::{bitmaps, form, measure, Line, Print};
use crate::reference::bitmap as reference;
use crate::reference::bitmap::explain as reference_explain;
use barcovento::bitmap::{self, Listing};
use std::hint::black_box;

type Check = unsafe extern "C" fn(*const u8, usize, *mut u32) -> u32;
type Explain = unsafe extern "C" fn(
    *const u8,
    usize,
    *mut u32,
    *mut usize,
    *mut usize,
    *mut usize,
    *mut usize,
) -> u32;
type Probe = unsafe extern "C" fn(*const u8, usize, u32, *mut u8) -> u32;
type Rank = unsafe extern "C" fn(*const u8, usize, u32, *mut u32) -> u32;
type Page =
    unsafe extern "C" fn(*const u8, usize, *mut u32, *mut u8, *mut u32, usize, *mut u32) -> u32;

pub fn run(print: Print) {
    for (name, set) in bitmaps() {
        let bytes = form(&set);
        let bytes = bytes.as_slice();
        let before = earlier!(bv_bitmap_check as Check);
        print(measure("check", name, before, &mut |call| check(call, bytes), &mut || {
            black_box(reference::check(black_box(bytes))).ok();
        }));
        print(explain_line("explain", name, bytes));
        let mut refused = bytes.to_vec();
        refused[1] ^= 1;
        print(explain_line("explain, refused 11", name, &refused));
        let position = set[set.len() / 2];
        let before = earlier!(bv_bitmap_probe as Probe);
        print(measure(
            "probe",
            name,
            before,
            &mut |call| probe(call, bytes, position),
            &mut || {
                black_box(reference::probe(black_box(bytes), position)).ok();
            },
        ));
        let before = earlier!(bv_bitmap_rank as Rank);
        print(measure("rank", name, before, &mut |call| rank(call, bytes, position), &mut || {
            black_box(reference::rank(black_box(bytes), position)).ok();
        }));
        let (mut first, mut second) = (vec![0; set.len()], vec![0; set.len()]);
        let before = earlier!(bv_bitmap_page as Page);
        let listing = &mut |call| list(call, bytes, &mut first);
        print(measure("full listing", name, before, listing, &mut || {
            black_box(reference::page(black_box(bytes), 0, false, &mut second)).ok();
        }));
        assert_eq!(first, set);
        assert_eq!(second, set);
    }
}

fn explain_line(name: &str, input: &str, bytes: &[u8]) -> Line {
    let before = earlier!(bv_bitmap_explain as Explain);
    measure(name, input, before, &mut |call| explain(call, bytes), &mut || {
        black_box(reference_explain::explain(black_box(bytes)));
    })
}

fn explain(earlier: Option<Explain>, bytes: &[u8]) {
    let Some(call) = earlier else {
        black_box(bitmap::explain(bytes));
        return;
    };
    let (mut number, mut index, mut byte, mut found, mut wanted) = (0, 0, 0, 0, 0);
    let code = unsafe {
        call(
            bytes.as_ptr(),
            bytes.len(),
            &mut number,
            &mut index,
            &mut byte,
            &mut found,
            &mut wanted,
        )
    };
    black_box((code, number, index, byte, found, wanted));
}

fn check(earlier: Option<Check>, bytes: &[u8]) {
    let Some(call) = earlier else {
        black_box(bitmap::check(bytes).ok());
        return;
    };
    let mut cardinality = 0;
    let code = unsafe { call(bytes.as_ptr(), bytes.len(), &mut cardinality) };
    black_box((code, cardinality));
}

fn probe(earlier: Option<Probe>, bytes: &[u8], position: u32) {
    let Some(call) = earlier else {
        black_box(bitmap::probe(bytes, position).ok());
        return;
    };
    let mut member = 0;
    let code = unsafe { call(bytes.as_ptr(), bytes.len(), position, &mut member) };
    black_box((code, member));
}

fn rank(earlier: Option<Rank>, bytes: &[u8], position: u32) {
    let Some(call) = earlier else {
        black_box(bitmap::rank(bytes, position).ok());
        return;
    };
    let mut below = 0;
    let code = unsafe { call(bytes.as_ptr(), bytes.len(), position, &mut below) };
    black_box((code, below));
}

fn list(earlier: Option<Page>, bytes: &[u8], list: &mut [u32]) {
    let Some(call) = earlier else {
        black_box(bitmap::page(bytes, &mut Listing::default(), list).ok());
        return;
    };
    let (mut place, mut finished, mut given) = (0, 0, 0);
    let code = unsafe {
        call(
            bytes.as_ptr(),
            bytes.len(),
            &mut place,
            &mut finished,
            list.as_mut_ptr(),
            list.len(),
            &mut given,
        )
    };
    black_box((code, place, finished, given));
}
