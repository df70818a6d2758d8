//! The four set operations, bytes to bytes.

use super::{earlier, form, measure, random_set, Line, Print};
use crate::ffi::combine::named;
use crate::generate::Random;
use crate::reference::bitmap::{self as reference, Operation, OPERATIONS};
use barcovento::bitmap;
use barcovento::raw::Combine;
use std::hint::black_box;

pub fn run(print: Print) {
    let mut random = Random::new(2);
    let pairs = [
        ("0.05 %", 8192, 0.0005),
        ("5 %", 8192, 0.05),
        ("12.5 %", 8192, 0.125),
        ("20 %", 8192, 0.2),
        ("50 %", 8192, 0.5),
        ("two containers, 20 %", 2, 0.2),
    ];
    for (name, containers, chance) in pairs {
        let first = random_set(&mut random, containers, chance);
        let second = random_set(&mut random, containers, chance);
        for operation in OPERATIONS {
            print(large(operation, name, &first, &second));
        }
        for operation in OPERATIONS {
            print(exact(operation, name, &form(&first), &form(&second)));
        }
    }
}

/// With an output that takes any form, and CRoaring beside it.
fn large(operation: Operation, name: &str, first: &[u32], second: &[u32]) -> Line {
    #[allow(unused_mut)]
    let mut line =
        line(operation, &format!("{operation:?}"), name, &form(first), &form(second), 268_390);
    #[cfg(feature = "croaring")]
    {
        line.roaring = Some(super::croaring::measure(operation, first, second));
    }
    line
}

/// With an output of exactly the form's length.
fn exact(operation: Operation, name: &str, a: &[u8], b: &[u8]) -> Line {
    let length = reference::combine(operation, a, b, &mut vec![0; 268_390]).expect("room for all");
    line(operation, &format!("{operation:?}, exact output"), name, a, b, length)
}

fn line(operation: Operation, call: &str, name: &str, a: &[u8], b: &[u8], room: usize) -> Line {
    let before = earlier::call::<Combine>(symbol(operation));
    let (mut out, mut expected) = (vec![0; room], vec![0; room]);
    let length = reference::combine(operation, a, b, &mut expected).expect("room for all");
    let line = measure(
        call,
        name,
        before,
        &mut |call| match call {
            None => {
                black_box(bitmap::combine(named(operation), a, b, &mut out).ok());
            }
            Some(call) => combine(call, a, b, &mut out),
        },
        &mut || {
            black_box(reference::combine(operation, a, b, &mut expected)).ok();
        },
    );
    assert!(out[..length] == expected[..length]);
    line
}

fn symbol(operation: Operation) -> &'static str {
    match operation {
        Operation::Union => "bv_bitmap_union",
        Operation::Intersection => "bv_bitmap_intersection",
        Operation::Difference => "bv_bitmap_difference",
        Operation::SymmetricDifference => "bv_bitmap_symmetric_difference",
    }
}

/// The earlier library's.
fn combine(call: Combine, a: &[u8], b: &[u8], out: &mut [u8]) {
    let mut length = 0;
    let code = unsafe {
        call(a.as_ptr(), a.len(), b.as_ptr(), b.len(), out.as_mut_ptr(), out.len(), &mut length)
    };
    black_box((code, length));
}
