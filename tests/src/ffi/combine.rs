//! The set operations.

use super::{written, Called, Lent};
use crate::generate::Random;
use crate::reference::bitmap::Operation;
use barcovento::bitmap;

/// The operation as the wrapper names it.
pub fn named(operation: Operation) -> bitmap::Operation {
    match operation {
        Operation::Union => bitmap::Operation::Union,
        Operation::Intersection => bitmap::Operation::Intersection,
        Operation::Difference => bitmap::Operation::Difference,
        Operation::SymmetricDifference => bitmap::Operation::SymmetricDifference,
    }
}

pub fn combine(
    operation: Operation,
    a: &Lent<u8>,
    b: &Lent<u8>,
    room: usize,
    random: &mut Random,
) -> Called<Vec<u8>> {
    let call = named(operation).call();
    written(&[a, b], room, random, |out, room, length| unsafe {
        call(a.pointer(), a.length, b.pointer(), b.length, out, room, length)
    })
}
