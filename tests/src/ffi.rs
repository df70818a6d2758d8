//! The library's calls, with guarded buffers lent to each, and a look after every call at what it did to
//! the caller's memory.

use crate::generate::Random;
use std::ops::Range;
use std::ptr::NonNull;

pub mod buckets;
pub mod combine;
mod fields;
pub mod huge;
pub mod numbers;
pub mod read;
pub mod rows;
pub mod store;
pub mod write;

pub use fields::{Field, FieldPointers, Page};

/// What a call answered: its outputs or its refusal. The outer error tells of harmed memory.
pub type Called<T> = Result<Result<T, u32>, String>;

const GUARD: usize = 24;

/// A number that fills lent memory.
pub trait Cell: Copy + PartialEq {
    fn from_bits(bits: u64) -> Self;
}

macro_rules! cell {
    ($($number:ty),*) => {$(
        impl Cell for $number {
            fn from_bits(bits: u64) -> Self {
                bits as $number
            }
        }
    )*};
}
cell!(u8, u32, u64, i64, usize);

/// A lent slice with guard cells before and behind it.
pub struct Lent<T> {
    name: &'static str,
    cells: Vec<T>,
    before: Vec<T>,
    start: usize,
    length: usize,
    /// An empty slice may be lent with a pointer to no memory at all.
    dangling: bool,
}

impl<T: Cell> Lent<T> {
    /// An output: every cell holds a random pattern.
    pub fn output(name: &'static str, length: usize, random: &mut Random) -> Self {
        let start = random.between(1, GUARD);
        let mut pattern = random.word();
        let cells: Vec<T> = (0..start + length + GUARD)
            .map(|_| {
                pattern = pattern.rotate_left(9).wrapping_add(0x9E37_79B9_7F4A_7C15);
                T::from_bits(pattern)
            })
            .collect();
        Lent { name, before: cells.clone(), cells, start, length, dangling: random.once_in(2) }
    }

    pub fn input(name: &'static str, content: &[T], random: &mut Random) -> Self {
        let lent = Lent::output(name, 0, random);
        let (before, behind) = lent.cells.split_at(lent.start);
        let cells = [before, content, behind].concat();
        Lent { length: content.len(), before: cells.clone(), cells, ..lent }
    }

    /// One number that a call may read and set.
    pub fn scalar(name: &'static str, value: T, random: &mut Random) -> Self {
        Lent::input(name, &[value], random)
    }

    pub fn content(&self) -> &[T] {
        &self.cells[self.start..self.start + self.length]
    }

    pub fn value(&self) -> T {
        self.cells[self.start]
    }

    fn pointer(&self) -> *const T {
        if self.length == 0 && self.dangling {
            return NonNull::dangling().as_ptr();
        }
        self.content().as_ptr()
    }

    fn pointer_mut(&mut self) -> *mut T {
        if self.length == 0 && self.dangling {
            return NonNull::dangling().as_ptr();
        }
        self.cells[self.start..].as_mut_ptr()
    }
}

/// Lent memory that can be looked at after a call.
trait Memory {
    /// An error unless every cell but these of the lent slice is as before.
    fn unharmed_but(&self, free: Range<usize>) -> Result<(), String>;

    /// An error unless every cell but the first `free` of the lent slice is as before.
    fn unharmed(&self, free: usize) -> Result<(), String> {
        self.unharmed_but(0..free)
    }
}

impl<T: Cell> Memory for Lent<T> {
    fn unharmed_but(&self, free: Range<usize>) -> Result<(), String> {
        let free = self.start + free.start..self.start + free.end;
        if self.cells[..free.start] == self.before[..free.start]
            && self.cells[free.end..] == self.before[free.end..]
        {
            return Ok(());
        }
        let changed = (0..self.cells.len())
            .find(|&i| !free.contains(&i) && self.cells[i] != self.before[i])
            .unwrap_or(0);
        Err(format!(
            "memory harmed: '{}' of {} cells changed at cell {}",
            self.name,
            self.length,
            changed as i64 - self.start as i64
        ))
    }
}

/// The answer of a call that returned `code`, if it kept to the memory it may change: nothing of
/// the inputs, on success the first cells of each output, as many as its number says.
fn settle<T>(
    code: u32,
    inputs: &[&dyn Memory],
    outputs: &[(&dyn Memory, usize)],
    answer: impl FnOnce() -> T,
) -> Called<T> {
    for input in inputs {
        input.unharmed(0)?;
    }
    for &(output, free) in outputs {
        output.unharmed(if code == 0 { free } else { 0 })?;
    }
    Ok(if code == 0 { Ok(answer()) } else { Err(code) })
}

/// A 0 or 1, as the interface promises.
fn mark(name: &str, value: u8) -> Result<bool, String> {
    match value {
        0 => Ok(false),
        1 => Ok(true),
        _ => Err(format!("'{name}' is {value}, neither 0 nor 1")),
    }
}

fn within(name: &str, length: usize, room: usize) -> Result<usize, String> {
    if length > room {
        return Err(format!("'{name}' is {length} with a room of {room}"));
    }
    Ok(length)
}

/// Lends an output of `room` bytes and gives what the call wrote into it.
fn written(
    inputs: &[&dyn Memory],
    room: usize,
    random: &mut Random,
    call: impl FnOnce(*mut u8, usize, *mut usize) -> u32,
) -> Called<Vec<u8>> {
    let mut out = Lent::output("out", room, random);
    let mut length = Lent::output("length", 1, random);
    let code = call(out.pointer_mut(), room, length.pointer_mut());
    let mut count = 0;
    if code == 0 {
        count = within("length", length.value(), room)?;
    }
    settle(code, inputs, &[(&out, count), (&length, 1)], || out.content()[..count].to_vec())
}
