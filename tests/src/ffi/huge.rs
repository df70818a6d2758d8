//! A list longer than memory.

use std::ffi::{c_int, c_void};
use std::ptr::null_mut;
use std::slice::from_raw_parts_mut;

extern "C" {
    fn mmap(
        at: *mut c_void,
        length: usize,
        protection: c_int,
        flags: c_int,
        file: c_int,
        offset: i64,
    ) -> *mut c_void;
    fn munmap(start: *mut c_void, length: usize) -> c_int;
}

const READ_AND_WRITE: c_int = 3;
/// Private, of no file, and without memory kept ready for it.
const PRIVATE_AND_EMPTY: c_int = 0x4022;

/// Room for 4,294,967,297 rows of one field: in 32 bits the room and the rows are 3 and 1.
pub const HUGE: usize = 3 << 32 | 3;

/// So many numbers, all 0. Only those that are written take memory.
pub struct HugeList {
    start: *mut u64,
    length: usize,
}

impl HugeList {
    /// Nothing without that much address room.
    pub fn new(length: usize) -> Option<HugeList> {
        let bytes = length.checked_mul(size_of::<u64>())?;
        let start = unsafe { mmap(null_mut(), bytes, READ_AND_WRITE, PRIVATE_AND_EMPTY, -1, 0) };
        (start as isize != -1).then_some(HugeList { start: start.cast(), length })
    }

    pub fn numbers(&mut self) -> &mut [u64] {
        unsafe { from_raw_parts_mut(self.start, self.length) }
    }
}

impl Drop for HugeList {
    fn drop(&mut self) {
        let code = unsafe { munmap(self.start.cast(), self.length * size_of::<u64>()) };
        assert_eq!(code, 0, "the list is not given back");
    }
}
