//! An earlier library, loaded beside the one that is linked: a shared object that BV_BEFORE names.

use std::ffi::{c_char, c_int, c_void, CString};
use std::mem::{size_of, transmute_copy};
use std::sync::OnceLock;

extern "C" {
    fn dlopen(file: *const c_char, flags: c_int) -> *mut c_void;
    fn dlsym(library: *mut c_void, name: *const c_char) -> *mut c_void;
}

const RTLD_NOW: c_int = 2;

/// The library's handle as a number; none without BV_BEFORE.
fn library() -> Option<usize> {
    static LIBRARY: OnceLock<Option<usize>> = OnceLock::new();
    *LIBRARY.get_or_init(|| {
        let file = std::env::var("BV_BEFORE").ok()?;
        let name = CString::new(file.as_str()).expect("a file name");
        let library = unsafe { dlopen(name.as_ptr(), RTLD_NOW) };
        assert!(!library.is_null(), "cannot load {file}");
        Some(library as usize)
    })
}

/// The call of this name. `C` is its type, a pointer to a function; nothing checks that it is the right one.
pub fn call<C: Copy>(name: &str) -> Option<C> {
    let library = library()?;
    let symbol = CString::new(name).expect("a name");
    let call = unsafe { dlsym(library as *mut c_void, symbol.as_ptr()) };
    assert_eq!(size_of::<C>(), size_of::<*mut c_void>());
    (!call.is_null()).then(|| unsafe { transmute_copy(&call) })
}
