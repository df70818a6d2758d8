//! Links CRoaring if it is asked for. The wrapper links the library's archive.
use std::env;

fn main() {
    println!("cargo:rerun-if-changed=build.rs");
    if env::var("CARGO_FEATURE_CROARING").is_ok() {
        println!("cargo:rustc-link-lib=roaring");
    }
}
