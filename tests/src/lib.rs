//! The second program, and what compares it with the library.

#[cfg(all(feature = "library", feature = "standin"))]
compile_error!("the calls come either from the library or from the stand-in");

#[cfg(feature = "calls")]
pub mod bench;
#[cfg(feature = "calls")]
pub mod differential;
#[cfg(feature = "calls")]
pub mod ffi;
pub mod generate;
pub mod reference;
#[cfg(feature = "standin")]
pub mod standin;
