//! What a thermal camera keeps: pixel masks as Mumbling bitmaps, readings in uncompressed Paimon row
//! blocks and Mosaic buckets, and a store of masks for two owners.
//!
//! Every call goes to a library that is proved for every input: it ends, and does its work or gives the
//! one [`Refusal`] that comes first. Calls keep no state: any number of threads may use them at once, and
//! none needs more than 64 KiB of stack.
//!
//! Slices go in, and a `Result` comes out. The modules [`bitmap`] and [`number`] have the calls on
//! slices; [`Bitmap`], [`Store`], [`Schema`], [`Block`] and [`Bucket`] hold what was judged once.
//! [`raw`] is the C interface itself.
//!
//! ```
//! use barcovento::Bitmap;
//! let zone = Bitmap::from_positions(&[0, 34, 255])?;
//! assert_eq!(zone.as_bytes(), [1, 3, 0, 0, 1, 0, 0, 0, 3, 0, 34, 255]);
//! let more = &zone | &Bitmap::from_positions(&[256])?;
//! assert_eq!(more.iter().collect::<Vec<_>>(), [0, 34, 255, 256]);
//! assert_eq!((more.contains(34), more.rank(256)), (true, 3));
//!
//! let refusal = Bitmap::from_bytes(&[1, 3, 0, 0, 1, 0, 0, 0, 3, 0, 0, 255]).unwrap_err();
//! assert_eq!(refusal.number(), 10);
//! assert_eq!(refusal.fault().unwrap().byte, 9);
//! # Ok::<(), barcovento::Refusal>(())
//! ```
#![deny(unsafe_op_in_unsafe_fn)]
#![warn(missing_docs)]

pub mod bitmap;
mod block;
mod bucket;
mod field;
pub mod number;
#[allow(missing_docs)]
pub mod raw;
mod refusal;
mod schema;
mod set;
mod store;

pub use block::{Block, BlockPages, BlockRows};
pub use bucket::{Bucket, BucketRows, ColumnPages};
pub use field::{Field, Page};
pub use refusal::{Fault, Refusal};
pub use schema::{Column, Schema, Type};
pub use set::{Bitmap, Members};
pub use store::Store;
